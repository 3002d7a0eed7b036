//! The figure of chosen nodes against exact sums over the states, against what is claimed of it, and against what the source
//! documents print.

use outside::arithmetic::S;
use outside::calls::MOST_STEPS;
use outside::chosen::all_nodes;
use outside::claims::{figure_of, hold_between, hold_figure_of};
use outside::plans::{of_ten, Plan, LENGTH};
use outside::random::Random;
use outside::rule::Answer;
use outside::states::{Exact, MOST};
use outside::tables::Table;
use std::cmp::Ordering;

/// The choice of these nodes.
fn of(nodes: &[u8]) -> u64 {
    nodes.iter().map(|node| 1 << node).sum()
}

/// An exact figure, which low and high both are.
fn hold_known(plan: &Plan, choice: u64, exact: i64) {
    let answer = figure_of(plan, choice, MOST_STEPS);
    assert_eq!(
        (answer.low, answer.high, answer.finished),
        (exact, exact, true)
    );
    let sum = Exact::figure_of(plan, choice);
    assert_eq!(sum.compared(exact), Ordering::Equal);
}

/// Some of so many nodes.
fn any_choice(random: &mut Random, nodes: u16) -> u64 {
    let choice = match random.below(3) {
        0 => random.next() & random.next(),
        1 => random.next() | random.next(),
        _ => of(&[random.below(nodes.into()) as u8]) | 1 << random.below(nodes.into()),
    };
    match choice & all_nodes(nodes) {
        0 => 1,
        choice => choice,
    }
}

#[test]
fn random_plans_and_choices() {
    let mut random = Random::new(231);
    let mut splits = 0;
    for i in 0..1_500usize {
        let plan = match i % 3 {
            0 => Plan::random(&mut random, 10, 12),
            1 => Plan::random_of(&mut random, 4 + (i % 5) as u8, 10),
            _ => Plan::meshed(&mut random, (4 + i % 4) as u8, 6 + i % 7),
        };
        let choice = any_choice(&mut random, plan.nodes);
        splits += hold_figure_of(&plan, choice);
    }
    assert!(splits > 800, "too few splits: {splits}");
}

/// With lengths, each plan under a table of its own or the built-in one.
#[test]
fn lengths_and_tables() {
    let mut random = Random::new(232);
    let mut splits = 0;
    for i in 0..700usize {
        let of_ten = of_ten(&mut random);
        let plan = match i % 2 {
            0 => Plan::small_of_lengths(&mut random, 11),
            _ => Plan::meshed(&mut random, (4 + i % 3) as u8, 6 + i % 6),
        };
        let mut plan = plan.with_lengths(&mut random, of_ten);
        if i % 4 > 0 {
            plan = plan.under(&Table::random(&mut random));
        }
        let choice = any_choice(&mut random, plan.nodes);
        splits += hold_figure_of(&plan, choice);
    }
    assert!(splits > 300, "too few splits: {splits}");
}

#[test]
fn sixteen_links() {
    let mut random = Random::new(233);
    let mut splits = 0;
    for i in 0..40 {
        let plan = Plan::meshed(&mut random, 7 + i % 6, MOST);
        let plan = plan.with_lengths(&mut random, i as usize % 11);
        let choice = any_choice(&mut random, plan.nodes);
        splits += hold_figure_of(&plan, choice);
    }
    assert!(splits > 150, "too few splits: {splits}");
}

/// Each set of nodes of plans of up to six nodes.
#[test]
fn every_choice_of_small_plans() {
    let mut random = Random::new(234);
    let mut plans = vec![Plan::complete(4, S / 2), Plan::complete(5, S / 3)];
    for nodes in 1..=6 {
        plans.push(Plan::random_of(&mut random, nodes, 4));
        plans.push(Plan::random_of(&mut random, nodes, 9));
        let lengths = Plan::random_of(&mut random, nodes, 10).with_lengths(&mut random, 5);
        plans.push(lengths.under(&Table::random(&mut random)));
    }
    plans.extend([9, 11, 12].map(|links| Plan::meshed(&mut random, 6, links)));
    for plan in plans {
        for choice in 1..=all_nodes(plan.nodes) {
            hold_figure_of(&plan, choice);
        }
    }
}

/// The more nodes are chosen, the less is the chance: of plans of which every set is tried.
#[test]
fn more_chosen_nodes_are_no_likelier() {
    let mut random = Random::new(235);
    for _ in 0..10 {
        let plan = Plan::meshed(&mut random, 5, 8);
        let answers: Vec<Answer> = (1..=all_nodes(5))
            .map(|choice| figure_of(&plan, choice, MOST_STEPS))
            .collect();
        for (more, fewer) in (1..=31usize).flat_map(|x| (1..=31usize).map(move |y| (x, y))) {
            if more & fewer == fewer {
                assert!(answers[more - 1].low <= answers[fewer - 1].high);
            }
        }
    }
}

/// Exact figures worked out apart: of two ends of a path of three lengths p^3; of two nodes of a triangle p + q p^2, q = 1 - p; of two
/// of four nodes, each two joined, of halves 48 of 64 states.
#[test]
fn exact_figures_that_are_known() {
    let table = Table::telling();
    let path = Plan::alike(4, LENGTH + 100, &[[0, 1], [1, 2], [2, 3]]).under(&table);
    let answer = figure_of(&path, of(&[0, 3]), 0);
    hold_between(&Exact::figure_of(&path, of(&[0, 3])), 673_270_881, &answer);
    let triangle = Plan::alike(3, S / 10 * 9, &[[0, 1], [1, 2], [0, 2]]);
    for pair in [[0, 1], [1, 2], [0, 2]] {
        let exact = Exact::figure_of(&triangle, of(&pair));
        assert_eq!(exact.compared(981_000_000), Ordering::Equal);
        let answer = figure_of(&triangle, of(&pair), 0);
        assert_eq!(answer, Answer::at_once(981_000_000, 981_000_000));
    }
    let four = Plan::complete(4, S / 2);
    let exact = Exact::figure_of(&four, of(&[0, 1]));
    assert_eq!(exact.compared(750_000_000), Ordering::Equal);
}

/// Figure 1 of document 003 with the values of its example, but another for e3, the link between nodes 1 and 2. Its v1 to v4 are
/// nodes 0 to 3, and its e1 to e5 the links in order.
fn of_document_003(e3: u32) -> Plan {
    let links = [
        (0, 1, 900_000_000),
        (0, 2, 900_000_000),
        (1, 2, e3),
        (1, 3, 800_000_000),
        (2, 3, 900_000_000),
    ];
    Plan::new(4, &links)
}

/// Its table 1 for these values: of each pair of nodes the figure with e3 sound and with e3 broken. It prints their difference, the
/// importance of e3, with four digits, in which all six agree, and are exact; and the mean of the six by its weights, here in tenths,
/// as 0.02212, in which the five digits agree.
#[test]
fn the_example_of_document_003() {
    let rows = [
        ([0, 1], 990_000_000, 964_800_000, 252, 10),
        ([0, 2], 990_000_000, 964_800_000, 252, 8),
        ([0, 3], 970_200_000, 946_800_000, 234, 6),
        ([1, 2], 1_000_000_000, 946_800_000, 532, 7),
        ([1, 3], 980_000_000, 945_800_000, 342, 7),
        ([2, 3], 980_000_000, 964_800_000, 152, 8),
    ];
    let (sound, broken) = (of_document_003(S), of_document_003(0));
    let mut without = broken.clone();
    without.links.remove(2);
    let mut weighted = 0;
    for (pair, with, none, printed, tenths) in rows {
        let choice = of(&pair);
        hold_known(&sound, choice, with);
        hold_known(&broken, choice, none);
        hold_known(&without, choice, none);
        assert_eq!(with - none, printed * 100_000, "{pair:?}");
        weighted += tenths * (with - none);
    }
    assert_eq!(weighted / 60, 22_123_333);
    let e3 = of_document_003(950_000_000);
    for (pair, with, none, ..) in rows {
        hold_known(&e3, of(&pair), (95 * with + 5 * none) / 100);
    }
}

/// The two-terminal example of document 001, figure (1.4). Its drawing is not in our copy; its text gives eight links, all of chance p,
/// and a polynomial. Of the simple networks of six nodes and eight links this one alone, but for its names, has that polynomial. Nodes
/// 0 and 5 are s and t.
fn of_document_001(p: u32) -> Plan {
    let ends = [
        [0, 1],
        [0, 2],
        [1, 2],
        [1, 3],
        [2, 4],
        [3, 4],
        [3, 5],
        [4, 5],
    ];
    Plan::alike(6, p, &ends)
}

/// 2 p^3 + 4 p^4 - 2 p^5 - 13 p^6 + 14 p^7 - 4 p^8 in units, of a chance in tenths.
fn polynomial(tenths: i64) -> i64 {
    let terms = [(3, 2), (4, 4), (5, -2), (6, -13), (7, 14), (8, -4)];
    let term = |(power, factor): (u32, i64)| factor * tenths.pow(power) * 10i64.pow(9 - power);
    terms.map(term).iter().sum()
}

/// All nine digits agree, for p from 0 to 1 by tenths. Its tree of computation has four leaves, so three splits, as many as are taken
/// here. The bridge of figure (1.3) has a domination of 2, so two leaves, and takes one split; no chance is printed for it.
#[test]
fn the_examples_of_document_001() {
    for tenths in 0..=10 {
        let plan = of_document_001(S / 10 * tenths);
        hold_known(&plan, of(&[0, 5]), polynomial(tenths.into()));
        assert_eq!(figure_of(&plan, of(&[0, 5]), MOST_STEPS).steps, 3);
    }
    assert_eq!([polynomial(5), polynomial(9)], [328_125_000, 966_974_760]);
    let bridge = of_document_003(950_000_000);
    assert_eq!(figure_of(&bridge, of(&[0, 3]), MOST_STEPS).steps, 1);
}
