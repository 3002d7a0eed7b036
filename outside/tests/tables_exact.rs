//! Random plans with lengths under random tables: the calls against exact sums over the states, and against what is claimed of them.

use outside::arithmetic::S;
use outside::calls::MOST_STEPS;
use outside::claims::{
    by_first_link, difference, figure, hold, hold_between, hold_differences, hold_figure,
    hold_importances, importance, to_the_end, Signs,
};
use outside::plans::{of_ten, Plan, LENGTH};
use outside::random::Random;
use outside::rule::{needed_by, Choice, Network};
use outside::sittings::NOTHING;
use outside::states::{widest, Exact, MOST};
use outside::tables::{Table, COUNT};

/// Small plans of all kinds, with lengths, each under a table of its own.
fn small_plan(random: &mut Random, most_links: usize) -> Plan {
    let plan = Plan::small_of_lengths(random, most_links);
    plan.under(&Table::random(random))
}

#[test]
fn figures_against_exact_sums() {
    let mut random = Random::new(181);
    let mut splits = 0;
    for i in 0..1_000usize {
        let of_ten = of_ten(&mut random);
        let plan = match i % 3 {
            0 => Plan::random(&mut random, 10, 11),
            _ => Plan::meshed(&mut random, (4 + i % 4) as u8, 6 + i % 6),
        };
        let plan = plan.with_lengths(&mut random, of_ten);
        splits += hold_figure(&plan.under(&Table::random(&mut random)));
    }
    assert!(splits > 700, "too few splits: {splits}");
}

#[test]
fn figures_of_sixteen_lengths_against_exact_sums() {
    let mut random = Random::new(182);
    let mut splits = 0;
    for i in 0..40 {
        let plan = Plan::meshed(&mut random, 7 + i % 6, MOST);
        let plan = plan.with_lengths(&mut random, 10);
        assert_eq!((plan.links.len(), plan.lengths()), (MOST, MOST));
        splits += hold_figure(&plan.under(&Table::random(&mut random)));
    }
    assert!(splits > 150, "too few splits: {splits}");
}

#[test]
fn importances_against_exact_sums() {
    let mut random = Random::new(183);
    let plans = (0..200).map(|_| small_plan(&mut random, 11));
    let steps: u64 = plans.map(|plan| hold_importances(&plan)).sum();
    assert!(steps > 800, "too few steps: {steps}");
}

/// Plans that have nothing to do with each other, and a plan with the same plan in which one length is another or is left out, both under
/// the one table.
#[test]
fn differences_against_exact_sums() {
    let mut random = Random::new(184);
    let mut signs = Signs::default();
    for i in 0..300 {
        let a = small_plan(&mut random, 10);
        let mut b = small_plan(&mut random, 10).under(&a.table);
        if i % 2 == 0 && !a.links.is_empty() {
            b = a.clone();
            let place = random.below(b.links.len());
            match i % 4 {
                0 => b.links[place].value = LENGTH + random.below(COUNT) as u32,
                _ => drop(b.links.remove(place)),
            }
        }
        hold_differences(&mut signs, &a, &b);
    }
    let fewest = signs.below.min(signs.across).min(signs.above);
    assert!(fewest > 200, "{signs:?}");
}

/// Sittings from nothing end as one run does; sittings from the first link's work may end with another pair. Both enclose the exact
/// figure all the way.
#[test]
fn sittings_against_exact_sums() {
    let mut random = Random::new(185);
    let mut cut = 0;
    for _ in 0..300 {
        let plan = small_plan(&mut random, 14);
        let exact = Exact::figure(&plan);
        let afresh = to_the_end(&mut random, &plan, &NOTHING);
        hold(&exact, &afresh, widest(&plan));
        assert_eq!(*afresh.last().unwrap(), figure(&plan, MOST_STEPS));
        let first_link = needed_by(Choice::FirstLink, Network::from(&plan));
        let old = by_first_link(&plan, first_link / 2);
        let carried = to_the_end(&mut random, &plan, &old);
        hold(&exact, &carried, widest(&plan));
        cut += usize::from(afresh.len() > 2) + usize::from(carried.len() > 2);
    }
    assert!(cut > 90, "too few cut: {cut}");
}

/// Exact figures worked out apart, in fractions, with p = value * J * J / S^3: p^3 of a path of three links, 3 p^2 - 2 p^3 of a triangle,
/// 16 p^3 q^3 + 15 p^4 q^2 + 6 p^5 q + p^6 of four nodes, each two joined.
#[test]
fn exact_figures_that_are_known() {
    let table = Table::telling();
    let path = [[0, 1], [1, 2], [2, 3]];
    let triangle = [[0, 1], [1, 2], [0, 2]];
    for (plan, floor) in [
        (Plan::alike(4, LENGTH + 100, &path), 673_270_881),
        (Plan::alike(3, LENGTH + 256, &triangle), 763_388_536),
        (Plan::complete(4, LENGTH + 511), 341_309_777),
    ] {
        let plan = plan.under(&table);
        hold_between(&Exact::figure(&plan), floor, &figure(&plan, 20));
    }
}

/// With each value S a length has its joints alone, as a length of 0 has; with each value but the first 0 a link of 100 metres and more
/// is never sound.
#[test]
fn the_highest_and_the_lowest_table() {
    let highest = Table::of(&[S; COUNT]);
    let mut values = vec![0; COUNT];
    values[0] = S;
    let lowest = Table::of(&values);
    let mut random = Random::new(186);
    for _ in 0..40 {
        let plan = Plan::small_of_lengths(&mut random, 12);
        let with = |value: &dyn Fn(u32) -> u32| {
            let mut plan = plan.clone();
            for link in &mut plan.links {
                link.value = link.length().map_or(link.value, value);
            }
            plan
        };
        let joints_alone = with(&|_| LENGTH);
        let worthless = with(&|k| if k == 0 { LENGTH } else { 0 });
        for (table, meant) in [(&highest, joints_alone), (&lowest, worthless)] {
            let plan = plan.clone().under(table);
            assert_eq!(figure(&plan, 50), figure(&meant, 50));
            for place in 0..plan.links.len() {
                let answer = importance(&plan, place, 50);
                assert_eq!(answer, importance(&meant, place, 50));
            }
            let none = Plan::new(2, &[]);
            let answer = difference(&none.clone().under(table), &plan, 50);
            assert_eq!(answer, difference(&none, &meant, 50));
        }
    }
}
