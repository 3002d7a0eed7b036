//! The figure of chosen nodes: the library against the rule with chosen nodes in Rust and in C, and against the rule for all nodes
//! where all are chosen.

use outside::arithmetic::S;
use outside::bitsets;
use outside::calls::{held, read, Call, MOST_STEPS};
use outside::chosen::{self, all_nodes, Terminals};
use outside::claims::{figure, figure_of, hold_figures_of};
use outside::desk::hold;
use outside::pieces::pieces;
use outside::plans::{Link, Plan};
use outside::random::Random;
use outside::repository::{plan, plans_with};
use outside::rule::{self, Answer, Network};
use outside::tables::Table;

const HALF: u32 = S / 2;

/// The choice of these nodes.
fn of(nodes: &[u8]) -> u64 {
    nodes.iter().map(|node| 1 << node).sum()
}

/// Some of the nodes: any set, a few, two, or all but a few.
fn any_choice(random: &mut Random, nodes: u16) -> u64 {
    let all = all_nodes(nodes);
    let mut few = || -> u64 {
        let count = 1 + random.below(3);
        (0..count).fold(0, |set, _| set | 1 << random.below(nodes.into()))
    };
    let (few, others) = (few(), few() | few());
    let choice = match random.below(5) {
        0 => random.next() & all,
        1 => random.next() & random.next() & all,
        2 => few,
        3 => all & !few,
        _ => others,
    };
    if choice == 0 {
        few
    } else {
        choice
    }
}

/// The answer of these nodes, in which the library and the rule in C agree with the rule.
fn agreed(plan: &Plan, choice: u64, limit: u64) -> Answer {
    let answer = figure_of(plan, choice, limit);
    let by_rule = chosen::figure(Terminals::of(plan, choice), limit);
    let in_c = bitsets::figure_of(plan, choice, limit);
    assert_eq!(by_rule, in_c, "{plan:?} {choice:b} {limit}");
    assert_eq!(answer, by_rule.into(), "{plan:?} {choice:b} {limit}");
    answer
}

/// How many answers there were of each kind.
#[derive(Debug, Default)]
struct Tried {
    apart: usize,
    certain: usize,
    finished: usize,
    unfinished: usize,
    more_splits: usize,
    fewer_splits: usize,
}

impl Tried {
    /// All that is claimed of the figure of these nodes, but for the sum over the states.
    fn hold(&mut self, plan: &Plan, choice: u64) {
        let (needed, answers) = hold_figures_of(plan, choice);
        for limit in [0, 1, needed.saturating_sub(1), needed, MOST_STEPS] {
            agreed(plan, choice, limit);
        }
        let of_all = rule::needed(Network::from(plan));
        let last = answers.last().unwrap();
        self.apart += usize::from(last.high == 0);
        self.certain += usize::from(last.low == i64::from(S));
        self.finished += usize::from(needed > 0);
        self.unfinished += usize::from(needed > 1);
        self.more_splits += usize::from(needed > of_all);
        self.fewer_splits += usize::from(needed < of_all);
    }

    fn least(&self) -> usize {
        let answers = [self.apart, self.certain, self.finished, self.unfinished];
        let splits = [self.more_splits, self.fewer_splits];
        answers.into_iter().chain(splits).min().unwrap()
    }
}

/// Loops, parallels, several pieces, lengths.
#[test]
fn small_plans() {
    let mut random = Random::new(211);
    let mut tried = Tried::default();
    for _ in 0..6_000 {
        let plan = Plan::random(&mut random, 10, 18);
        let choice = any_choice(&mut random, plan.nodes);
        tried.hold(&plan, choice);
    }
    assert!(tried.least() > 100, "too few of a kind: {tried:?}");
}

#[test]
fn meshed_plans() {
    let mut random = Random::new(212);
    let mut tried = Tried::default();
    for i in 0..1_500 {
        let nodes = 4 + (i % 7) as u8;
        let count = 6 + random.below(14);
        let plan = Plan::meshed(&mut random, nodes, count);
        let choice = any_choice(&mut random, plan.nodes);
        tried.hold(&plan, choice);
    }
    assert!(tried.more_splits > 300, "too few: {tried:?}");
    assert!(tried.unfinished > 500, "too few: {tried:?}");
}

/// Every link a length, each plan under a table of its own.
#[test]
fn plans_under_tables() {
    let mut random = Random::new(213);
    let mut tried = Tried::default();
    for _ in 0..800 {
        let plan = Plan::small_of_lengths(&mut random, 14);
        let plan = plan.under(&Table::random(&mut random));
        let choice = any_choice(&mut random, plan.nodes);
        tried.hold(&plan, choice);
    }
    assert!(tried.unfinished > 50, "too few: {tried:?}");
}

/// Two to four plans side by side, some of them joined by a link.
fn parts(random: &mut Random) -> Plan {
    let count = 2 + random.below(3) as u8;
    let mut whole = Plan::new(u16::from(5 * count), &[]);
    for part in 0..count {
        let links = 4 + random.below(7);
        for link in Plan::random_of(random, 5, links).links {
            let ends = link.ends.map(|v| 5 * part + v);
            whole.links.push(Link { ends, ..link });
        }
        if part > 0 && random.below(2) == 0 {
            let ends = [5 * part - 1, 5 * part].map(|v| v - random.below(2) as u8);
            let value = random.up_to(S.into()) as u32;
            whole.links.push(Link { ends, value });
        }
    }
    random.shuffle(&mut whole.links);
    whole
}

#[test]
fn plans_of_several_pieces() {
    let mut random = Random::new(214);
    let mut tried = Tried::default();
    let (mut separate, mut together) = (0, 0);
    for _ in 0..1_500 {
        let plan = parts(&mut random);
        let part = random.below(usize::from(plan.nodes) / 5);
        let choice = match random.below(3) {
            0 => any_choice(&mut random, plan.nodes),
            _ => any_choice(&mut random, 5) << (5 * part),
        };
        tried.hold(&plan, choice);
        let apart = pieces(&plan) > 1;
        separate += usize::from(apart);
        together += usize::from(apart && figure_of(&plan, choice, 1_000).high > 0);
    }
    assert!(separate > 1_000 && together > 500, "{separate} {together}");
    assert!(tried.unfinished > 100, "too few: {tried:?}");
}

/// Each set of nodes of plans of few nodes.
#[test]
fn every_choice_of_small_plans() {
    let mut random = Random::new(215);
    let mut tried = Tried::default();
    let mut plans = vec![Plan::complete(4, HALF), Plan::complete(5, S / 3)];
    for nodes in 1..=6 {
        for _ in 0..6 {
            let links = 3 + random.below(12);
            plans.push(Plan::random_of(&mut random, nodes, links));
        }
    }
    for links in [9, 10, 12, 15] {
        plans.push(Plan::meshed(&mut random, 6, links));
    }
    for plan in plans {
        for choice in 1..=all_nodes(plan.nodes) {
            tried.hold(&plan, choice);
        }
    }
    assert!(tried.least() > 40, "too few of a kind: {tried:?}");
}

/// The rule with chosen nodes, all of them chosen, gives what the rule for all nodes does; so does the library.
fn hold_all_chosen(plan: &Plan, limits: &[u64]) {
    let all = all_nodes(plan.nodes);
    let needed = rule::needed(Network::from(plan));
    assert_eq!(chosen::needed(Terminals::of(plan, all)), needed, "{plan:?}");
    for limit in limits.iter().chain(&[needed.saturating_sub(1), needed]) {
        let old = rule::figure(Network::from(plan), *limit);
        assert_eq!(agreed(plan, all, *limit), old.into(), "{plan:?} {limit}");
    }
}

#[test]
fn all_nodes_chosen() {
    let mut random = Random::new(216);
    for i in 0..1_500 {
        let plan = match i % 3 {
            0 => Plan::meshed(&mut random, 4 + (i % 6) as u8, 6 + i % 13),
            1 => parts(&mut random),
            _ => Plan::random(&mut random, 12, 18),
        };
        hold_all_chosen(&plan, &[0, 1, 5, MOST_STEPS]);
    }
}

#[test]
fn all_nodes_of_the_sample_plans_chosen() {
    for name in plans_with("plan").iter().filter(|name| *name != "mesh") {
        let plan = read(&plan(name)).unwrap();
        hold_all_chosen(&plan, &[0, 1, 10, 20_000]);
    }
    let mesh = read(&plan("mesh")).unwrap();
    for limit in [0, 1, 2, 500, 3_000] {
        let all = all_nodes(mesh.nodes);
        assert_eq!(agreed(&mesh, all, limit), figure(&mesh, limit));
    }
}

/// S at once, whatever the links: of all sizes, with 64 links, and of plans whose other nodes lie in other pieces.
#[test]
fn one_node_chosen() {
    let mut random = Random::new(217);
    let certain = Answer::at_once(S.into(), S.into());
    let mut plans = vec![Plan::new(32, &[]), Plan::complete(9, 0)];
    for nodes in 1..=32 {
        for links in [0, 1, 7, 40, 64] {
            plans.push(Plan::random_of(&mut random, nodes, links));
        }
    }
    plans.extend((0..20).map(|_| parts(&mut random)));
    for plan in plans {
        for node in 0..plan.nodes {
            for limit in [0, MOST_STEPS] {
                assert_eq!(agreed(&plan, 1 << node, limit), certain, "{plan:?} {node}");
            }
        }
    }
}

/// The four nodes of P10: one split with all chosen, two with nodes 0 and 1.
#[test]
fn fewer_chosen_nodes_may_take_more_splits() {
    let plan = Plan::alike(4, HALF, &[[0, 1], [0, 2], [0, 3], [1, 2], [1, 3], [2, 3]]);
    let answer = |low, high, steps, finished| Answer {
        low,
        high,
        steps,
        finished,
    };
    let (exact, whole) = (750_000_000, i64::from(S));
    let rows = [
        (15, 1, answer(593_749_999, 593_750_001, 1, true)),
        (15, 0, answer(0, whole, 0, false)),
        (3, 2, answer(exact, exact, 2, true)),
        (3, 20_000, answer(exact, exact, 2, true)),
        (3, 1, answer(500_000_000, whole, 1, false)),
        (3, 0, answer(0, whole, 0, false)),
    ];
    for (choice, limit, expected) in rows {
        assert_eq!(agreed(&plan, choice, limit), expected, "{choice:b} {limit}");
    }
    for pair in [[0, 2], [0, 3], [1, 2], [1, 3], [2, 3]] {
        let answer = agreed(&plan, of(&pair), MOST_STEPS);
        assert_eq!((answer.low, answer.high), (exact, exact), "{pair:?}");
    }
}

/// A path of halves: the links between the outermost chosen nodes count, and the others do not.
#[test]
fn paths() {
    let ends: Vec<[u8; 2]> = (0..7).map(|v| [v, v + 1]).collect();
    let plan = Plan::alike(8, HALF, &ends);
    for choice in 1..=all_nodes(8) {
        let between = choice.ilog2() - choice.trailing_zeros();
        let chance = i64::from(S) >> between;
        let exact = Answer::at_once(chance, chance);
        assert_eq!(agreed(&plan, choice, 0), exact, "{choice:b}");
    }
}

/// Nodes without a link, and pieces that would take splits, play no part where none of their nodes is chosen, and make the figure 0
/// where one is and another one is not among them.
#[test]
fn pieces_without_a_chosen_node() {
    let mut links: Vec<(u8, u8, u32)> = vec![(20, 21, HALF), (21, 22, HALF)];
    for (a, b) in (0..8).flat_map(|b| (0..b).map(move |a| (a, b))) {
        links.insert(0, (a, b, S / 10 * 9));
    }
    links.extend([(5, 5, 0), (21, 21, HALF), (20, 21, HALF)]);
    let plan = Plan::new(31, &links);
    let complete = rule::needed(Network::from(&Plan::complete(8, HALF)));
    assert_eq!(complete, 722);
    let at_once = |units: u32| Answer::at_once(units.into(), units.into());
    for (nodes, units) in [
        (&[20u8, 21][..], S / 4 * 3),
        (&[20, 22], S / 8 * 3),
        (&[20, 21, 22], S / 8 * 3),
        (&[21, 22], HALF),
        (&[30], S),
        (&[3, 20], 0),
        (&[20, 30], 0),
        (&[0, 1, 2, 3, 4, 5, 6, 7, 30], 0),
        (&[29, 30], 0),
    ] {
        for limit in [0, 1, MOST_STEPS] {
            assert_eq!(agreed(&plan, of(nodes), limit), at_once(units), "{nodes:?}");
        }
    }
    let eight = agreed(&plan, all_nodes(8), MOST_STEPS);
    assert_eq!((eight.steps, eight.finished), (complete, true));
}

/// A part that hangs on one broken link comes off with it, and takes no further split.
#[test]
fn pieces_that_come_off() {
    let mut random = Random::new(218);
    let mut more = 0;
    for _ in 0..200 {
        let count = 8 + random.below(3);
        let mut plan = Plan::meshed(&mut random, 5, count);
        let beside = Plan::meshed(&mut random, 5, 8).links;
        for link in beside {
            let ends = link.ends.map(|v| 5 + v);
            plan.links.push(Link { ends, ..link });
        }
        plan.nodes = 10;
        for _ in 0..=random.below(2) {
            let ends = [random.below(5) as u8, 5 + random.below(5) as u8];
            let value = random.up_to(S.into()) as u32;
            plan.links.push(Link { ends, value });
        }
        random.shuffle(&mut plan.links);
        let choice = any_choice(&mut random, 5);
        let (needed, _) = hold_figures_of(&plan, choice);
        more += usize::from(needed > 3);
        agreed(&plan, choice, MOST_STEPS);
        agreed(&plan, choice, needed / 2);
    }
    assert!(more > 50, "too few: {more}");
}

/// Plans of 32 nodes and 64 links, two nodes chosen, under limits that are too small for most.
#[test]
fn large_plans() {
    let mut random = Random::new(219);
    let mesh = read(&plan("mesh")).unwrap();
    let mut plans = vec![mesh];
    for nodes in [16, 24, 31, 32] {
        plans.push(Plan::random_of(&mut random, nodes, 64));
        plans.push(Plan::meshed(&mut random, nodes as u8, 64));
    }
    let mut unfinished = 0;
    for plan in plans {
        let last = plan.nodes as u8 - 1;
        for choice in [of(&[0, last]), of(&[last - 1, last]), of(&[3, 7, 11])] {
            let answers = [0, 1, 2, 60, 400, 2_500].map(|limit| agreed(&plan, choice, limit));
            for pair in answers.windows(2) {
                assert!(pair[0].low <= pair[1].low && pair[1].high <= pair[0].high);
            }
            unfinished += usize::from(!answers[5].finished);
        }
    }
    assert!(unfinished > 10, "too few: {unfinished}");
}

/// The library against the rule in C alone, which is faster.
fn held_to_c(plan: &Plan, choice: u64, limit: u64) -> Answer {
    let expected = Answer::from(bitsets::figure_of(plan, choice, limit));
    let call = Call::Figure {
        plan: &plan.bytes(),
        choice,
        limit,
    };
    hold(&call, 24, &Ok(Some(expected)));
    expected
}

#[test]
fn the_mesh_at_many_steps() {
    let mesh = read(&plan("mesh")).unwrap();
    let steps = |answer: Answer| (answer.steps, answer.finished);
    let limit = 20_000;
    assert_eq!(steps(agreed(&mesh, of(&[0, 31]), limit)), (limit, false));
    for (choice, limit) in [
        (of(&[0, 31]), 60_000),
        (of(&[0, 16]), 450_000),
        (of(&[3, 20, 30]), MOST_STEPS),
    ] {
        assert_eq!(steps(held_to_c(&mesh, choice, limit)), (limit, false));
    }
}

/// Each number of nodes with many numbers of links.
#[test]
fn plans_of_all_sizes() {
    let mut random = Random::new(220);
    for nodes in 1..=32 {
        for links in (0..=64).step_by(4) {
            let plan = Plan::random_of(&mut random, nodes, links);
            let choice = any_choice(&mut random, plan.nodes);
            let steps = agreed(&plan, choice, 150).steps;
            for limit in [0, 1, steps.saturating_sub(1), steps] {
                agreed(&plan, choice, limit);
            }
        }
    }
}

/// With chances between a half and one.
fn with_chances(random: &mut Random, mut plan: Plan) -> Plan {
    for link in &mut plan.links {
        link.value = S - random.below(S as usize / 2) as u32;
    }
    plan
}

/// Plans of many splits to their end, and one step less.
#[test]
fn plans_of_many_splits() {
    let mut random = Random::new(221);
    for (nodes, splits) in [(7, 100), (8, 700), (9, 5_000)] {
        let plan = with_chances(&mut random, Plan::complete(nodes, 0));
        let choice = of(&[1, nodes - 2]);
        let needed = bitsets::figure_of(&plan, choice, MOST_STEPS).steps;
        assert!(needed > splits, "{needed}");
        for limit in [needed - 1, needed] {
            let answer = agreed(&plan, choice, limit);
            assert_eq!((answer.steps, answer.finished), (limit, limit == needed));
        }
    }
}

/// The same of very many splits, by the rule in C alone.
#[test]
fn plans_of_very_many_splits() {
    let mut random = Random::new(222);
    for (nodes, splits) in [(10, 40_000), (11, 300_000)] {
        let plan = with_chances(&mut random, Plan::complete(nodes, 0));
        let choice = of(&[0, nodes - 1]);
        let needed = bitsets::figure_of(&plan, choice, MOST_STEPS).steps;
        assert!(needed > splits, "{needed}");
        for limit in [needed - 1, needed] {
            let answer = held_to_c(&plan, choice, limit);
            assert_eq!((answer.steps, answer.finished), (limit, limit == needed));
        }
    }
}

/// The number that a call with this choice is refused with; the buffer has a guard behind.
fn refused(plan: &[u8], choice: u64, limit: u64, room: usize, table: &[u8]) -> Option<u64> {
    let call = Call::Figure {
        plan,
        choice,
        limit,
    };
    held(call.under(table), room).err()
}

/// Choices that are refused with so many nodes.
fn wrong_choices(nodes: u16) -> Vec<u64> {
    let (all, next) = (all_nodes(nodes), 1 << nodes);
    let mut wrong = vec![0, next, next + 1, next | all, u64::MAX, !all, 1 << 63];
    wrong.extend([
        1 << 32,
        (1 << 32) + 1,
        all << 32,
        all | 1 << 63,
        all | 1 << 32,
    ]);
    wrong.extend((nodes..64).map(|bit| 1 << bit));
    wrong.extend((nodes..64).map(|bit| 1 | 1 << bit));
    wrong
}

#[test]
fn choices_that_are_refused() {
    for nodes in [1, 2, 3, 8, 16, 30, 31, 32] {
        let ring: Vec<[u8; 2]> = (0..nodes as u8)
            .map(|v| [v, (v + 1) % nodes as u8])
            .collect();
        let plan = &Plan::alike(nodes, HALF, &ring).bytes();
        for choice in wrong_choices(nodes) {
            for room in [16, 17, 40] {
                let number = refused(plan, choice, 5, room, &[]);
                assert_eq!(number, Some(14), "{nodes} {choice:x}");
            }
        }
        let all = all_nodes(nodes);
        let last = 1 << (nodes - 1);
        for choice in [1, last, last | 1, all, all & !1 | last, all & !last | 1] {
            assert_eq!(
                refused(plan, choice, 5, 16, &[]),
                None,
                "{nodes} {choice:x}"
            );
        }
    }
}

/// 14 comes behind all others, whichever choice is wrong.
#[test]
fn the_choice_is_tested_last() {
    let good = Plan::new(3, &[(0, 1, HALF), (1, 2, HALF)]);
    let with = |change: &dyn Fn(&mut Plan)| {
        let mut plan = good.clone();
        change(&mut plan);
        plan.bytes()
    };
    let file = good.bytes();
    let many = with(&|plan| plan.links = vec![plan.links[0]; 65]);
    let plans = [
        (vec![], 1),
        (file[..3].to_vec(), 1),
        (with(&|plan| plan.nodes = 0), 2),
        (with(&|plan| plan.nodes = 33), 2),
        (with(&|plan| plan.nodes = 256), 2),
        (many, 3),
        (file[..15].to_vec(), 4),
        ([&file[..], &[0]].concat(), 4),
        (with(&|plan| plan.links[1].ends[0] = 3), 5 + 256),
        (with(&|plan| plan.links[0].value = S + 1), 6),
        (with(&|plan| plan.links[1].value = u32::MAX), 6 + 256),
    ];
    let rises = [S, 5, 6].map(u32::to_le_bytes).concat();
    let rises = &[&rises[..], &[0; 2_036]].concat();
    for choice in wrong_choices(3) {
        assert_eq!(refused(&file, choice, 5, 16, &[]), Some(14));
        assert_eq!(refused(&file, choice, 1_000_001, 16, &[]), Some(7));
        assert_eq!(
            refused(&file, choice, choice.max(1 << 20), 16, &[]),
            Some(7)
        );
        assert_eq!(refused(&file, choice, 5, 15, &[]), Some(9));
        assert_eq!(refused(&file, choice, 5, 0, &[]), Some(9));
        assert_eq!(refused(&file, choice, 5, 16, &[1]), Some(12));
        assert_eq!(refused(&file, choice, 5, 16, rises), Some(13));
        for (plan, number) in &plans {
            assert_eq!(refused(plan, choice, 5, 16, &[]), Some(*number));
        }
    }
    for (plan, number) in &plans {
        assert_eq!(refused(plan, 3, 5, 16, &[]), Some(*number));
    }
}
