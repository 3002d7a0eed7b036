//! The library, the rule in C with bit sets and the straightforward version give the same bytes, on random plans of all kinds.

use outside::arithmetic::S;
use outside::calls::{answer_of, limits_around, read};
use outside::pieces::pieces;
use outside::plans::{Link, Plan};
use outside::random::Random;
use outside::repository::{plan, plans_with};
use outside::rule::{needed, Answer, Network};
use outside::tables::Table;
use outside::versions::{in_c, library, straightforward, Version};
use std::collections::HashSet;

const OTHERS: [(&str, Version); 2] = [("library", library), ("in C", in_c)];

/// The answer to a plan under a limit, in which the versions have to agree.
fn agreed(plan: &Plan, limit: u64) -> Answer {
    let expected = straightforward(plan, limit);
    let answer = answer_of(&expected);
    for (name, version) in OTHERS {
        let bytes = version(plan, limit);
        let other = answer_of(&bytes);
        assert!(
            bytes == expected,
            "straightforward: {answer}; {name}: {other}; limit {limit}, {plan:?}"
        );
    }
    answer
}

/// How many plans and answers there were of each kind.
#[derive(Debug, Default)]
struct Tried {
    loops: usize,
    parallels: usize,
    separate: usize,
    finished: usize,
    unfinished: usize,
}

impl Tried {
    fn plan(&mut self, plan: &Plan) {
        let ends = plan.links.iter().map(|link| link.ends);
        let joined = ends
            .filter(|[a, b]| a != b)
            .map(|[a, b]| (a.min(b), a.max(b)));
        let joined: Vec<(u8, u8)> = joined.collect();
        let pairs = joined.iter().collect::<HashSet<_>>().len();
        self.loops += usize::from(joined.len() < plan.links.len());
        self.parallels += usize::from(pairs < joined.len());
        self.separate += usize::from(pieces(plan) > 1);
    }

    /// Answers without a split are not counted.
    fn answer(&mut self, answer: &Answer) {
        self.finished += usize::from(answer.finished && answer.steps > 0);
        self.unfinished += usize::from(!answer.finished && answer.steps > 0);
    }

    fn hold(&mut self, plan: &Plan, limits: &[u64]) {
        self.plan(plan);
        for limit in limits {
            self.answer(&agreed(plan, *limit));
        }
    }

    fn least(&self) -> usize {
        let plans = [self.loops, self.parallels, self.separate];
        let answers = [self.finished, self.unfinished];
        plans.into_iter().chain(answers).min().unwrap()
    }
}

/// Around the splits needed, and far from them.
fn limits(random: &mut Random, plan: &Plan) -> Vec<u64> {
    let needed = needed(Network::from(plan));
    let mut limits = limits_around(needed);
    limits.extend([1, random.up_to(needed)]);
    limits
}

#[test]
fn small_plans() {
    let mut random = Random::new(71);
    let mut tried = Tried::default();
    for _ in 0..10_000 {
        let plan = Plan::random(&mut random, 10, 18);
        tried.hold(&plan, &limits(&mut random, &plan));
    }
    assert!(tried.least() > 1_000, "too few of a kind: {tried:?}");
}

/// Two plans and up to three links between them: where those are broken, there are several pieces.
fn two_parts(random: &mut Random) -> Plan {
    let mut links = Plan::random_of(random, 5, 10).links;
    for link in Plan::random_of(random, 5, 10).links {
        let ends = link.ends.map(|v| 5 + v);
        links.push(Link { ends, ..link });
    }
    for _ in 0..=random.below(3) {
        let ends = [random.below(5) as u8, 5 + random.below(5) as u8];
        let value = random.up_to(S.into()) as u32;
        links.push(Link { ends, value });
    }
    random.shuffle(&mut links);
    let table = Table::BuiltIn;
    Plan {
        nodes: 10,
        links,
        table,
    }
}

#[test]
fn plans_of_two_parts() {
    let mut random = Random::new(74);
    let mut tried = Tried::default();
    for _ in 0..1_000 {
        let plan = two_parts(&mut random);
        tried.hold(&plan, &limits(&mut random, &plan));
    }
    assert!(tried.least() > 100, "too few of a kind: {tried:?}");
}

/// Every link a length or half of them, so that most links start with unequal values.
#[test]
fn plans_of_lengths() {
    let mut random = Random::new(75);
    let mut tried = Tried::default();
    for i in 0..3_000 {
        let of_ten = [10, 5][i % 2];
        let plan = Plan::random(&mut random, 12, 22).with_lengths(&mut random, of_ten);
        tried.hold(&plan, &limits(&mut random, &plan));
    }
    for nodes in 1..=32 {
        let plan = Plan::random_of(&mut random, nodes, 64).with_lengths(&mut random, 10);
        tried.hold(&plan, &[0, 1, 50, 400]);
    }
    assert!(tried.least() > 300, "too few of a kind: {tried:?}");
}

/// Each number of nodes with each number of links.
#[test]
fn plans_of_all_sizes() {
    let mut random = Random::new(72);
    let mut tried = Tried::default();
    for (nodes, links) in (1..=32).flat_map(|n| (0..=64).map(move |m| (n, m))) {
        let plan = Plan::random_of(&mut random, nodes, links);
        let steps = agreed(&plan, 200).steps;
        let limits = [0, 1, steps.saturating_sub(1), steps, random.up_to(200)];
        tried.hold(&plan, &limits);
    }
    assert!(tried.least() > 500, "too few of a kind: {tried:?}");
}

/// Sparse and dense ones, at the splits needed, or 5,000, and one less.
#[test]
fn plans_of_many_splits() {
    let mut random = Random::new(73);
    let mut tried = Tried::default();
    for (nodes, links) in [(7, 64), (9, 36), (12, 28), (16, 32), (20, 36), (32, 64)].repeat(10) {
        let plan = Plan::random_of(&mut random, nodes, links);
        let steps = agreed(&plan, 5_000).steps;
        tried.hold(&plan, &[steps.saturating_sub(1), steps]);
    }
    assert!(tried.least() > 10, "too few of a kind: {tried:?}");
}

#[test]
fn the_sample_plans() {
    for name in plans_with("plan") {
        let plan = read(&plan(&name)).unwrap();
        for limit in [0, 1, 2, 50, 20_000] {
            agreed(&plan, limit);
        }
    }
}
