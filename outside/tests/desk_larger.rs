//! Plans with too many links to sum over their states: the library against the independent version of the rule.

use outside::calls::{held, Call};
use outside::plans::Plan;
use outside::random::Random;
use outside::rule::{figure, Answer, Network};

/// The answer of an accepted call.
fn answer(call: Call) -> Answer {
    held(&call, 24).unwrap().unwrap()
}

/// Of all sizes, under each limit up to 60.
#[test]
fn figures_of_few_splits() {
    let mut random = Random::new(32);
    let mut finished = 0;
    for i in 0..120 {
        let plan = Plan::random_of(&mut random, 6 + i % 27, 17 + (i as usize * 7) % 48).bytes();
        let asked = |limit| answer(Call::figure(&plan, limit));
        finished += (0..60).filter(|limit| asked(*limit).finished).count();
    }
    assert!(finished > 1_000, "too few finished: {finished}");
}

/// At the splits needed, or 4,000, and one less and one more.
#[test]
fn figures_of_many_splits() {
    let mut random = Random::new(33);
    let mut most = 0;
    for _ in 0..40 {
        let plan = Plan::random_of(&mut random, 12, 30);
        let steps = figure(Network::from(&plan), 4_000).steps;
        let plan = &plan.bytes();
        for limit in [steps.saturating_sub(1), steps, steps + 1] {
            answer(Call::figure(plan, limit));
        }
        most = most.max(steps);
    }
    assert!(most > 500, "too few splits: {most}");
}

#[test]
fn importances_of_every_link() {
    let mut random = Random::new(35);
    for nodes in [2, 9, 20, 32] {
        let plan = &Plan::random_of(&mut random, nodes, 64).bytes();
        for place in 0..64 {
            let limit = 10 + place;
            answer(Call::Importance { plan, place, limit });
        }
    }
}

#[test]
fn differences() {
    let mut random = Random::new(36);
    for nodes in [2, 9, 20, 32] {
        let mut plan = || Plan::random_of(&mut random, nodes, 64).bytes();
        let (a, b) = (&plan(), &plan());
        for limit in 0..60 {
            answer(Call::Difference { a, b, limit });
            answer(Call::Difference { a: b, b: a, limit });
        }
    }
}
