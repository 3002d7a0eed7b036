//! Figures, importances and differences of random plans against exact sums over the states, and against what is claimed of
//! them: of the independent version of the rule, and of the library.

use outside::claims::{
    difference, hold_differences, hold_figure, hold_importances, importance, Signs,
};
use outside::plans::Plan;
use outside::random::Random;
use outside::states::MOST;

#[test]
fn figures_of_thousands_of_plans() {
    let mut random = Random::new(11);
    let plans = (0..6_000).map(|_| Plan::random(&mut random, 10, 12));
    let splits: u64 = plans.map(|plan| hold_figure(&plan)).sum();
    assert!(splits > 1_000, "too few splits to try anything: {splits}");
}

#[test]
fn figures_of_plans_with_sixteen_links() {
    let mut random = Random::new(12);
    let plans = (0..150).map(|i| Plan::random_of(&mut random, 5 + i % 4, MOST));
    let splits: u64 = plans.map(|plan| hold_figure(&plan)).sum();
    assert!(splits > 200, "too few splits to try anything: {splits}");
}

#[test]
fn importances_of_every_link() {
    let mut random = Random::new(13);
    for _ in 0..400 {
        hold_importances(&Plan::random(&mut random, 8, 12));
    }
}

/// Plans that have nothing to do with each other, and plans that are alike but for a value and a link.
fn two_plans(random: &mut Random) -> [Plan; 2] {
    let a = Plan::random(random, 8, 10);
    let mut b = Plan::random(random, 8, 10);
    if random.below(2) == 0 {
        b = a.clone();
        b.links.pop();
        if let Some(link) = b.links.first_mut() {
            link.value = random.below(1_000) as u32;
        }
    }
    [a, b]
}

#[test]
fn differences_both_ways_round() {
    let mut random = Random::new(14);
    let mut signs = Signs::default();
    for _ in 0..800 {
        let [a, b] = two_plans(&mut random);
        hold_differences(&mut signs, &a, &b);
    }
    let fewest = signs.below.min(signs.across).min(signs.above);
    assert!(fewest > 500, "too few of a sign: {signs:?}");
}

/// The steps of an importance and of a difference are those of both evaluations, each under the whole limit.
#[test]
fn steps_add() {
    let plan = &Plan::complete(5, 500_000_000);
    for (limit, steps, finished) in [(3, 6, false), (5, 10, true), (6, 10, true)] {
        let twice = difference(plan, plan, limit);
        assert_eq!((twice.steps, twice.finished), (steps, finished), "{limit}");
    }
    for (limit, steps, finished) in [(1, 2, false), (2, 3, false), (3, 4, true)] {
        let both = importance(plan, 0, limit);
        assert_eq!((both.steps, both.finished), (steps, finished), "{limit}");
    }
}
