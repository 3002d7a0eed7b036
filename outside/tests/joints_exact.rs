//! Random plans with lengths, alone and among values in units: the calls against the rule and against exact sums.

use outside::calls::{limits_around, MOST_STEPS};
use outside::claims::{
    by_first_link, difference, figure, hold, hold_differences, hold_figure, hold_importances,
    hold_nested, importance, is_narrow, sat, sat_answer, splits, to_the_end, Signs,
};
use outside::plans::{of_ten, Plan, LENGTH};
use outside::random::Random;
use outside::rule::{needed_by, Choice, Network};
use outside::sittings::{Begun, NOTHING};
use outside::states::{widest, widest_difference, widest_importance, Exact, MOST};

/// Of few enough splits.
fn any_plan(random: &mut Random, most_links: usize, most_splits: u64) -> Plan {
    loop {
        let plan = Plan::of_lengths(random, most_links);
        if splits(&plan) <= most_splits {
            return plan;
        }
    }
}

/// Each call on plans of up to 28 links, held to the rule, at limits around the splits that they need.
#[test]
fn the_calls_on_random_plans() {
    let mut random = Random::new(152);
    let (mut lengths_alone, mut with_splits) = (0, 0);
    let mut before = any_plan(&mut random, 28, 1_000);
    for _ in 0..500 {
        let plan = any_plan(&mut random, 28, 1_000);
        let needed = splits(&plan);
        lengths_alone += usize::from(plan.lengths() == plan.links.len());
        with_splits += usize::from(needed > 1);
        for limit in limits_around(needed) {
            assert!(is_narrow(&figure(&plan, limit), widest(&plan)));
            let place = random.below(plan.links.len());
            let both = importance(&plan, place, limit);
            assert!(is_narrow(&both, widest_importance(&plan, place)));
            for (a, b) in [(&plan, &before), (&before, &plan)] {
                let both = difference(a, b, limit);
                assert!(is_narrow(&both, widest_difference(a, b)));
            }
            let first = sat(&plan, limit, &NOTHING);
            sat(&plan, random.up_to(needed), &first.work);
        }
        before = plan;
    }
    assert!(lengths_alone > 200 && with_splits > 200);
}

#[test]
fn the_calls_on_plans_of_64_links() {
    let mut random = Random::new(153);
    for nodes in [2, 5, 9, 14, 20, 26, 32] {
        for of_ten in [10, 5] {
            let mut plan = || Plan::random_of(&mut random, nodes, 64);
            let plans = [plan(), plan()];
            let [a, b] = plans.map(|plan| plan.with_lengths(&mut random, of_ten));
            for limit in [0, 1, 100, 3_000] {
                figure(&a, limit);
                difference(&a, &b, limit);
                importance(&a, random.below(64), limit);
                let first = sat(&a, limit, &NOTHING);
                sat(&a, 500, &first.work);
            }
        }
    }
}

/// Complete graphs at the splits that they need and at one less, in one run and in two sittings.
#[test]
fn the_calls_on_complete_graphs() {
    let mut random = Random::new(162);
    for (nodes, needed) in [(7, 119), (8, 722), (9, 5_054), (10, 40_528)] {
        let mut plan = || Plan::complete(nodes, 0).with_lengths(&mut random, 10);
        let (a, b) = (plan(), plan());
        for limit in [needed - 1, needed] {
            let whole = figure(&a, limit);
            assert_eq!((whole.steps, whole.finished), (limit, limit == needed));
            assert!(is_narrow(&whole, widest(&a)));
            assert_eq!(difference(&a, &b, limit).steps, 2 * limit);
            assert!(importance(&a, 5, limit).finished);
            let half = sat(&a, limit / 2, &NOTHING);
            let rest = sat(&a, limit - limit / 2, &half.work);
            assert_eq!(sat_answer(&rest), whole);
        }
    }
}

#[test]
fn figures_against_exact_sums() {
    let mut random = Random::new(154);
    let mut splits = 0;
    for i in 0..1_500usize {
        let of_ten = of_ten(&mut random);
        let plan = match i % 3 {
            0 => Plan::random(&mut random, 10, 11),
            _ => Plan::meshed(&mut random, (4 + i % 4) as u8, 6 + i % 6),
        };
        splits += hold_figure(&plan.with_lengths(&mut random, of_ten));
    }
    assert!(splits > 1_000, "too few splits: {splits}");
}

#[test]
fn figures_of_sixteen_lengths_against_exact_sums() {
    let mut random = Random::new(155);
    let mut splits = 0;
    for i in 0..60 {
        let plan = Plan::meshed(&mut random, 7 + i % 6, MOST);
        let plan = plan.with_lengths(&mut random, 10);
        assert_eq!((plan.links.len(), plan.lengths()), (MOST, MOST));
        splits += hold_figure(&plan);
    }
    assert!(splits > 200, "too few splits: {splits}");
}

#[test]
fn importances_against_exact_sums() {
    let mut random = Random::new(156);
    let plans = (0..250).map(|_| Plan::small_of_lengths(&mut random, 11));
    let steps: u64 = plans.map(|plan| hold_importances(&plan)).sum();
    assert!(steps > 1_000, "too few steps: {steps}");
}

/// Plans that have nothing to do with each other, and a plan with the same plan in which one length is another or is left out.
#[test]
fn differences_against_exact_sums() {
    let mut random = Random::new(157);
    let mut signs = Signs::default();
    for i in 0..400 {
        let a = Plan::small_of_lengths(&mut random, 10);
        let mut b = Plan::small_of_lengths(&mut random, 10);
        if i % 2 == 0 && !a.links.is_empty() {
            b = a.clone();
            let place = random.below(b.links.len());
            match i % 4 {
                0 => b.links[place].value = LENGTH + random.below(512) as u32,
                _ => drop(b.links.remove(place)),
            }
        }
        hold_differences(&mut signs, &a, &b);
    }
    let fewest = signs.below.min(signs.across).min(signs.above);
    assert!(fewest > 300, "{signs:?}");
}

/// Two plans of sixteen lengths each: 96 powers of S in the exact difference.
#[test]
fn differences_of_sixteen_lengths() {
    let mut random = Random::new(158);
    for _ in 0..8 {
        let mut plan = || Plan::meshed(&mut random, 8, MOST);
        let plans = [plan(), plan()];
        let [a, b] = plans.map(|plan| plan.with_lengths(&mut random, 10));
        hold_differences(&mut Signs::default(), &a, &b);
    }
}

/// Sittings from nothing end as one run does; sittings from the first link's work may end with another pair. Both enclose the exact
/// figure all the way.
#[test]
fn sittings_against_exact_sums() {
    let mut random = Random::new(159);
    let (mut cut, mut changed) = (0, 0);
    for _ in 0..250 {
        let plan = Plan::small_of_lengths(&mut random, 14);
        let exact = Exact::figure(&plan);
        let afresh = to_the_end(&mut random, &plan, &NOTHING);
        hold(&exact, &afresh, widest(&plan));
        let whole = *afresh.last().unwrap();
        assert_eq!(whole, figure(&plan, MOST_STEPS));
        let first_link = needed_by(Choice::FirstLink, Network::from(&plan));
        for steps in [1, first_link / 2, first_link.saturating_sub(1)] {
            let old = by_first_link(&plan, steps);
            let carried = to_the_end(&mut random, &plan, &old);
            hold(&exact, &carried, widest(&plan));
            let end = carried.last().unwrap();
            changed += usize::from((end.low, end.high) != (whole.low, whole.high));
            cut += usize::from(carried.len() > 2);
        }
    }
    assert!(cut > 100 && changed > 5, "{cut} cut, {changed} changed");
}

/// Larger plans in sittings, by the rule alone: nested, and at the end what one run gives.
#[test]
fn sittings_of_larger_plans() {
    let mut random = Random::new(160);
    let mut cut = 0;
    for _ in 0..60 {
        let plan = any_plan(&mut random, 30, 2_000);
        let answers = to_the_end(&mut random, &plan, &NOTHING);
        hold_nested(&answers);
        assert_eq!(*answers.last().unwrap(), figure(&plan, MOST_STEPS));
        let old = by_first_link(&plan, 1 + random.up_to(splits(&plan)));
        to_the_end(&mut random, &plan, &old);
        cut += answers.len();
    }
    assert!(cut > 500, "{cut}");
}

/// Work from before the joints is not told from other work: begun, it is carried on with the values of now; complete, it stays.
#[test]
fn work_from_before_the_joints() {
    let mut random = Random::new(161);
    let mut other_pairs = 0;
    for _ in 0..150 {
        let plan = any_plan(&mut random, 24, 1_000);
        let before = plan.clone().without_joints();
        let needed = splits(&plan);
        let steps = random.up_to(needed);
        let [old, new] = [&before, &plan].map(|plan| sat(plan, steps, &NOTHING));
        assert_eq!(old.work[..4], new.work[..4]);
        if sat_answer(&old).finished {
            assert_eq!(sat(&plan, 9, &old.work), old);
            continue;
        }
        let [open, open_now] = [&old, &new].map(|sat| Begun::of(&sat.work));
        assert_eq!(open.places, open_now.places);
        other_pairs += usize::from(open.pairs != open_now.pairs);
        for limit in [0, 1, needed] {
            sat(&plan, limit, &old.work);
        }
    }
    assert!(other_pairs > 30, "{other_pairs}");
}
