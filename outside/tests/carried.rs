//! Work set aside under the first link's rule and carried on: written by the independent version, which keeps that rule, carried on
//! by the library and held to the independent version. Also work of several sittings by either choice, in turns.

use outside::arithmetic::S;
use outside::calls::{read, MOST_STEPS};
use outside::claims::{hold, hold_nested, sat_answer as answer};
use outside::plans::Plan;
use outside::random::Random;
use outside::repository::{plan, plans_with};
use outside::rule::{needed_by, Answer, Choice, Network, CHOICES};
use outside::sittings::{
    held, most_splits, next_chosen, places_chosen, still_to_take, Begun, Sat, Sitting, NOTHING,
    RUNNING, WORK,
};
use outside::states::{widest, Exact, MOST};
use std::ops::Range;
use Choice::{FirstLink, LargestSum};

/// A sitting of the library.
fn carried(plan: &[u8], limit: u64, saved: &[u8]) -> Sat {
    held(&Sitting { plan, limit, saved }).unwrap()
}

/// A sitting by either choice: by the largest sum it is the library's, by the first link the independent version's alone.
fn sat_by(choice: Choice, plan: &[u8], limit: u64, saved: &[u8]) -> Sat {
    match choice {
        LargestSum => carried(plan, limit, saved),
        FirstLink => {
            let sitting = Sitting { plan, limit, saved };
            sitting.outcome_by(FirstLink, 16, WORK).unwrap()
        }
    }
}

fn finished(sat: &Sat) -> bool {
    sat.work[2] == 1
}

/// A plan and work of it that is begun.
struct Old {
    plan: Plan,
    file: Vec<u8>,
    saved: Vec<u8>,
}

impl Old {
    fn begun(&self) -> Begun {
        Begun::of(&self.saved)
    }

    fn sat(&self, limit: u64) -> Sat {
        carried(&self.file, limit, &self.saved)
    }

    fn still(&self) -> u64 {
        still_to_take(&self.file, &self.begun())
    }

    fn with_steps(&self, steps: u64) -> Old {
        let begun = Begun {
            steps: steps as u32,
            ..self.begun()
        };
        Old {
            plan: self.plan.clone(),
            file: self.file.clone(),
            saved: begun.bytes(),
        }
    }
}

/// How many open splits there were at which the choices differ, by the one that took them, and how many works with both.
#[derive(Debug, Default)]
struct Met {
    by: [usize; 2],
    mixed: usize,
}

impl Met {
    fn work(&mut self, old: &Old) {
        let begun = old.begun();
        let mut here = [0; 2];
        for (place, chosen) in begun.places.iter().zip(places_chosen(&old.file, &begun)) {
            if chosen[0] != chosen[1] {
                here[usize::from(*place == chosen[1])] += 1;
            }
        }
        self.by = [0, 1].map(|i| self.by[i] + here[i]);
        self.mixed += usize::from(here[0] > 0 && here[1] > 0);
    }
}

/// Meshed plans, plans of all kinds, complete graphs without some links; all of them with a split, and with few enough.
fn any_plan(random: &mut Random, most_links: usize, most_splits: u64) -> Plan {
    loop {
        let nodes = 4 + random.below(9) as u8;
        let count = 6 + random.below(most_links - 5);
        let plan = match random.below(4) {
            0 => Plan::random_of(random, nodes, count),
            1 => Plan::meshed(random, 4 + nodes % 4, count),
            _ => Plan::meshed(random, nodes, count),
        };
        let splits = needed_by(FirstLink, Network::from(&plan));
        if (2..=most_splits).contains(&splits) {
            return plan;
        }
    }
}

/// Work of sittings by these choices, each of some steps; none where one comes to the end.
fn work_by(random: &mut Random, plan: Plan, choices: &[Choice]) -> Option<Old> {
    let file = plan.bytes();
    let splits = needed_by(FirstLink, Network::from(&plan)).max(2);
    let mut saved = NOTHING.to_vec();
    for choice in choices {
        let steps = 1 + random.up_to((splits - 2) / choices.len() as u64);
        let sat = sat_by(*choice, &file, steps, &saved);
        if finished(&sat) {
            return None;
        }
        saved = sat.work;
    }
    Some(Old { plan, file, saved })
}

/// So many works of random plans, by each of these ways in turn.
fn works(random: &mut Random, count: usize, links: usize, ways: &[&[Choice]]) -> Vec<Old> {
    let mut all = Vec::new();
    while all.len() < count {
        let plan = any_plan(random, links, 2_000);
        all.extend(work_by(random, plan, ways[all.len() % ways.len()]));
    }
    all
}

/// Ways in which work came about. The library's sittings are those by the largest sum.
const MIXTURES: [&[Choice]; 5] = [
    &[LargestSum, FirstLink],
    &[FirstLink, LargestSum, FirstLink],
    &[LargestSum, FirstLink, LargestSum],
    &[FirstLink, LargestSum],
    &[FirstLink, LargestSum, FirstLink, LargestSum, FirstLink],
];

/// Carries work on to its end in sittings of some steps. Each is held to the independent version.
fn to_the_end(random: &mut Random, old: &Old) -> Sat {
    let mut sat = old.sat(0);
    assert_eq!(sat.work, old.saved);
    while !finished(&sat) {
        let steps = match random.below(3) {
            0 => random.up_to(2),
            _ => 1 + random.of_any_size(500),
        };
        sat = carried(&old.file, steps, &sat.work);
    }
    sat
}

fn hold_to_the_end(random: &mut Random, works: &[Old]) -> Met {
    let mut met = Met::default();
    for old in works {
        met.work(old);
        let last = to_the_end(random, old);
        assert_eq!(last, old.sat(MOST_STEPS));
        let steps = u64::from(old.begun().steps) + old.still();
        assert_eq!(answer(&last).steps, steps);
    }
    met
}

#[test]
fn work_of_the_first_link() {
    let mut random = Random::new(131);
    let works = works(&mut random, 400, 28, &[&[FirstLink]]);
    let met = hold_to_the_end(&mut random, &works);
    assert!(met.by[0] > 600 && met.by[1] == 0, "{met:?}");
}

#[test]
fn work_of_both_choices() {
    let mut random = Random::new(132);
    let works = works(&mut random, 400, 28, &MIXTURES);
    let met = hold_to_the_end(&mut random, &works);
    assert!(met.by.iter().all(|count| *count > 400), "{met:?}");
    assert!(met.mixed > 100, "{met:?}");
}

/// 64 links and most of them of more splits than are taken: one sitting after the other, by either choice in turns.
#[test]
fn large_plans() {
    let mut random = Random::new(133);
    let mut files = vec![plan("mesh")];
    files.extend((0..30).map(|i| Plan::meshed(&mut random, 12 + i % 21, 64).bytes()));
    let mut met = Met::default();
    for file in files {
        let mut saved = NOTHING.to_vec();
        for _ in 0..8 {
            let choice = CHOICES[random.below(2)];
            let steps = 1 + random.up_to(300);
            saved = sat_by(choice, &file, steps, &saved).work;
        }
        let plan = read(&file).unwrap();
        let old = Old { plan, file, saved };
        assert!(!finished(&old.sat(0)));
        met.work(&old);
        for limit in [1, 50, 2_000] {
            old.sat(limit);
        }
    }
    assert!(met.by.iter().all(|count| *count > 60), "{met:?}");
    assert!(met.mixed > 15, "{met:?}");
}

/// The sample plans, set aside after each step by the first link's rule.
#[test]
fn the_sample_plans() {
    for name in plans_with("plan").iter().filter(|name| *name != "mesh") {
        let file = plan(name);
        for steps in 0..60 {
            let first = sat_by(FirstLink, &file, steps, &NOTHING);
            for limit in [0, 1, 7, MOST_STEPS] {
                carried(&file, limit, &first.work);
            }
        }
    }
}

/// What is claimed of the answers from the same work, under all limits up to the splits still to take; how many are unfinished.
fn hold_enclosure(old: &Old) -> usize {
    let limits = 0..=old.still();
    let answers: Vec<Answer> = limits.map(|limit| answer(&old.sat(limit))).collect();
    hold(&Exact::figure(&old.plan), &answers, widest(&old.plan));
    assert!(answers.last().unwrap().finished);
    answers.iter().filter(|answer| !answer.finished).count()
}

/// Small plans, of which the exact figure is the sum over all states.
#[test]
fn carried_answers_enclose_exact_figures() {
    let mut random = Random::new(134);
    let mut met = Met::default();
    let (mut unfinished, mut changed) = (0, 0);
    for ways in [&[&[FirstLink][..]][..], &MIXTURES] {
        for old in works(&mut random, 150, MOST, ways) {
            assert!(old.plan.links.len() <= MOST);
            met.work(&old);
            unfinished += hold_enclosure(&old);
            let afresh = answer(&carried(&old.file, MOST_STEPS, &NOTHING));
            let end = answer(&old.sat(MOST_STEPS));
            changed += usize::from((afresh.low, afresh.high) != (end.low, end.high));
        }
    }
    assert!(unfinished > 1_000 && changed > 20, "{unfinished} {changed}");
    assert!(met.by.iter().all(|count| *count > 50), "{met:?}");
}

/// Larger plans: each pair from the same work lies within that of a smaller limit.
#[test]
fn nesting_from_the_same_work() {
    let mut random = Random::new(135);
    for old in works(&mut random, 120, 32, &MIXTURES) {
        let still = old.still();
        let mut limits: Vec<u64> = (0..8).map(|_| random.up_to(still + 1)).collect();
        limits.extend([0, 1, still.saturating_sub(1), still, MOST_STEPS]);
        limits.sort();
        let answers: Vec<Answer> = limits
            .iter()
            .map(|limit| answer(&old.sat(*limit)))
            .collect();
        hold_nested(&answers);
    }
}

/// Sittings from the same work end as one under their total does, in answer and saved work.
#[test]
fn sittings_add_up_from_the_same_work() {
    let mut random = Random::new(136);
    let mut cut = 0;
    for old in works(&mut random, 150, 28, &MIXTURES) {
        let still = old.still();
        for total in [
            random.up_to(still),
            still.saturating_sub(1),
            still,
            still + 9,
        ] {
            let one = old.sat(total);
            let (mut rest, mut sat) = (total, old.sat(0));
            while rest > 0 {
                let steps = 1 + random.of_any_size(rest - 1);
                sat = carried(&old.file, steps, &sat.work);
                rest -= steps;
                cut += 1;
            }
            assert_eq!(sat, one, "total {total}");
        }
    }
    assert!(cut > 2_000, "{cut}");
}

/// Unfinished exactly when the steps so far and the splits still to take come to more than those steps and the limit, or to more
/// than 1,000,000; the steps are the least of these.
fn hold_steps(old: &Old, limit: u64) -> bool {
    let (before, still) = (u64::from(old.begun().steps), old.still());
    let end = answer(&old.sat(limit));
    let unfinished = before + still > before + limit || before + still > MOST_STEPS;
    assert_eq!(end.finished, !unfinished, "{before} {still} {limit}");
    let least = (before + still).min(before + limit).min(MOST_STEPS);
    assert_eq!(end.steps, least, "{before} {still} {limit}");
    end.finished
}

#[test]
fn steps_and_marks() {
    let mut random = Random::new(137);
    let mut met = [0; 2];
    for ways in [&[&[FirstLink][..]][..], &MIXTURES] {
        for old in works(&mut random, 100, 28, ways) {
            let still = old.still();
            let around = [0, 1, still.saturating_sub(1), still, still + 1, MOST_STEPS];
            for limit in around.into_iter().chain([random.up_to(still)]) {
                met[usize::from(hold_steps(&old, limit))] += 1;
            }
        }
    }
    assert!(met.iter().all(|count| *count > 400), "{met:?}");
}

/// The same with other steps put in, so that the last split still to take is the last step that there may be, one before it or some
/// behind it.
#[test]
fn steps_and_marks_near_the_most() {
    let mut random = Random::new(138);
    let mut met = [0; 2];
    for old in works(&mut random, 60, 24, &MIXTURES) {
        let still = old.still();
        let last = MOST_STEPS - still;
        for steps in [last - 1, last, last + 1, MOST_STEPS - still / 2, MOST_STEPS] {
            let late = old.with_steps(steps.min(MOST_STEPS));
            for limit in [0, 1, still.saturating_sub(1), still, still + 1, MOST_STEPS] {
                met[usize::from(hold_steps(&late, limit))] += 1;
            }
        }
    }
    assert!(met.iter().all(|count| *count > 150), "{met:?}");
}

/// The mesh, by the first link's rule, then by the library to the most steps and no further, with 600,000 steps put in that were
/// not taken.
#[test]
fn the_mesh_to_the_most_steps() {
    let file = plan("mesh");
    let plan = read(&file).unwrap();
    let saved = sat_by(FirstLink, &file, 100_000, &NOTHING).work;
    let mut old = Old { plan, file, saved }.with_steps(700_000);
    for (limit, steps) in [
        (100_000, 800_000),
        (MOST_STEPS, MOST_STEPS),
        (7, MOST_STEPS),
    ] {
        let sat = old.sat(limit);
        assert_eq!((answer(&sat).steps, finished(&sat)), (steps, false));
        old.saved = sat.work;
    }
}

/// Every place at every open split, the others before it as they are and none behind: accepted exactly if it is the first link's or
/// that of the largest sum, whichever pair it has.
fn hold_places(old: &Old, met: &mut [usize; 3]) {
    let begun = old.begun();
    let beyond = [255, 256, 1 << 16, 1 << 31, u32::MAX];
    for (i, chosen) in places_chosen(&old.file, &begun).iter().enumerate() {
        for (place, pair) in (0..=65)
            .chain(beyond)
            .flat_map(|place| [RUNNING, [S / 3, S / 2]].map(|pair| (place, pair)))
        {
            let mut other = begun.first(i + 1);
            other.places[i] = place;
            other.pairs[i] = pair;
            let (plan, limit, saved) = (&old.file[..], 3, &other.bytes()[..]);
            let number = held(&Sitting { plan, limit, saved }).err().unwrap_or(0);
            let right = chosen.contains(&place);
            assert_eq!(
                number,
                if right { 0 } else { 11 },
                "{i}: {place} {chosen:?}"
            );
            met[usize::from(right)] += 1;
            met[2] += usize::from(right && i > 3 && chosen[0] != chosen[1]);
        }
    }
}

#[test]
fn either_place_at_every_open_split_and_no_other() {
    let mut random = Random::new(139);
    let mut met = [0; 3];
    for ways in [&[&[FirstLink][..]][..], &[&[LargestSum]], &MIXTURES] {
        for old in works(&mut random, 40, 28, ways) {
            hold_places(&old, &mut met);
        }
    }
    assert!(met[0] > 10_000 && met[1] > 500 && met[2] > 100, "{met:?}");
}

/// Work with these open splits put at the places of a choice, as far as there are splits behind one another then.
fn put_at(old: &Old, splits: Range<usize>, choice: usize) -> Begun {
    let mut begun = old.begun();
    for i in splits {
        match next_chosen(&old.file, &begun.first(i)) {
            Some(chosen) => begun.places[i] = chosen[choice],
            None => break,
        }
    }
    begun
}

/// The open splits of one run by one choice, taken by the other choice at each one alone, and at each one and all behind it.
#[test]
fn one_choice_for_the_other_at_each_open_split() {
    let mut random = Random::new(140);
    let mut met = [[0; 2]; 2];
    let works = works(&mut random, 80, 28, &[&[FirstLink], &[LargestSum]]);
    for (old, other) in works.iter().zip([1, 0].into_iter().cycle()) {
        let count = old.begun().places.len();
        for i in 0..count {
            for (met, end) in met.iter_mut().zip([i + 1, count]) {
                let changed = put_at(old, i..end, other).bytes();
                for limit in [0, 20] {
                    let (plan, saved) = (&old.file[..], &changed[..]);
                    let outcome = held(&Sitting { plan, limit, saved });
                    met[usize::from(outcome.is_ok())] += 1;
                }
            }
        }
    }
    assert!(met.iter().flatten().all(|count| *count > 50), "{met:?}");
}

/// The most open splits that a search has found a plan for, made up by hand, all at the first link; and of so many of them the last
/// at the largest sum.
#[test]
fn fifty_five_open_splits_of_the_first_link() {
    let (plan, begun) = most_splits();
    let file = plan.bytes();
    let saved = begun.bytes();
    let chosen = places_chosen(&file, &begun);
    let differ = chosen.iter().filter(|[first, largest]| first != largest);
    assert!(differ.count() > 30);
    let old = Old { plan, file, saved };
    for limit in [0, 1, 3, old.still(), MOST_STEPS] {
        hold_steps(&old, limit);
    }
    for (i, [_, largest]) in chosen.iter().enumerate() {
        let mut other = begun.first(i + 1);
        other.places[i] = *largest;
        for limit in [0, 2] {
            carried(&old.file, limit, &other.bytes());
        }
    }
}
