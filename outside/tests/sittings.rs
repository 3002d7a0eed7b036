//! Work set aside and carried on: sittings one after the other against one run, and each against the independent version.

use outside::arithmetic::S;
use outside::calls::{answer_of, left, Call, MOST_STEPS};
use outside::desk;
use outside::plans::{Link, Plan};
use outside::random::Random;
use outside::repository::{plan, plans_with};
use outside::rule::{needed, Answer, Network};
use outside::sittings::{held, held_into, sizes, Begun, Sat, Sitting, NOTHING, WORK};

fn first(plan: &[u8], limit: u64) -> Sat {
    carried(plan, limit, &NOTHING)
}

fn carried(plan: &[u8], limit: u64, saved: &[u8]) -> Sat {
    held(&Sitting { plan, limit, saved }).unwrap()
}

/// The bytes that the library's figure answers.
fn in_one_run(plan: &[u8], limit: u64) -> Vec<u8> {
    let mut answer = vec![0; 16];
    assert_eq!(desk::made(&Call::figure(plan, limit), &mut answer), 0);
    answer
}

fn answer(sat: &Sat) -> Answer {
    answer_of(sat.answer[..].try_into().unwrap())
}

/// Sittings under these limits, each handed what the one before wrote, end as one first sitting under their total does, and as
/// one figure. None takes more than its limit.
fn hold_sittings(plan: &[u8], limits: &[u64]) {
    let total = limits.iter().sum::<u64>().min(MOST_STEPS);
    let one = first(plan, total);
    assert_eq!(one.answer, in_one_run(plan, total), "limit {total}");
    let mut saved = NOTHING.to_vec();
    let (mut last, mut most) = (None, 0);
    for limit in limits {
        let sat = carried(plan, *limit, &saved);
        most += limit;
        assert!(answer(&sat).steps <= most.min(MOST_STEPS));
        saved = sat.work.clone();
        last = Some(sat);
    }
    assert_eq!(last.unwrap(), one, "{limits:?}");
}

/// All ways to cut a total into sittings of one step or more.
fn ways(total: u64) -> Vec<Vec<u64>> {
    let mut all = vec![Vec::new()];
    for step in 0..total {
        let longer = |way: &Vec<u64>| {
            let mut cut = way.clone();
            cut.push(1);
            let mut joined = way.clone();
            match joined.last_mut() {
                Some(last) if step > 0 => *last += 1,
                _ => return vec![cut],
            }
            vec![cut, joined]
        };
        all = all.iter().flat_map(longer).collect();
    }
    all
}

/// The same with a sitting of no step ahead of each, and one at the end.
fn with_pauses(way: &[u64]) -> Vec<u64> {
    let paused = way.iter().flat_map(|limit| [0, *limit]);
    paused.chain([0]).collect()
}

/// Cut at random, with some sittings of no step.
fn random_way(random: &mut Random, total: u64) -> Vec<u64> {
    let mut way = Vec::new();
    let mut rest = total;
    while rest > 0 {
        let limit = match random.below(4) {
            0 => 0,
            1 => random.up_to(rest),
            _ => 1 + random.of_any_size(rest - 1),
        };
        way.push(limit);
        rest -= limit;
    }
    way.push(0);
    way
}

fn splits(plan: &Plan) -> u64 {
    needed(Network::from(plan))
}

/// Any chances between the given ends.
fn with_values(random: &mut Random, plan: Plan) -> Plan {
    let value = |random: &mut Random| S - random.below(S as usize + 1) as u32;
    let link = |link: &Link| Link {
        value: value(random),
        ..*link
    };
    let links = plan.links.iter().map(link).collect();
    Plan { links, ..plan }
}

/// Plans of many links for their nodes, all of them with a split.
fn dense(random: &mut Random) -> Plan {
    loop {
        let nodes = 4 + random.below(4) as u8;
        let whole = usize::from(nodes) * usize::from(nodes - 1) / 2;
        let mut plan = with_values(random, Plan::complete(nodes, 0));
        random.shuffle(&mut plan.links);
        plan.links.truncate(whole - random.below(3));
        if splits(&plan) > 0 {
            return plan;
        }
    }
}

/// Of any kind and size, but for those of very many splits.
fn any(random: &mut Random, most_splits: u64) -> Plan {
    loop {
        let nodes = 1 + random.below(14) as u8;
        let count = random.below(30);
        let plan = Plan::random_of(random, nodes, count);
        if splits(&plan) <= most_splits {
            return plan;
        }
    }
}

/// Each way of each total up to seven, with and without sittings of no step, of plans with a split.
#[test]
fn every_way_to_cut_a_small_total() {
    let mut random = Random::new(81);
    let mut kinds = [0; 2];
    for i in 0..200 {
        let plan = match i % 2 {
            0 => dense(&mut random),
            _ => Plan::random_of(&mut random, 5 + i % 20, 12 + i as usize % 25),
        };
        let file = plan.bytes();
        let finished = |limit| answer(&first(&file, limit)).finished;
        kinds[0] += usize::from(finished(7) && !finished(0));
        kinds[1] += usize::from(!finished(7));
        for total in 0..=if i % 10 == 0 { 7 } else { 4 } {
            for way in ways(total) {
                hold_sittings(&file, &with_pauses(&way));
                if total > 0 {
                    hold_sittings(&file, &way);
                }
            }
        }
    }
    assert!(kinds.iter().all(|kind| *kind > 20), "{kinds:?}");
}

/// Totals up to what the plan needs, and somewhat above.
#[test]
fn random_ways_to_cut_any_total() {
    let mut random = Random::new(82);
    let (mut cut, mut complete) = (0, 0);
    for i in 0..400 {
        let plan = match i % 3 {
            0 => dense(&mut random),
            _ => any(&mut random, 3_000),
        };
        let (file, needed) = (plan.bytes(), splits(&plan));
        let below = random.up_to(needed);
        for total in [below, needed.saturating_sub(1), needed, needed + 5] {
            let way = random_way(&mut random, total);
            hold_sittings(&file, &way);
            cut += usize::from(way.len() > 3);
            complete += usize::from(total >= needed && needed > 1);
        }
    }
    assert!(
        cut > 500 && complete > 200,
        "{cut} cut, {complete} complete"
    );
}

/// One step in each sitting, to the end.
#[test]
fn a_step_a_day() {
    let mut random = Random::new(83);
    for nodes in [4, 5, 6, 7, 8] {
        let plan = with_values(&mut random, Plan::complete(nodes, 0));
        hold_sittings(&plan.bytes(), &vec![1; splits(&plan) as usize]);
    }
    for name in plans_with("plan").iter().filter(|name| *name != "mesh") {
        let file = plan(name);
        hold_sittings(&file, &[1; 60]);
    }
}

/// Plans of 64 links, most of which need more steps than any sitting has.
#[test]
fn large_plans() {
    let mut random = Random::new(84);
    let mut files = vec![plan("mesh")];
    files.extend((0..30).map(|i| Plan::random_of(&mut random, 10 + i % 23, 64).bytes()));
    let mut unfinished = 0;
    for file in files {
        let total = 1 + random.of_any_size(3_000);
        hold_sittings(&file, &random_way(&mut random, total));
        hold_sittings(&file, &[1_000, 1_000, 1_000]);
        unfinished += usize::from(!answer(&first(&file, 3_000)).finished);
    }
    assert!(unfinished > 10, "{unfinished}");
}

/// Each two nodes joined, at the steps needed and at one less, in sittings of a third of them.
#[test]
fn complete_graphs() {
    let mut random = Random::new(93);
    for (nodes, needed) in [(9, 5_054), (10, 40_528), (11, 364_346)] {
        let file = with_values(&mut random, Plan::complete(nodes, 0)).bytes();
        let third = needed / 3;
        hold_sittings(&file, &[third, third, needed - 1 - 2 * third]);
        hold_sittings(&file, &[third, third, needed - 2 * third]);
    }
}

/// A total past the most steps is cut, and what is cut stays as it is.
#[test]
fn the_mesh_past_the_most_steps() {
    let file = &plan("mesh");
    let one = first(file, MOST_STEPS);
    assert_eq!(one.answer, in_one_run(file, MOST_STEPS));
    let mut saved = NOTHING.to_vec();
    for (limit, steps) in [
        (400_000, 400_000),
        (599_000, 999_000),
        (MOST_STEPS, MOST_STEPS),
    ] {
        let sat = carried(file, limit, &saved);
        assert_eq!((answer(&sat).steps, answer(&sat).finished), (steps, false));
        saved = sat.work;
    }
    assert_eq!(saved, one.work);
    for limit in [0, 1, MOST_STEPS] {
        assert_eq!(carried(file, limit, &saved), one);
    }
}

/// Saved work of plans that have not come to their end, with its fields.
fn begun(random: &mut Random, count: usize) -> Vec<(Plan, Begun)> {
    let mut all = Vec::new();
    while all.len() < count {
        let plan = match random.below(2) {
            0 => dense(random),
            _ => any(random, 2_000),
        };
        let needed = splits(&plan);
        if needed > 12 {
            let saved = first(&plan.bytes(), random.up_to(needed - 1)).work;
            all.push((plan, Begun::of(&saved)));
        }
    }
    all
}

/// With so many steps put in, a sitting takes at most what is left to the most steps, and stays begun.
#[test]
fn the_most_steps_put_in() {
    let mut random = Random::new(85);
    for (plan, work) in begun(&mut random, 40) {
        let file = plan.bytes();
        let open = needed_still(&file, &work);
        for left in [0u32, 1, 2, 10] {
            let steps = MOST_STEPS as u32 - left;
            let saved = Begun {
                steps,
                ..work.clone()
            }
            .bytes();
            for limit in [0, 1, 2, 9, 10, 11, 1_000, MOST_STEPS] {
                let sat = carried(&file, limit, &saved);
                let taken = limit.min(left.into()).min(open);
                assert_eq!(answer(&sat).steps, u64::from(steps) + taken);
                assert_eq!(answer(&sat).finished, taken == open);
                let finished = u16::from(taken == open);
                assert_eq!(sat.work[..4], sizes(sat_count(&sat), finished, 0)[..4]);
                if taken == u64::from(left) && taken < open {
                    for limit in [0, 1, MOST_STEPS] {
                        assert_eq!(carried(&file, limit, &sat.work), sat);
                    }
                }
            }
        }
    }
}

/// How many steps saved work is still to take.
fn needed_still(plan: &[u8], work: &Begun) -> u64 {
    let steps = 0;
    let saved = Begun {
        steps,
        ..work.clone()
    }
    .bytes();
    answer(&carried(plan, MOST_STEPS, &saved)).steps
}

/// The count that saved work has in its first bytes.
fn sat_count(sat: &Sat) -> usize {
    usize::from(sat.work[0]) + 256 * usize::from(sat.work[1])
}

/// The last step that there may be is the last that the plan needs, or the last but one.
#[test]
fn complete_at_the_most_steps() {
    let mut random = Random::new(86);
    for (plan, work) in begun(&mut random, 60) {
        let file = plan.bytes();
        let open = needed_still(&file, &work) as u32;
        for (more, finished) in [(0, true), (1, false)] {
            let steps = MOST_STEPS as u32 - open + more;
            let saved = Begun {
                steps,
                ..work.clone()
            }
            .bytes();
            let sat = carried(&file, MOST_STEPS, &saved);
            let end = answer(&sat);
            assert_eq!((end.steps, end.finished), (MOST_STEPS, finished));
        }
    }
}

/// Complete work is not worked again: the same 24 bytes and its answer, under any limit, also of another plan and of no answer.
#[test]
fn complete_work_again() {
    let mut random = Random::new(87);
    let other = plan("mesh");
    for _ in 0..200 {
        let plan = any(&mut random, 500);
        let file = plan.bytes();
        let sat = first(&file, splits(&plan));
        assert_eq!(
            sat.work,
            [sizes(0, 1, splits(&plan) as u32), sat.answer.clone()].concat()
        );
        let made_up: Vec<u8> = (0..16).map(|_| random.next() as u8).collect();
        let steps = random.up_to(MOST_STEPS) as u32;
        let made_up = [sizes(0, 1, steps), made_up].concat();
        for limit in [0, 1, splits(&plan), 1_000, MOST_STEPS] {
            assert_eq!(carried(&file, limit, &sat.work), sat);
            assert_eq!(carried(&other, limit, &sat.work), sat);
            let again = carried(&file, limit, &made_up);
            assert_eq!((&again.answer[..], &again.work), (&made_up[8..], &made_up));
        }
    }
}

#[test]
fn complete_at_once_without_a_split() {
    let mut random = Random::new(88);
    let mut few = 0;
    while few < 100 {
        let plan = any(&mut random, 0);
        few += usize::from(plan.links.len() > 3);
        let sat = first(&plan.bytes(), 0);
        let end = answer(&sat);
        assert_eq!((end.steps, end.finished, sat.work.len()), (0, true, 24));
    }
}

/// And nothing is written in its place where it has one: the eight bytes again, and the figure without a step.
#[test]
fn nothing_set_aside_without_a_step() {
    let mut random = Random::new(89);
    for _ in 0..100 {
        let file = dense(&mut random).bytes();
        let sat = first(&file, 0);
        assert_eq!(
            (&sat.work[..], &sat.answer),
            (&NOTHING[..], &in_one_run(&file, 0))
        );
        assert_eq!(carried(&file, 0, &sat.work), sat);
    }
}

/// The pair of a plan that is finished within 100 steps, by the library's figure.
fn known(links: &[(u8, u8, u32)]) -> [u32; 2] {
    let bytes = in_one_run(&Plan::new(4, links).bytes(), 100);
    let answer = answer_of(bytes[..].try_into().unwrap());
    assert!(answer.finished);
    [answer.low as u32, answer.high as u32]
}

/// Begun work with these places, its pairs the first of these.
fn begun_at(places: &[u32], pairs: &[[u32; 2]], steps: u32) -> Vec<u8> {
    let pairs = pairs[..places.len()].to_vec();
    let places = places.to_vec();
    Begun {
        places,
        pairs,
        steps,
    }
    .bytes()
}

/// The bytes of saved work, written out. Five nodes, each two joined by a half, need five splits: the first, one of its sound
/// branch and three of its broken one. In the broken branch nodes 2, 3 and 4 have four links each, and their first link is the
/// fifth; with it broken too, node 4 alone has four, and its first link is the fifth.
#[test]
fn the_bytes_of_five_nodes() {
    let file = Plan::complete(5, S / 2).bytes();
    let work = |limit| first(&file, limit).work;
    assert_eq!(work(0), [0; 8]);
    let one = [1, 0, 0, 0, 1, 0, 0, 0, 0, 0, 0, 0, 1, 0, 0, 0, 0, 0, 0, 0];
    assert_eq!(work(1), one);
    // What is left where the split link is sound: a node that was two has links of two halves each.
    let (half, two) = (S / 2, S / 4 * 3);
    let to_0 = [(0, 1, two), (0, 2, two), (0, 3, two)];
    let others = [(1, 2, half), (1, 3, half), (2, 3, half)];
    let to_2 = [(0, 2, two), (1, 2, two), (2, 3, two)];
    let to_0_again = [(0, 2, two), (0, 3, two), (0, 1, half)];
    let pairs = [
        known(&[to_0, others].concat()),
        known(&[&to_2[..], &[(0, 3, half), (1, 3, half)]].concat()),
        known(&[&to_0_again[..], &[(1, 2, half), (1, 3, half)]].concat()),
    ];
    assert_eq!(work(2), begun_at(&[0], &pairs, 2));
    assert_eq!(work(3), begun_at(&[0, 4], &pairs, 3));
    assert_eq!(work(4), begun_at(&[0, 4, 4], &pairs, 4));
    let answered = in_one_run(&file, 5);
    assert_eq!(work(5), [vec![0, 0, 1, 0, 5, 0, 0, 0], answered].concat());
}

/// Buffers of more bytes than are needed: those behind what is written stay, and the call writes nothing behind the buffers.
#[test]
fn buffers_of_all_sizes() {
    let mut random = Random::new(90);
    let mut lengths = Vec::new();
    for (plan, work) in begun(&mut random, 30) {
        let (plan, saved) = (&plan.bytes(), &work.bytes());
        for limit in [0, 1, 5, MOST_STEPS] {
            let sitting = Sitting { plan, limit, saved };
            for (answer, work) in [(16, WORK), (17, WORK + 1), (40, 800), (16, 2_000)] {
                let sat = held_into(&sitting, answer, work).unwrap();
                lengths.push(sat.work.len());
            }
        }
    }
    lengths.sort();
    lengths.dedup();
    assert!(lengths.contains(&24) && lengths.len() > 6, "{lengths:?}");
}

/// One buffer for the work of all sittings, longer and shorter than the one before.
#[test]
fn one_buffer_for_all_sittings() {
    let mut random = Random::new(91);
    for _ in 0..50 {
        let plan = dense(&mut random);
        let file = plan.bytes();
        let (mut saved, mut work) = (NOTHING.to_vec(), vec![0xa5; WORK]);
        for _ in 0..=splits(&plan) {
            let sitting = Sitting {
                plan: &file,
                limit: random.up_to(3),
                saved: &saved,
            };
            let outcome = sitting.outcome(16, WORK);
            let mut answer = vec![7; 20];
            let expected = outside::sittings::left(&outcome, &answer, &work);
            let returned = desk::sat(&sitting, &mut answer, &mut work);
            assert_eq!((returned, answer, work.clone()), expected);
            saved = outcome.unwrap().work;
        }
    }
}

/// A first sitting answers as the figure does, on the figure's own outcomes too.
#[test]
fn a_first_sitting_is_a_figure() {
    let mut random = Random::new(92);
    for _ in 0..300 {
        let plan = &any(&mut random, 5_000).bytes();
        let limit = random.of_any_size(6_000);
        let by_rule = Call::figure(plan, limit).outcome(16);
        let (number, bytes) = left(&by_rule, &[0; 16]);
        assert_eq!((number, &bytes), (0, &first(plan, limit).answer));
        assert_eq!(bytes, in_one_run(plan, limit));
    }
}
