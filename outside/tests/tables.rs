//! Buyers' tables: every length and every wrong value of a table, every value through each call, the built-in table as bytes, plans
//! without lengths, and sittings under one table and under two.

use outside::arithmetic::S;
use outside::bitsets;
use outside::calls::{answer_bytes, held, limits_around, Call, MOST_STEPS};
use outside::claims::{difference, figure, importance, is_narrow, sat, sat_answer, splits};
use outside::desk::{hold, hold_sitting};
use outside::plans::{Plan, LENGTH};
use outside::random::Random;
use outside::repository::table as sample;
use outside::rule::Answer;
use outside::sittings::{self, sizes, Sat, Sitting, NOTHING, WORK};
use outside::states::{widest, widest_difference, widest_importance};
use outside::tables::{bytes, Table, COUNT};

/// Four nodes and five links, of which one is a loop.
fn four_nodes(value: u32) -> Plan {
    let ends = [[0, 1], [1, 2], [2, 3], [0, 0], [3, 0]];
    Plan::alike(4, value, &ends)
}

/// What each of the four calls returns under a table, with lengths in its plans and without, a sitting from nothing and from complete
/// work: one number for all of them.
fn returned(table: &[u8]) -> u64 {
    let complete = [sizes(0, 1, 3), vec![7; 16]].concat();
    let mut numbers = Vec::new();
    for plan in [four_nodes(LENGTH + 9), four_nodes(S / 2)] {
        let (plan, place, limit) = (&plan.bytes(), 1, 5);
        let (a, b) = (plan, plan);
        let calls = [
            Call::figure(plan, limit),
            Call::Importance { plan, place, limit },
            Call::Difference { a, b, limit },
        ];
        let number = |call: Call| held(call.under(table), 16).err().unwrap_or(0);
        numbers.extend(calls.map(number));
        for saved in [&NOTHING[..], &complete] {
            let sitting = Sitting { plan, limit, saved };
            let outcome = sittings::held(sitting.under(table));
            numbers.push(outcome.err().unwrap_or(0));
        }
    }
    assert!(numbers.windows(2).all(|two| two[0] == two[1]));
    numbers[0]
}

/// A table of so many bytes that has the bytes of a right one, again and again.
fn of_length(length: usize) -> Vec<u8> {
    let right = Table::telling().bytes();
    right.into_iter().cycle().take(length).collect()
}

#[test]
fn every_length_of_a_table() {
    let wide = [1 << 16, 1 << 17, 1 << 20, 1 << 24];
    let wide = wide.into_iter().flat_map(|wide| [wide, wide + 2_048]);
    for length in (0..=4_200).chain(wide) {
        let number = if [0, 2_048].contains(&length) { 0 } else { 12 };
        assert_eq!(returned(&of_length(length)), number, "{length}");
        assert_eq!(returned(&vec![0; length]) != 0, length != 0, "{length}");
    }
}

/// Tables that are accepted: each value another, far from the next or one unit from it; all S; S alone above 0; and the sample.
fn accepted() -> [Table; 5] {
    let by_one: Vec<u32> = (0..512).map(|k| S - k).collect();
    let mut zeros = vec![0; COUNT];
    zeros[0] = S;
    let [by_one, highest, lowest] = [by_one, vec![S; COUNT], zeros].map(|all| Table::of(&all));
    let armoured = Table::read(&sample("armoured")).unwrap();
    [Table::telling(), by_one, highest, lowest, armoured]
}

#[test]
fn a_rise_at_each_place() {
    for table in accepted() {
        assert_eq!(returned(&table.bytes()), 0);
        for k in 1..COUNT {
            for more in [1, 2, 1 << 31] {
                let mut wrong = table.ratings().to_vec();
                wrong[k] = wrong[k - 1] + more;
                assert_eq!(returned(&bytes(&wrong)), 13, "{k} {more}");
            }
        }
    }
}

/// The value at each place made that of the place before, and then all behind it as well.
#[test]
fn equal_neighbours_at_each_place() {
    for table in accepted() {
        for k in 1..COUNT {
            let mut equal = table.ratings().to_vec();
            equal[k] = equal[k - 1];
            assert_eq!(returned(&bytes(&equal)), 0, "{k}");
            let level = equal[k];
            equal[k..].fill(level);
            assert_eq!(returned(&bytes(&equal)), 0, "{k}");
        }
    }
}

#[test]
fn every_wrong_first_value() {
    let bits = (0..32).map(|bit| S ^ (1 << bit));
    let others = [0, 1, S / 2, S - 1, S + 1, u32::MAX, S.swap_bytes()];
    for first in bits.chain(others) {
        let mut values = vec![0; COUNT];
        values[0] = first;
        assert_eq!(returned(&bytes(&values)), 13, "{first}");
        values.fill(first);
        assert_eq!(returned(&bytes(&values)), 13, "{first}");
    }
}

/// The bytes of each value the other way round.
#[test]
fn a_table_with_the_highest_byte_first() {
    for table in accepted() {
        let swapped = table.ratings().iter().map(|value| value.swap_bytes());
        let swapped: Vec<u32> = swapped.collect();
        assert_eq!(returned(&bytes(&swapped)), 13);
    }
}

/// Low and high of a length of this rating, worked out apart: two joints, each rounded.
fn stands_for(rating: u32) -> (i64, i64) {
    let (one, joint) = (u64::from(S), 999_950_000);
    let low = u64::from(rating) * joint / one * joint / one;
    let high = (u64::from(rating) * joint).div_ceil(one) * joint;
    (low as i64, high.div_ceil(one) as i64)
}

#[test]
fn every_value_alone() {
    for table in accepted() {
        for (k, rating) in (0..).zip(table.ratings()) {
            let plan = Plan::between(&[LENGTH + k]).under(&table);
            let (low, high) = stands_for(*rating);
            let expected = Answer::at_once(low, high);
            assert_eq!(figure(&plan, 0), expected, "{k}");
            assert_eq!(figure(&plan, MOST_STEPS), expected, "{k}");
            let answer = answer_bytes(&expected);
            let work = [sizes(0, 1, 0), answer.clone()].concat();
            let written = Sat { answer, work };
            assert_eq!(sat(&plan, 0, &NOTHING), written, "{k}");
            assert_eq!(sat(&plan, 7, &written.work), written, "{k}");
        }
    }
}

/// Beside a value in units, the importance of that link is what the length leaves; the length's own is what the other leaves.
#[test]
fn every_value_by_importance() {
    let whole = i64::from(S);
    for table in accepted() {
        for (k, rating) in (0..).zip(table.ratings()) {
            let plan = Plan::between(&[S / 10 * 9, LENGTH + k]).under(&table);
            let (low, high) = stands_for(*rating);
            let left = Answer::at_once(whole - high, whole - low);
            assert_eq!(importance(&plan, 0, 3), left, "{k}");
            let tenth = Answer::at_once(whole / 10, whole / 10);
            assert_eq!(importance(&plan, 1, 3), tenth, "{k}");
        }
    }
}

/// Each length in plan A against another in plan B, both by the one table, and each against a value in units.
#[test]
fn every_value_by_difference() {
    for table in accepted() {
        let ratings = table.ratings();
        for (k, rating) in (0..512).zip(ratings) {
            let other = (7 * k + 100) % 512;
            let (low, high) = stands_for(*rating);
            let (other_low, other_high) = stands_for(ratings[other as usize]);
            let plans = [LENGTH + k, LENGTH + other, S / 2];
            let [a, b, half] = plans.map(|value| Plan::between(&[value]).under(&table));
            let minus = Answer::at_once(low - other_high, high - other_low);
            assert_eq!(difference(&a, &b, 0), minus, "{k}");
            let units = i64::from(S / 2);
            let minus = Answer::at_once(low - units, high - units);
            assert_eq!(difference(&a, &half, 0), minus, "{k}");
            let minus = Answer::at_once(units - high, units - low);
            assert_eq!(difference(&half, &a, 0), minus, "{k}");
        }
    }
}

/// In plans of 13 to 64 links, at the first place, the last and others: each call shows the value with its joints, a sitting that
/// carries on too.
#[test]
fn every_value_at_some_place() {
    let pair = |answer: Answer| (answer.low, answer.high);
    let table = Table::telling();
    let none = Plan::between(&[0]).under(&table);
    for (k, rating) in table.ratings().iter().enumerate() {
        let (low, high) = stands_for(*rating);
        let count = 13 + k % 52;
        for place in [0, k % count, count - 1] {
            let plan = Plan::hanging_on(k as u32, place, count).under(&table);
            assert_eq!(pair(figure(&plan, 20)), (low, high));
            let next = (place + 1) % count;
            assert_eq!(pair(importance(&plan, next, 20)), (low, high));
            assert_eq!(pair(difference(&plan, &none, 20)), (low, high));
            assert_eq!(pair(difference(&none, &plan, 20)), (-high, -low));
            let first = sat(&plan, 1, &NOTHING);
            assert!(!sat_answer(&first).finished);
            let rest = sat(&plan, 20, &first.work);
            assert_eq!(pair(sat_answer(&rest)), (low, high));
        }
    }
}

/// Of few enough splits, under a table of its own.
fn any_plan(random: &mut Random, most_links: usize) -> Plan {
    loop {
        let plan = Plan::of_lengths(random, most_links);
        if splits(&plan) <= 300 {
            return plan.under(&Table::random(random));
        }
    }
}

/// Each call on plans of up to 28 links, each plan under another table, held to the rule and the figures to the rule in C, at limits
/// around the splits that they need.
#[test]
fn the_calls_under_random_tables() {
    let mut random = Random::new(171);
    let mut with_splits = 0;
    for _ in 0..200 {
        let plan = any_plan(&mut random, 28);
        let other = any_plan(&mut random, 28).under(&plan.table);
        let needed = splits(&plan);
        with_splits += usize::from(needed > 1);
        for limit in limits_around(needed) {
            let whole = figure(&plan, limit);
            assert!(is_narrow(&whole, widest(&plan)));
            assert_eq!(whole, bitsets::figure(&plan, limit).into());
            let place = random.below(plan.links.len());
            let both = importance(&plan, place, limit);
            assert!(is_narrow(&both, widest_importance(&plan, place)));
            for (a, b) in [(&plan, &other), (&other, &plan)] {
                let both = difference(a, b, limit);
                assert!(is_narrow(&both, widest_difference(a, b)));
            }
            let first = sat(&plan, limit, &NOTHING);
            sat(&plan, random.up_to(needed), &first.work);
        }
    }
    assert!(with_splits > 80, "too few with splits: {with_splits}");
}

#[test]
fn the_calls_on_plans_of_64_links() {
    let mut random = Random::new(172);
    for nodes in [2, 5, 9, 14, 20, 26, 32] {
        let table = Table::random(&mut random);
        let mut plan = || Plan::random_of(&mut random, nodes, 64).under(&table);
        let plans = [plan(), plan()];
        let [a, b] = plans.map(|plan| plan.with_lengths(&mut random, 10));
        for limit in [0, 1, 100, 3_000] {
            figure(&a, limit);
            difference(&a, &b, limit);
            importance(&a, random.below(64), limit);
            let first = sat(&a, limit, &NOTHING);
            sat(&a, 500, &first.work);
        }
    }
}

/// All that the calls answer of a plan and another, and what a sitting writes.
fn all_answers(plan: &Plan, other: &Plan, limit: u64) -> (Vec<Answer>, Vec<Sat>) {
    let mut answers = vec![figure(plan, limit), difference(plan, other, limit)];
    let places = 0..plan.links.len();
    answers.extend(places.map(|place| importance(plan, place, limit)));
    let first = sat(plan, limit, &NOTHING);
    let second = sat(plan, 3, &first.work);
    (answers, vec![first, second])
}

/// A table of no bytes is the built-in one, whose 2,048 bytes are a table like any other.
#[test]
fn the_built_in_table_as_bytes() {
    let mut random = Random::new(173);
    let table = Table::of(Table::BuiltIn.ratings());
    assert_eq!(table.bytes().len(), 2_048);
    for _ in 0..60 {
        let mut plan = || any_plan(&mut random, 24).under(&Table::BuiltIn);
        let (plan, other) = (plan(), plan());
        let limit = random.up_to(splits(&plan) + 1);
        let without = all_answers(&plan, &other, limit);
        let [plan, other] = [plan, other].map(|plan| plan.under(&table));
        assert_eq!(all_answers(&plan, &other, limit), without);
    }
}

/// The answers are the same under every table.
#[test]
fn plans_without_lengths() {
    let mut random = Random::new(174);
    for _ in 0..60 {
        let mut plan = || any_plan(&mut random, 24).under(&Table::BuiltIn);
        let [plan, other] = [plan(), plan()].map(Plan::without_joints);
        assert_eq!(plan.lengths() + other.lengths(), 0);
        let limit = random.up_to(splits(&plan) + 1);
        let without = all_answers(&plan, &other, limit);
        for table in [Table::random(&mut random), Table::telling()] {
            let [plan, other] = [&plan, &other].map(|plan| plan.clone().under(&table));
            assert_eq!(all_answers(&plan, &other, limit), without);
        }
    }
}

/// The same call under one table after the other, and under none: each is by its own.
#[test]
fn tables_in_turns() {
    let mut tables = accepted().to_vec();
    tables.push(Table::BuiltIn);
    let plan = four_nodes(LENGTH + 300);
    let alone: Vec<Answer> = tables
        .iter()
        .map(|table| figure(&plan.clone().under(table), 5))
        .collect();
    let mut random = Random::new(175);
    for _ in 0..300 {
        let i = random.below(tables.len());
        let plan = plan.clone().under(&tables[i]);
        assert_eq!(figure(&plan, 5), alone[i]);
        assert_eq!(sat_answer(&sat(&plan, 5, &NOTHING)), alone[i]);
        assert_eq!(
            difference(&plan, &plan, 5).high,
            alone[i].high - alone[i].low
        );
        importance(&plan, random.below(5), 5);
    }
}

/// Any address will do: 0 to 8 bytes behind others.
#[test]
fn addresses_of_a_table() {
    let table = Table::telling().bytes();
    let (plan, saved) = (&Plan::complete(5, LENGTH + 77).bytes(), &NOTHING);
    let (limit, place) = (2, 3);
    let (a, b) = (plan, plan);
    for first in 0..=8 {
        let lent = [&vec![0x5a; first], &table[..]].concat();
        let lent = &lent[first..];
        for call in [
            Call::figure(plan, limit),
            Call::Importance { plan, place, limit },
            Call::Difference { a, b, limit },
        ] {
            hold(call.under(lent), 16, &call.under(&table).outcome(16));
        }
        let sitting = Sitting { plan, limit, saved };
        let outcome = sitting.under(&table).outcome(16, WORK);
        hold_sitting(sitting.under(lent), [16, WORK], &outcome);
    }
}

/// Sittings under one table, each handed what the one before wrote, end as one first sitting under their total does, and as one figure.
#[test]
fn sittings_under_a_table_add_up() {
    let mut random = Random::new(176);
    let mut cut = 0;
    for _ in 0..150 {
        let plan = any_plan(&mut random, 24);
        let total = random.up_to(splits(&plan) + 2);
        let (mut last, mut left) = (sat(&plan, 0, &NOTHING), total);
        while left > 0 {
            let limit = 1 + random.of_any_size(left - 1);
            last = sat(&plan, limit, &last.work);
            left -= limit;
            cut += 1;
        }
        assert_eq!(last, sat(&plan, total, &NOTHING));
        assert_eq!(sat_answer(&last), figure(&plan, total));
    }
    assert!(cut > 300, "too few sittings: {cut}");
}

/// Work that began under one table and is handed on under another is not told from other work: begun, it is carried on with the values of
/// the other; complete, it stays.
#[test]
fn work_under_another_table() {
    let mut random = Random::new(177);
    let (mut complete, mut another) = (0, 0);
    for _ in 0..150 {
        let plan = any_plan(&mut random, 24);
        let other = plan.clone().under(&Table::random(&mut random));
        let needed = splits(&plan);
        let first = sat(&plan, random.up_to(needed), &NOTHING);
        if sat_answer(&first).finished {
            assert_eq!(sat(&other, 9, &first.work), first);
            complete += 1;
            continue;
        }
        for limit in [0, 1, needed] {
            let carried = sat(&other, limit, &first.work);
            let same = sat(&plan, limit, &first.work);
            another += usize::from(carried.answer != same.answer);
        }
    }
    assert!(complete > 30 && another > 100, "{complete} {another}");
}

/// Sittings under two tables in turns, to the end or to a refusal: what they leave may be out of order, which 10 refuses.
#[test]
fn work_under_two_tables_in_turns() {
    let mut random = Random::new(178);
    let mut ended = [0, 0];
    for _ in 0..600 {
        let plan = any_plan(&mut random, 24);
        let tables = [plan.table.bytes(), Table::random(&mut random).bytes()];
        let (plan, mut saved) = (&plan.bytes(), NOTHING.to_vec());
        for table in tables.iter().cycle() {
            let limit = 1 + random.of_any_size(20);
            let sitting = Sitting {
                plan,
                limit,
                saved: &saved,
            };
            match sittings::held(sitting.under(table)) {
                Ok(sat) if sat_answer(&sat).finished => {
                    ended[0] += 1;
                    break;
                }
                Ok(sat) => saved = sat.work,
                Err(number) => {
                    assert_eq!(number, 10);
                    ended[1] += 1;
                    break;
                }
            }
        }
    }
    assert!(ended[0] > 400 && ended[1] > 1, "{ended:?}");
}
