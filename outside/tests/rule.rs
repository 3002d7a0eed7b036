//! The independent versions of the rule and the library against every figure that the request prints.

use outside::arithmetic::{split, Side, S};
use outside::bitsets;
use outside::calls::{answer_bytes, held, read, Call};
use outside::desk::hold;
use outside::plans::{Plan, LENGTH};
use outside::random::Random;
use outside::rule::{figure, needed, needed_by, Answer, Network, CHOICES};
use outside::states::Exact;
use std::cmp::Ordering;

const HALF: u32 = S / 2;
const TRIANGLE: [[u8; 2]; 3] = [[0, 1], [1, 2], [0, 2]];
const FOUR: [[u8; 2]; 6] = [[0, 1], [0, 2], [0, 3], [1, 2], [1, 3], [2, 3]];

fn listed() -> Plan {
    Plan::new(2, &[(0, 1, 900_000_000), (0, 1, 800_000_000)])
}

/// The figure of a plan, to which the library and the rule in C are held.
fn worked(plan: &Plan, limit: u64) -> Answer {
    let in_c = bitsets::figure(plan, limit);
    let plan = &plan.bytes();
    let answer = held(&Call::figure(plan, limit), 24).unwrap().unwrap();
    assert_eq!(Answer::from(in_c), answer);
    answer
}

fn sample() -> Plan {
    let links = [
        (0, 3, 950_000_000),
        (0, 1, 910_000_000),
        (1, 2, 980_000_000),
        (0, 2, 880_000_000),
        (1, 4, 910_000_000),
    ];
    Plan::new(5, &links)
}

#[test]
fn the_plans_that_are_written_down() {
    let path = Plan::alike(3, HALF, &TRIANGLE[..2]);
    let triangle = |value| Plan::alike(3, value, &TRIANGLE);
    let four = || Plan::alike(4, HALF, &FOUR);
    let rows = [
        ("P1", Plan::new(1, &[]), 20_000, S, S, 0, true),
        ("P2", Plan::new(2, &[]), 20_000, 0, 0, 0, true),
        ("P3", Plan::new(1, &[(0, 0, 0)]), 20_000, S, S, 0, true),
        ("P4", listed(), 20_000, 980_000_000, 980_000_000, 0, true),
        ("P5", path, 20_000, 250_000_000, 250_000_000, 0, true),
        (
            "P6",
            triangle(HALF),
            20_000,
            499_999_999,
            500_000_001,
            0,
            true,
        ),
        ("P7", triangle(0), 20_000, 0, 0, 0, true),
        ("P8", triangle(S), 20_000, S, S, 0, true),
        ("P9", sample(), 20_000, 851_905_963, 851_905_965, 0, true),
        ("P10", four(), 1, 593_749_999, 593_750_001, 1, true),
        ("P11", four(), 0, 0, S, 0, false),
    ];
    for (name, plan, limit, low, high, steps, finished) in rows {
        let expected = Answer {
            low: low.into(),
            high: high.into(),
            steps,
            finished,
        };
        assert_eq!(worked(&plan, limit), expected, "{name}");
        if finished {
            assert_eq!(needed(Network::from(&plan)), steps, "{name}");
        }
    }
}

/// Where a link is sound its ends are one node, and that branch takes what steps it needs of those that are left.
#[test]
fn sound_comes_first() {
    let merged = [
        [0, 1],
        [0, 1],
        [0, 2],
        [0, 2],
        [1, 2],
        [0, 3],
        [0, 3],
        [1, 3],
        [2, 3],
    ];
    let sound = figure(Network::from(&Plan::alike(4, HALF, &merged)), 1);
    assert!(sound.finished && sound.steps == 1);
    let expected = Answer {
        low: split(Side::Low, HALF, sound.low, 0).into(),
        high: split(Side::High, HALF, sound.high, S).into(),
        steps: 2,
        finished: false,
    };
    assert_eq!(worked(&Plan::complete(5, HALF), 2), expected);
}

#[test]
fn zero_links_count() {
    let four = Plan::alike(4, 0, &FOUR);
    for (limit, high, finished) in [(0, S.into(), false), (1, 0, true), (2, 0, true)] {
        let expected = Answer {
            low: 0,
            high,
            steps: limit.min(1),
            finished,
        };
        assert_eq!(worked(&four, limit), expected);
    }
}

/// A loop at each node of P5 changes nothing.
#[test]
fn loops_do_not_count() {
    let ends = [[0, 0], [0, 1], [1, 1], [1, 2], [2, 2]];
    let expected = Answer {
        low: 250_000_000,
        high: 250_000_000,
        steps: 0,
        finished: true,
    };
    assert_eq!(worked(&Plan::alike(3, HALF, &ends), 0), expected);
}

/// By the first link, n - 3 splits at a node of the complete graph on n nodes and a series each leave the complete graph on one
/// node less: so it ends in (n - 2)! networks. The largest sum leaves as many up to seven nodes, and then some more.
#[test]
fn splits_of_the_complete_graphs() {
    let mut random = Random::new(5);
    for (nodes, ends) in [(3, 1), (4, 2), (5, 6), (6, 24), (7, 120), (8, 720)] {
        let mut plan = Plan::complete(nodes, HALF);
        for _ in 0..3 {
            let [first_link, largest_sum] =
                CHOICES.map(|choice| needed_by(choice, Network::from(&plan)));
            assert_eq!(first_link, ends - 1, "{plan:?}");
            assert!(largest_sum == first_link || nodes == 8, "{plan:?}");
            let whole = worked(&plan, largest_sum);
            assert_eq!((whole.steps, whole.finished), (largest_sum, true));
            random.shuffle(&mut plan.links);
        }
    }
    assert_eq!(needed(Network::from(&Plan::complete(8, HALF))), 722);
}

#[test]
fn the_exact_figures_that_are_written_down() {
    let rows = [
        ("P1", Plan::new(1, &[]), S),
        ("P2", Plan::new(2, &[]), 0),
        ("P3", Plan::new(1, &[(0, 0, 0)]), S),
        ("P4", listed(), 980_000_000),
        ("P5", Plan::alike(3, HALF, &TRIANGLE[..2]), 250_000_000),
        ("P6", Plan::alike(3, HALF, &TRIANGLE), 500_000_000),
        ("P10, 38 of 64", Plan::alike(4, HALF, &FOUR), 593_750_000),
    ];
    for (name, plan, exact) in rows {
        let sum = Exact::figure(&plan);
        assert_eq!(sum.compared(exact.into()), Ordering::Equal, "{name}");
        assert!(sum.is_enclosed_by(&worked(&plan, 20_000)), "{name}");
    }
    let sum = Exact::figure(&sample());
    assert!(sum.compared(851_905_964).is_ge() && sum.compared(851_905_965).is_lt());
    assert!(sum.is_enclosed_by(&worked(&sample(), 20_000)));
}

#[test]
fn the_listing() {
    let plan = &listed().bytes();
    for (place, value) in [(0, 200_000_000), (1, 100_000_000)] {
        let expected = Answer {
            low: value,
            high: value,
            steps: 0,
            finished: true,
        };
        let limit = 20_000;
        let call = Call::Importance { plan, place, limit };
        assert_eq!(held(&call, 24), Ok(Some(expected)));
        let exact = Exact::importance(&listed(), place as usize);
        assert_eq!(exact.compared(value), Ordering::Equal);
    }
}

/// 0.98 against the triangle of halves, both ways round, and a difference whose ends have two signs.
#[test]
fn differences_by_hand() {
    let [a, b] = [listed(), Plan::alike(3, HALF, &TRIANGLE)];
    let minus = |a: &Plan, b: &Plan| {
        let files = [a, b].map(Plan::bytes);
        let call = Call::Difference {
            a: &files[0],
            b: &files[1],
            limit: 20_000,
        };
        let answer = held(&call, 24).unwrap().unwrap();
        assert!(Exact::difference(a, b).is_enclosed_by(&answer));
        (answer.low, answer.high)
    };
    assert_eq!(minus(&a, &b), (479_999_999, 480_000_001));
    assert_eq!(minus(&b, &a), (-480_000_001, -479_999_999));
    assert_eq!(minus(&b, &b), (-2, 2));
    let exact = Exact::difference(&b, &a);
    assert_eq!(exact.compared(-480_000_000), Ordering::Equal);
    assert_eq!(exact.compared(-480_000_001), Ordering::Greater);
    assert_eq!(exact.compared(-479_999_999), Ordering::Less);
}

#[test]
fn the_bytes_of_a_plan() {
    let plan = Plan::new(3, &[(0, 1, S), (2, 1, LENGTH + 511)]);
    let bytes = [
        3, 0, 2, 0, 0, 1, 2, 1, 0x00, 0xca, 0x9a, 0x3b, 0xff, 0x01, 0, 0x80,
    ];
    assert_eq!(plan.bytes(), bytes);
    assert_eq!(held(&Call::Check { plan: &bytes }, 0), Ok(None));
    assert_eq!(read(&bytes), Ok(plan));
    let lengths = [
        (0, [999_900_002, 999_900_003]),
        (1, [999_600_032, 999_600_033]),
        (2, [999_300_151, 999_300_153]),
        (3, [999_000_360, 999_000_362]),
    ];
    for (k, values) in lengths {
        let link = Plan::new(2, &[(0, 1, LENGTH + k)]);
        assert_eq!(link.table.values(&link.links[0]), values);
        let answer = worked(&link, 0);
        assert_eq!([answer.low, answer.high], values.map(i64::from));
    }
}

/// Four nodes of halves against the triangle of halves, with no step and with one: each number in its four bytes.
#[test]
fn the_bytes_of_an_answer() {
    let [a, b] = [Plan::alike(4, HALF, &FOUR), Plan::alike(3, HALF, &TRIANGLE)];
    let (a, b) = (&a.bytes(), &b.bytes());
    let rows = [
        (
            0,
            -500_000_001,
            500_000_001,
            0,
            "ff9a32e2 0165cd1d 00000000 00000000",
        ),
        (
            1,
            93_749_998,
            93_750_002,
            1,
            "ee829605 f2829605 01000000 01000000",
        ),
    ];
    for (limit, low, high, steps, written) in rows {
        let answer = Answer {
            low,
            high,
            steps,
            finished: steps > 0,
        };
        let digits = answer_bytes(&answer)
            .chunks(4)
            .map(hexadecimal)
            .collect::<Vec<_>>();
        assert_eq!(digits.join(" "), written);
        hold(&Call::Difference { a, b, limit }, 24, &Ok(Some(answer)));
    }
}

fn hexadecimal(bytes: &[u8]) -> String {
    bytes.iter().map(|b| format!("{b:02x}")).collect()
}
