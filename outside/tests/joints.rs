//! Lengths and their joints: the values of all 512 lengths through each call, worked out apart, and plans of which the numbers are
//! known.

use outside::arithmetic::S;
use outside::calls::{answer_bytes, MOST_STEPS};
use outside::claims::{difference, figure, hold_between, importance, sat, sat_answer};
use outside::listing::{by_the_rule, written};
use outside::plans::{Plan, LENGTH};
use outside::random::Random;
use outside::rule::Answer;
use outside::sittings::{sizes, Sat, NOTHING};
use outside::states::Exact;
use std::iter::successors;

const ONE: u128 = S as u128;
const J: u128 = 999_950_000;

/// The largest number up to which all fit, found bit by bit.
fn largest(fits: impl Fn(u128) -> bool) -> u128 {
    let longer = |w, bit: u32| {
        if fits(w + (1 << bit)) {
            w + (1 << bit)
        } else {
            w
        }
    };
    (0..31).rev().fold(0, longer)
}

/// The largest whole number that is not above x / one.
fn below(x: u128, one: u128) -> u128 {
    largest(|w| w * one <= x)
}

/// The smallest that is not below it, where x is above 0.
fn above(x: u128, one: u128) -> u128 {
    1 + largest(|w| w * one < x)
}

/// A length, its rating and its values, in units.
#[derive(Clone, Copy)]
struct Length {
    k: u32,
    rating: u128,
    low: u128,
    high: u128,
}

fn lengths() -> Vec<Length> {
    let ratings = successors(Some(ONE), |t| Some(below(t * 999_700_000, ONE)));
    let length = |(k, rating)| Length {
        k,
        rating,
        low: below(below(rating * J, ONE) * J, ONE),
        high: above(above(rating * J, ONE) * J, ONE),
    };
    (0..512).zip(ratings).map(length).collect()
}

fn units(x: u128) -> i64 {
    i64::try_from(x).unwrap()
}

fn alone(length: &Length) -> Plan {
    Plan::between(&[LENGTH + length.k])
}

#[test]
fn every_length_alone() {
    for length in lengths() {
        let expected = Answer::at_once(units(length.low), units(length.high));
        for limit in [0, 1, MOST_STEPS] {
            assert_eq!(figure(&alone(&length), limit), expected, "{}", length.k);
        }
    }
}

/// The chance T * J * J / S^2 lies between low and high, and both are less than two units from it.
#[test]
fn every_length_is_near_its_exact_chance() {
    for length in lengths() {
        let chance = length.rating * J * J;
        let Answer { low, high, .. } = figure(&alone(&length), 0);
        let [low, high] = [low, high].map(|x| u128::try_from(x).unwrap());
        let scaled = |x: u128| x * ONE * ONE;
        assert!(scaled(low) <= chance && chance <= scaled(high));
        assert!(chance < scaled(low + 2) && scaled(high - 2) < chance);
    }
}

#[test]
fn the_lengths_that_are_written_down() {
    for (k, low, high) in [
        (0, 999_900_002, 999_900_003),
        (1, 999_600_032, 999_600_033),
        (2, 999_300_151, 999_300_153),
        (3, 999_000_360, 999_000_362),
        (132, 961_071_943, 961_071_944),
        (255, 926_249_526, 926_249_528),
        (256, 925_971_651, 925_971_653),
        (510, 858_023_972, 858_023_974),
        (511, 857_766_565, 857_766_567),
    ] {
        assert_eq!(
            figure(&Plan::between(&[LENGTH + k]), 0),
            Answer::at_once(low, high)
        );
    }
}

/// With both joints worked first and one rounding at the end, all lengths but three would have other values.
#[test]
fn rounding_once_would_differ_at_509_lengths() {
    let once = |length: &Length| {
        let chance = length.rating * J * J;
        Answer::at_once(
            units(below(chance, ONE * ONE)),
            units(above(chance, ONE * ONE)),
        )
    };
    let mut alike = lengths();
    alike.retain(|length| figure(&alone(length), 0) == once(length));
    let alike: Vec<u32> = alike.iter().map(|length| length.k).collect();
    assert_eq!(alike, [0, 1, 132]);
}

/// Beside a value in units, the importance of that link is what the length leaves; the length's own is what the other leaves.
#[test]
fn every_length_by_importance() {
    let whole = i64::from(S);
    for length in lengths() {
        let (low, high) = (units(length.low), units(length.high));
        let plan = Plan::between(&[S / 10 * 9, LENGTH + length.k]);
        for limit in [0, MOST_STEPS] {
            let left = Answer::at_once(whole - high, whole - low);
            assert_eq!(importance(&plan, 0, limit), left, "{}", length.k);
            let tenth = Answer::at_once(whole / 10, whole / 10);
            assert_eq!(importance(&plan, 1, limit), tenth, "{}", length.k);
        }
    }
}

/// A loop of any length counts for nothing. Its importance is that of two equal figures: from 0 to their width.
#[test]
fn every_length_beside_a_loop() {
    let all = lengths();
    for (length, other) in all.iter().zip(all.iter().rev()) {
        let values = [LENGTH + length.k, LENGTH + other.k];
        let plan = Plan::new(2, &[(0, 1, values[0]), (1, 1, values[1])]);
        let (low, high) = (units(length.low), units(length.high));
        assert_eq!(figure(&plan, 0), Answer::at_once(low, high));
        assert_eq!(importance(&plan, 1, 0), Answer::at_once(0, high - low));
        let certain = Answer::at_once(S.into(), S.into());
        assert_eq!(importance(&plan, 0, 0), certain);
        let loops = Plan::new(1, &[(0, 0, values[0]), (0, 0, values[1])]);
        assert_eq!(figure(&loops, 0), certain);
        assert_eq!(importance(&loops, 0, 0), Answer::at_once(0, 0));
    }
}

/// Against a value in units, both ways round, and against another length.
#[test]
fn every_length_by_difference() {
    let all = lengths();
    for (length, other) in all.iter().zip(all.iter().cycle().skip(100)) {
        let plan = alone(length);
        let (low, high) = (units(length.low), units(length.high));
        for value in [length.rating, length.low, length.high, 0, ONE] {
            let (other, value) = (Plan::between(&[value as u32]), units(value));
            let minus = Answer::at_once(low - value, high - value);
            assert_eq!(difference(&plan, &other, 0), minus);
            let minus = Answer::at_once(value - high, value - low);
            assert_eq!(difference(&other, &plan, 0), minus);
        }
        let minus = Answer::at_once(low - units(other.high), high - units(other.low));
        assert_eq!(difference(&plan, &alone(other), 0), minus);
    }
}

/// A first sitting, and sittings that are handed what it wrote.
#[test]
fn every_length_in_a_sitting() {
    for length in lengths() {
        let plan = alone(&length);
        let answer = answer_bytes(&Answer::at_once(units(length.low), units(length.high)));
        let work = [sizes(0, 1, 0), answer.clone()].concat();
        let expected = Sat { answer, work };
        assert_eq!(sat(&plan, 0, &NOTHING), expected);
        assert_eq!(sat(&plan, MOST_STEPS, &expected.work), expected);
    }
}

/// In plans of 13 to 64 links, at each place: each call shows the length's own values, a sitting that carries on too.
#[test]
fn every_length_at_some_place() {
    let pair = |answer: Answer| (answer.low, answer.high);
    let none = Plan::between(&[0]);
    for length in lengths() {
        let (low, high) = (units(length.low), units(length.high));
        let count = 13 + length.k as usize % 52;
        for place in [length.k as usize % count, count - 1] {
            let plan = Plan::hanging_on(length.k, place, count);
            assert_eq!(pair(figure(&plan, 20)), (low, high));
            let next = (place + 1) % count;
            assert_eq!(pair(importance(&plan, next, 20)), (low, high));
            assert_eq!(pair(difference(&plan, &none, 20)), (low, high));
            assert_eq!(pair(difference(&none, &plan, 20)), (-high, -low));
            let first = sat(&plan, 1, &NOTHING);
            assert!(!sat_answer(&first).finished);
            let rest = sat(&plan, 20, &first.work);
            assert_eq!(pair(sat_answer(&rest)), (low, high));
        }
    }
}

/// Two lengths side by side, and two one behind the other.
#[test]
fn every_length_with_another() {
    let all = lengths();
    for skipped in [0, 1, 7, 100, 255, 256, 511] {
        for (p, q) in all.iter().zip(all.iter().cycle().skip(skipped)) {
            let values = [LENGTH + p.k, LENGTH + q.k];
            let low = ONE - above((ONE - p.low) * (ONE - q.low), ONE);
            let high = ONE - below((ONE - p.high) * (ONE - q.high), ONE);
            let beside = Answer::at_once(units(low), units(high));
            assert_eq!(figure(&Plan::between(&values), 0), beside);
            let low = below(p.low * q.low, ONE);
            let high = above(p.high * q.high, ONE);
            let path = Plan::new(3, &[(0, 1, values[0]), (1, 2, values[1])]);
            assert_eq!(figure(&path, 0), Answer::at_once(units(low), units(high)));
        }
    }
}

/// Of a path from node 0 on, and of a star about it, the first link is taken off first: its value is multiplied last.
#[test]
fn paths_and_stars_of_lengths() {
    let mut random = Random::new(151);
    let all = lengths();
    for nodes in 2..=32 {
        let taken: Vec<Length> = (1..nodes).map(|_| all[random.below(512)]).collect();
        let times = |(low, high): (u128, u128), length: &Length| {
            (below(length.low * low, ONE), above(length.high * high, ONE))
        };
        let (low, high) = taken.iter().rev().fold((ONE, ONE), times);
        let expected = Answer::at_once(units(low), units(high));
        let path = |i: u8| [i, i + 1];
        let star = |i: u8| [0, i + 1];
        for ends in [path, star] {
            let ends: Vec<[u8; 2]> = (0..nodes - 1).map(ends).collect();
            let mut plan = Plan::alike(nodes.into(), 0, &ends);
            for (link, length) in plan.links.iter_mut().zip(&taken) {
                link.value = LENGTH + length.k;
            }
            assert_eq!(figure(&plan, 0), expected, "{plan:?}");
        }
    }
}

/// A value in units is that value, though it is the rating of a length or a length's value.
#[test]
fn values_in_units_have_no_joint() {
    for length in lengths() {
        for value in [length.rating, length.low, length.high] {
            let (plan, value) = (Plan::between(&[value as u32]), units(value));
            assert_eq!(figure(&plan, 0), Answer::at_once(value, value));
            let sat = sat(&plan, 0, &NOTHING);
            assert_eq!(sat_answer(&sat), Answer::at_once(value, value));
        }
    }
    for value in [0, 1, S / 2, S - 1, S] {
        let exact = Answer::at_once(value.into(), value.into());
        assert_eq!(figure(&Plan::between(&[value]), 0), exact);
    }
}

fn two_ways_round() -> Plan {
    let links = [
        (0, 1, LENGTH + 5),
        (0, 2, LENGTH + 100),
        (1, 2, 900_000_000),
        (1, 3, LENGTH + 511),
        (2, 3, LENGTH),
    ];
    Plan::new(4, &links)
}

/// All of one length.
fn joined(nodes: u16, k: u32, ends: &[[u8; 2]]) -> Plan {
    Plan::alike(nodes, LENGTH + k, ends)
}

fn path(nodes: u8) -> Vec<[u8; 2]> {
    (1..nodes).map(|v| [v - 1, v]).collect()
}

/// Exact figures worked out apart, in fractions: (T * J * J / S^3)^16 of the long path, 16 p^3 q^3 + 15 p^4 q^2 + 6 p^5 q + p^6 of
/// the four nodes, and so on.
#[test]
fn exact_figures_that_are_known() {
    let four = Plan::complete(4, LENGTH + 25);
    let ring = [path(12), vec![[11, 0]]].concat();
    let lines = [(0, 1, LENGTH + 7), (1, 2, LENGTH + 16)];
    let triangle = [(0, 1, LENGTH + 1), (1, 2, LENGTH + 2), (0, 2, LENGTH + 3)];
    for (plan, floor) in [
        (Plan::new(3, &lines), 992_924_100),
        (Plan::between(&[LENGTH + 10, LENGTH + 20]), 999_981_171),
        (Plan::new(3, &triangle), 999_998_621),
        (four.clone(), 999_998_253),
        (two_ways_round(), 999_494_936),
        (joined(16, 0, &path(16)), 998_501_086),
        (joined(17, 511, &path(17)), 85_882_727),
        (Plan::between(&[LENGTH + 511; 3]), 997_122_567),
        (joined(12, 100, &ring), 952_351_643),
    ] {
        hold_between(&Exact::figure(&plan), floor, &figure(&plan, 20_000));
    }
    let others = two_ways_round();
    let floors = [43_041_964, 15_783_918, 4_434_228, 3_215_373, 144_456_293];
    for (i, floor) in floors.into_iter().enumerate() {
        let answer = importance(&others, i, 20_000);
        hold_between(&Exact::importance(&others, i), floor, &answer);
    }
    for (a, b, floor) in [(&four, &others, 503_317), (&others, &four, -503_318)] {
        let answer = difference(a, b, 20_000);
        hold_between(&Exact::difference(a, b), floor, &answer);
    }
}

/// In units, a tree of nine nodes is at most 16 wide: it has eight products, each of which adds less than two. With lengths its
/// links have a width of their own.
#[test]
fn a_tree_is_wider_by_its_lengths() {
    let ends = [
        [0, 1],
        [1, 2],
        [1, 3],
        [0, 4],
        [4, 5],
        [5, 6],
        [4, 7],
        [7, 8],
    ];
    let lengths = [96, 17, 39, 45, 214, 292, 145, 246];
    let mut tree = Plan::alike(9, 0, &ends);
    for (link, k) in tree.links.iter_mut().zip(lengths) {
        link.value = LENGTH + k;
    }
    let width = |plan: &Plan| {
        let answer = figure(plan, 0);
        answer.high - answer.low
    };
    assert_eq!(width(&tree), 21);
    assert!(Exact::figure(&tree).is_enclosed_by(&figure(&tree, 0)));
    assert!(width(&tree.without_joints()) <= 16);
}

/// The lines of the links of what `planlist` writes, which is the text by the rule.
fn listed(plan: &Plan) -> Vec<String> {
    let file = plan.bytes();
    let text = written(&[&file]);
    assert_eq!(text, by_the_rule(&file));
    let links = text.lines().filter(|line| line.starts_with("link "));
    links.map(str::to_owned).collect()
}

/// All lengths, 64 to a plan, in a path with each link twice: the listing shows the low value of each.
#[test]
fn the_listing_shows_the_low_value() {
    for some in lengths().chunks(64) {
        let ends: Vec<[u8; 2]> = (0..64).map(|i| [i / 2 % 31, i / 2 % 31 + 1]).collect();
        let mut plan = Plan::alike(32, 0, &ends);
        for (link, length) in plan.links.iter_mut().zip(some) {
            link.value = LENGTH + length.k;
        }
        for (line, length) in listed(&plan).iter().zip(some) {
            let value = line.split(' ').nth(4).unwrap();
            assert_eq!(value, length.low.to_string(), "{line}");
        }
    }
}

#[test]
fn the_listing_of_a_length() {
    let plan = Plan::new(
        2,
        &[(1, 0, LENGTH + 2), (0, 1, 999_300_152), (1, 1, LENGTH)],
    );
    let lines = "\
nodes 2 links 3 pieces 1
low 999999510 high 999999511 steps 0 finished 1
link 0 1 0 999300151 699848 699848
link 1 0 1 999300152 699847 699849
link 2 1 1 999900002 0 1
limits 100000 20000
";
    assert_eq!(written(&[&plan.bytes()]), lines);
    assert_eq!(by_the_rule(&plan.bytes()), lines);
}
