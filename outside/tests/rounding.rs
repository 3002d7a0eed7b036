//! Every operation of `rounding` against the independent one: all edge arguments, and a million random ones.

use outside::arithmetic::{self, Side, S, SIDES};
use outside::library;
use outside::random::Random;

const EDGES: [u32; 9] = [0, 1, 2, S / 2, S - 2, S - 1, S, S + 1, u32::MAX];
const SQUARE: u64 = S as u64 * S as u64;

/// What the library should answer: `worked` where each value is a chance, and a refusal where one is not.
fn expected<T>(values: &[u32], refusal: T, worked: impl FnOnce() -> T) -> T {
    if values.iter().all(|v| *v <= S) {
        worked()
    } else {
        refusal
    }
}

type Operation = fn(Side, u32, u32) -> u32;

const OPERATIONS: [(&str, Operation, Operation); 4] = [
    ("product", library::product, arithmetic::product),
    ("parallel", library::parallel, arithmetic::parallel),
    ("series", library::series, arithmetic::series),
    ("factor", library::factor, arithmetic::factor),
];

fn compare(p: u32, q: u32, r: u32) {
    let w = expected(&[p, q], u64::MAX, || arithmetic::either(p, q));
    assert_eq!(library::either(p, q), w, "either {p} {q}");
    for side in SIDES {
        for (name, ours, theirs) in OPERATIONS {
            let value = expected(&[p, q], u32::MAX, || theirs(side, p, q));
            assert_eq!(ours(side, p, q), value, "{name} {side:?} {p} {q}");
        }
        let value = expected(&[p, q, r], u32::MAX, || arithmetic::split(side, p, q, r));
        assert_eq!(
            library::split(side, p, q, r),
            value,
            "split {side:?} {p} {q} {r}"
        );
    }
}

fn compare_division(x: u64, w: u64) {
    let within = 0 < w && x <= w && w <= SQUARE;
    let value = if within {
        arithmetic::long_division(x, w)
    } else {
        (u64::MAX, u64::MAX, u64::MAX)
    };
    assert_eq!(library::long_division(x, w), value, "long division {x} {w}");
}

#[test]
fn all_edges() {
    for p in EDGES {
        for q in EDGES {
            for r in EDGES {
                compare(p, q, r);
            }
        }
    }
}

#[test]
fn a_million_random_arguments() {
    let mut random = Random::new(1);
    let most = u64::from(S);
    for _ in 0..500_000 {
        let mut even = || random.up_to(most) as u32;
        compare(even(), even(), even());
        let mut skewed = || random.of_any_size(most) as u32;
        let (p, q, r) = (skewed(), skewed(), skewed());
        compare(p, q, r);
        compare(S - p, q, S - r);
    }
}

#[test]
fn arguments_out_of_range_are_refused() {
    let mut random = Random::new(2);
    for _ in 0..100_000 {
        let mut any = || random.next() as u32;
        compare(any(), any(), any());
    }
}

/// W is 0 only where both values are 0, and p * q is W only where both are S or both are 0.
#[test]
fn zero_and_whole_series() {
    assert_eq!(library::either(0, 0), 0);
    assert_eq!(library::either(S, S), SQUARE);
    for side in SIDES {
        assert_eq!(library::series(side, 0, 0), 0);
        assert_eq!(library::factor(side, 0, 0), 0);
        assert_eq!(library::series(side, S, S), S);
        assert_eq!(library::factor(side, S, S), S);
    }
}

/// The triangle of halves, by series, parallel and factor: its figures are written in the request (plan P6).
#[test]
fn triangle_of_halves() {
    let half = S / 2;
    let figure = |side| {
        let rest = library::parallel(side, library::series(side, half, half), half);
        library::product(side, library::factor(side, half, half), rest)
    };
    assert_eq!(SIDES.map(figure), [499_999_999, 500_000_001]);
}

/// Four nodes, each two joined by a half, step by step as in docs/READING.md: the broken branch, and the split with the sound
/// one (plan P10).
#[test]
fn four_nodes_of_halves() {
    let half = S / 2;
    let numbers = |side| {
        let third = library::series(side, half, half);
        let beside = library::parallel(side, third, half);
        let last = library::parallel(side, beside, third);
        let factor = library::factor(side, half, half);
        let inner = library::product(side, factor, last);
        let broken = library::product(side, factor, inner);
        let figure = library::split(side, half, 750_000_000, broken);
        [third, beside, last, inner, broken, figure]
    };
    let low = [
        333_333_333,
        666_666_666,
        777_777_777,
        583_333_332,
        437_499_999,
        593_749_999,
    ];
    let high = [
        333_333_334,
        666_666_667,
        777_777_779,
        583_333_335,
        437_500_002,
        593_750_001,
    ];
    assert_eq!(SIDES.map(numbers), [low, high]);
}

#[test]
fn division_at_its_edges() {
    let unit = u64::from(S);
    let edges = [
        0,
        1,
        2,
        9,
        10,
        11,
        unit - 1,
        unit,
        unit + 1,
        SQUARE / 10,
        SQUARE - 1,
        SQUARE,
        SQUARE + 1,
        u64::MAX,
    ];
    for x in edges {
        for w in edges {
            compare_division(x, w);
        }
    }
}

#[test]
fn a_million_random_divisions() {
    let mut random = Random::new(3);
    for _ in 0..500_000 {
        let w = random.up_to(SQUARE - 1) + 1;
        let x = random.up_to(w);
        compare_division(x, w);
        let w = random.of_any_size(SQUARE - 1) + 1;
        let x = random.of_any_size(w);
        compare_division(x, w);
        compare_division(w - x, w);
    }
}

/// No digit where x is 0 and where x = w, 3 for 0.125, 1 for 0.1, 9 where a remainder is left.
#[test]
fn digits_of_the_request() {
    let whole = u64::from(S);
    for w in [1, 2, 3, 7, 10, whole, SQUARE - 1, SQUARE] {
        assert_eq!(library::long_division(0, w), (0, 0, 0));
        assert_eq!(library::long_division(w, w), (whole, 0, 0));
    }
    for (x, w) in [(1, 8), (125, 1_000), (SQUARE / 8, SQUARE)] {
        assert_eq!(library::long_division(x, w), (125_000_000, 0, 3));
    }
    for (x, w) in [(1, 10), (7, 70), (SQUARE / 10, SQUARE)] {
        assert_eq!(library::long_division(x, w), (100_000_000, 0, 1));
    }
    for (x, w) in [(1, 3), (1, 1_024), (1, SQUARE), (SQUARE - 1, SQUARE)] {
        let (_, remainder, digits) = library::long_division(x, w);
        assert_ne!(remainder, 0);
        assert_eq!(digits, 9);
    }
}

/// Decimals whose last digit is not 0, in lowest terms and in others: as many digits are worked as they have.
#[test]
fn decimals_of_every_length() {
    let mut random = Random::new(4);
    for length in 1..=9 {
        let ten = 10u64.pow(length);
        let zeros = 10u64.pow(9 - length);
        for _ in 0..10_000 {
            let decimal = random.up_to(ten / 10 - 1) * 10 + random.up_to(8) + 1;
            let multiple = random.of_any_size(SQUARE / ten - 1) + 1;
            let value = (decimal * zeros, 0, u64::from(length));
            let worked = library::long_division(decimal * multiple, ten * multiple);
            assert_eq!(worked, value, "{decimal} {ten} times {multiple}");
        }
    }
}

/// Divisors that divide a power of 10, and their multiples.
#[test]
fn divisors_of_twos_and_fives() {
    let mut random = Random::new(5);
    let powers = |base: u64| std::iter::successors(Some(1u64), move |p| p.checked_mul(base));
    for two in powers(2) {
        for five in powers(5) {
            let Some(w) = two.checked_mul(five).filter(|w| *w <= SQUARE) else {
                continue;
            };
            for x in [0, 1, 2, 3, 5, w / 2, w - 1, w] {
                compare_division(x.min(w), w);
            }
            for _ in 0..100 {
                compare_division(random.up_to(w), w);
                let multiple = random.of_any_size(SQUARE / w - 1) + 1;
                compare_division(random.up_to(w) * multiple, w * multiple);
            }
        }
    }
}

/// A digit is worked by a reciprocal that counts w in parts of 2^29: divisors about whole numbers of parts, and x where a digit
/// changes.
#[test]
fn divisors_about_the_parts_of_the_reciprocal() {
    let mut random = Random::new(6);
    let part = 1u64 << 29;
    let parts = (0..32).map(|k| 1 << k).filter(|k| *k <= SQUARE / part);
    let mut divisors: Vec<u64> = parts.map(|k| k * part).collect();
    divisors.extend((0..300).map(|_| (random.up_to(SQUARE / part - 2) + 1) * part));
    divisors.extend((0..300).map(|_| random.of_any_size(SQUARE - 2) + 2));
    for w in divisors.into_iter().flat_map(|w| [w - 1, w, w + 1]) {
        for digit in 0..=10 {
            let x = (u128::from(w) * digit / 10) as u64;
            for x in [x.saturating_sub(1), x, x + 1] {
                compare_division(x, w);
            }
        }
    }
}
