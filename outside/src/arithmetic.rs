//! Directed rounding, the table of ratings and the joints, worked in 128-bit numbers from the definitions alone.

/// One, in units.
pub const S: u32 = 1_000_000_000;

/// J, the chance that one joint is sound, in units.
pub const JOINT: u32 = 999_950_000;

const WHOLE: u128 = S as u128;

#[derive(Clone, Copy, Debug, PartialEq, Eq)]
pub enum Side {
    Low,
    High,
}

pub const SIDES: [Side; 2] = [Side::Low, Side::High];

fn floor(x: u128, y: u128) -> u128 {
    x / y
}

fn ceiling(x: u128, y: u128) -> u128 {
    x / y + u128::from(x % y != 0)
}

fn rounded(side: Side, x: u128, y: u128) -> u32 {
    let quotient = match side {
        Side::Low => floor(x, y),
        Side::High => ceiling(x, y),
    };
    u32::try_from(quotient).expect("a chance is at most S")
}

/// p * q / S.
pub fn product(side: Side, p: u32, q: u32) -> u32 {
    rounded(side, u128::from(p) * u128::from(q), WHOLE)
}

/// S - (S - p) * (S - q) / S, the quotient up for low and down for high.
pub fn parallel(side: Side, p: u32, q: u32) -> u32 {
    let broken = u128::from(S - p) * u128::from(S - q);
    let quotient = match side {
        Side::Low => ceiling(broken, WHOLE),
        Side::High => floor(broken, WHOLE),
    };
    S - u32::try_from(quotient).expect("a chance is at most S")
}

/// W = S * (p + q) - p * q.
pub fn either(p: u32, q: u32) -> u64 {
    let (p, q) = (u128::from(p), u128::from(q));
    u64::try_from(WHOLE * (p + q) - p * q).expect("W is at most S * S")
}

/// S * p * q / W, and 0 where W is 0.
pub fn series(side: Side, p: u32, q: u32) -> u32 {
    match either(p, q) {
        0 => 0,
        w => rounded(side, WHOLE * u128::from(p) * u128::from(q), u128::from(w)),
    }
}

/// W / S.
pub fn factor(side: Side, p: u32, q: u32) -> u32 {
    rounded(side, u128::from(either(p, q)), WHOLE)
}

/// (p * sound + (S - p) * broken) / S.
pub fn split(side: Side, p: u32, sound: u32, broken: u32) -> u32 {
    let sum = u128::from(p) * u128::from(sound) + u128::from(S - p) * u128::from(broken);
    rounded(side, sum, WHOLE)
}

/// The fewest k up to nine such that w divides 10^k * x, else nine.
fn digits(x: u64, w: u64) -> u64 {
    let divides = |k: &u32| 10u128.pow(*k) * u128::from(x) % u128::from(w) == 0;
    u64::from((0..9).find(divides).unwrap_or(9))
}

/// The quotient and the remainder of S * x by w, and how many digits are worked.
pub fn long_division(x: u64, w: u64) -> (u64, u64, u64) {
    let dividend = WHOLE * u128::from(x);
    let quotient = dividend / u128::from(w);
    let remainder = dividend - quotient * u128::from(w);
    (
        u64::try_from(quotient).expect("x is at most w"),
        u64::try_from(remainder).expect("a remainder is below w"),
        digits(x, w),
    )
}

/// The value of a length of this rating: a joint at each of its two ends, rounded after each.
pub fn joints(side: Side, rating: u32) -> u32 {
    let joint = |value: u32| rounded(side, u128::from(value) * u128::from(JOINT), WHOLE);
    joint(joint(rating))
}

/// The whole table T.
pub fn ratings() -> Vec<u32> {
    let next = |t: &u32| Some(rounded(Side::Low, u128::from(*t) * 999_700_000, WHOLE));
    std::iter::successors(Some(S), next).take(512).collect()
}
