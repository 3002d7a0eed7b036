//! The calculator's own functions, through their C interface. They take any number: out of range they answer the
//! largest number of the result's type.

use crate::arithmetic::Side;

mod c {
    extern "C" {
        pub fn rounding_product(up: bool, p: u32, q: u32) -> u32;
        pub fn rounding_parallel(up: bool, p: u32, q: u32) -> u32;
        pub fn rounding_series(up: bool, p: u32, q: u32) -> u32;
        pub fn rounding_factor(up: bool, p: u32, q: u32) -> u32;
        pub fn rounding_either(p: u32, q: u32) -> u64;
        pub fn rounding_split(up: bool, p: u32, sound: u32, broken: u32) -> u32;
        pub fn rounding_quotient(x: u64, w: u64) -> u64;
        pub fn rounding_remainder(x: u64, w: u64) -> u64;
        pub fn rounding_digits(x: u64, w: u64) -> u64;
        pub fn rating(k: usize) -> u32;
    }
}

fn up(side: Side) -> bool {
    side == Side::High
}

// SAFETY of every call below: the functions take numbers alone, ask nothing of them and touch no memory of ours.

pub fn product(side: Side, p: u32, q: u32) -> u32 {
    unsafe { c::rounding_product(up(side), p, q) }
}

pub fn parallel(side: Side, p: u32, q: u32) -> u32 {
    unsafe { c::rounding_parallel(up(side), p, q) }
}

pub fn series(side: Side, p: u32, q: u32) -> u32 {
    unsafe { c::rounding_series(up(side), p, q) }
}

pub fn factor(side: Side, p: u32, q: u32) -> u32 {
    unsafe { c::rounding_factor(up(side), p, q) }
}

pub fn either(p: u32, q: u32) -> u64 {
    unsafe { c::rounding_either(p, q) }
}

pub fn split(side: Side, p: u32, sound: u32, broken: u32) -> u32 {
    unsafe { c::rounding_split(up(side), p, sound, broken) }
}

/// The quotient and the remainder of S * x by w, and how many digits were worked.
pub fn long_division(x: u64, w: u64) -> (u64, u64, u64) {
    unsafe {
        (
            c::rounding_quotient(x, w),
            c::rounding_remainder(x, w),
            c::rounding_digits(x, w),
        )
    }
}

pub fn rating(k: usize) -> u32 {
    unsafe { c::rating(k) }
}
