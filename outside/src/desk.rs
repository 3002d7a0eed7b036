//! The calculator's seven calls, through their C interface.

use crate::calls::{answer_of, left, Call, Outcome, ANSWER};
use crate::game::{self, Winners};
use crate::sittings::{self, Sat, Sitting};
use crate::tables::Under;

mod c {
    extern "C" {
        pub fn check(plan: *const u8, plan_len: usize) -> u64;
        pub fn figure(
            plan: *const u8,
            plan_len: usize,
            table: *const u8,
            table_len: usize,
            choice: u64,
            limit: u64,
            answer: *mut u8,
            answer_len: usize,
        ) -> u64;
        pub fn importance(
            plan: *const u8,
            plan_len: usize,
            table: *const u8,
            table_len: usize,
            place: u64,
            limit: u64,
            answer: *mut u8,
            answer_len: usize,
        ) -> u64;
        pub fn difference(
            plan_a: *const u8,
            plan_a_len: usize,
            plan_b: *const u8,
            plan_b_len: usize,
            table: *const u8,
            table_len: usize,
            limit: u64,
            answer: *mut u8,
            answer_len: usize,
        ) -> u64;
        pub fn sitting(
            plan: *const u8,
            plan_len: usize,
            table: *const u8,
            table_len: usize,
            limit: u64,
            saved: *const u8,
            saved_len: usize,
            answer: *mut u8,
            answer_len: usize,
            work: *mut u8,
            work_len: usize,
        ) -> u64;
        pub fn counts(plan: *const u8, plan_len: usize, row: *mut u64, row_len: usize) -> u64;
        pub fn game(plan: *const u8, plan_len: usize, answer: *mut u8, answer_len: usize) -> u64;
    }
}

/// Makes the call.
pub fn made<'a>(call: impl Into<Under<'a, Call<'a>>>, answer: &mut [u8]) -> u64 {
    let Under { asked, table } = call.into();
    let (by, count) = (table.as_ptr(), table.len());
    let (to, room) = (answer.as_mut_ptr(), answer.len());
    // SAFETY: each pointer stands with its length, and the answer is lent to this call alone.
    unsafe {
        match asked {
            Call::Check { plan } => c::check(plan.as_ptr(), plan.len()),
            Call::Figure {
                plan,
                choice,
                limit,
            } => {
                let (plan, length) = (plan.as_ptr(), plan.len());
                c::figure(plan, length, by, count, choice, limit, to, room)
            }
            Call::Importance { plan, place, limit } => {
                let (plan, length) = (plan.as_ptr(), plan.len());
                c::importance(plan, length, by, count, place, limit, to, room)
            }
            Call::Difference { a, b, limit } => {
                let ([a, b], lengths) = ([a.as_ptr(), b.as_ptr()], [a.len(), b.len()]);
                let [length, b_length] = lengths;
                c::difference(a, length, b, b_length, by, count, limit, to, room)
            }
        }
    }
}

/// Makes the call of a sitting.
pub fn sat<'a>(
    sitting: impl Into<Under<'a, Sitting<'a>>>,
    answer: &mut [u8],
    work: &mut [u8],
) -> u64 {
    let Under { asked, table } = sitting.into();
    let Sitting { plan, limit, saved } = asked;
    // SAFETY: as above, and the work is lent to this call alone too.
    unsafe {
        c::sitting(
            plan.as_ptr(),
            plan.len(),
            table.as_ptr(),
            table.len(),
            limit,
            saved.as_ptr(),
            saved.len(),
            answer.as_mut_ptr(),
            answer.len(),
            work.as_mut_ptr(),
            work.len(),
        )
    }
}

/// Makes the call of the counts.
pub fn counted(plan: &[u8], row: &mut [u64]) -> u64 {
    // SAFETY: as above, and the row is lent to this call alone.
    unsafe { c::counts(plan.as_ptr(), plan.len(), row.as_mut_ptr(), row.len()) }
}

/// Makes the call of the game.
pub fn played(plan: &[u8], answer: &mut [u8]) -> u64 {
    // SAFETY: as above.
    unsafe { c::game(plan.as_ptr(), plan.len(), answer.as_mut_ptr(), answer.len()) }
}

/// What the call answers.
pub fn answered(call: &Call) -> Outcome {
    let mut answer = [0; ANSWER];
    match (made(call, &mut answer), call) {
        (0, Call::Check { .. }) => Ok(None),
        (0, _) => Ok(Some(answer_of(&answer))),
        (refusal, _) => Err(refusal),
    }
}

/// What a buffer holds before a call: no two bytes near each other are alike.
pub fn pattern(room: usize) -> Vec<u8> {
    (0..room)
        .map(|i| (i as u8).wrapping_mul(151) ^ 0xa5)
        .collect()
}

const GUARD: usize = 48;

/// Makes a call that may only read what is lent here, and asserts that it has left each byte of it.
fn unchanged<const N: usize>(lent: [&[u8]; N], call: impl FnOnce() -> u64) -> u64 {
    let before = lent.map(<[u8]>::to_vec);
    let returned = call();
    let after = std::hint::black_box(lent);
    assert!(after == before, "what was lent is changed: {before:?}");
    returned
}

/// Makes the call into a buffer of `room` bytes with a guard behind, and asserts that the number returned and every byte
/// there are those of the outcome.
pub fn hold<'a>(call: impl Into<Under<'a, Call<'a>>>, room: usize, outcome: &Outcome) {
    let call = call.into();
    let before = pattern(room + GUARD);
    let mut buffer = before.clone();
    let (a, b) = match call.asked {
        Call::Difference { a, b, .. } => (a, b),
        Call::Check { plan } | Call::Figure { plan, .. } | Call::Importance { plan, .. } => {
            (plan, plan)
        }
    };
    let returned = unchanged([a, b, call.table], || made(call, &mut buffer[..room]));
    let expected = left(outcome, &before);
    assert_eq!(
        (returned, buffer),
        expected,
        "{call:?}, room {room}, {outcome:?}"
    );
}

/// The same of a sitting, into two buffers of these sizes, each with a guard behind.
pub fn hold_sitting<'a>(
    sitting: impl Into<Under<'a, Sitting<'a>>>,
    rooms: [usize; 2],
    outcome: &Result<Sat, u64>,
) {
    hold_sitting_at(sitting, rooms, [0, 0], outcome);
}

/// The same, with so many bytes before each buffer.
pub fn hold_sitting_at<'a>(
    sitting: impl Into<Under<'a, Sitting<'a>>>,
    rooms: [usize; 2],
    first: [usize; 2],
    outcome: &Result<Sat, u64>,
) {
    let sitting = sitting.into();
    let before = [0, 1].map(|i| pattern(first[i] + rooms[i] + GUARD));
    let [mut answer, mut work] = before.clone();
    let to_answer = &mut answer[first[0]..][..rooms[0]];
    let to_work = &mut work[first[1]..][..rooms[1]];
    let lent = [sitting.asked.plan, sitting.asked.saved, sitting.table];
    let returned = unchanged(lent, || sat(sitting, to_answer, to_work));
    let [(front, old), (work_front, old_work)] = [0, 1].map(|i| before[i].split_at(first[i]));
    let (number, left, left_work) = sittings::left(outcome, old, old_work);
    let left = [front, &left].concat();
    let left_work = [work_front, &left_work].concat();
    assert_eq!(
        (returned, answer, work),
        (number, left, left_work),
        "{sitting:?}, rooms {rooms:?} at {first:?}, {outcome:?}"
    );
}

/// What a row holds before a call: no two bytes near each other are alike.
pub fn row_pattern(room: usize) -> Vec<u64> {
    let bytes = pattern(8 * room);
    let number = |bytes: &[u8]| u64::from_ne_bytes(bytes.try_into().unwrap());
    bytes.chunks(8).map(number).collect()
}

/// The number that the call of the counts returns with that outcome, and what it leaves of the row.
pub fn row_left(outcome: &Result<Vec<u64>, u64>, row: &[u64]) -> (u64, Vec<u64>) {
    match outcome {
        Err(refusal) => (*refusal, row.to_vec()),
        Ok(counts) => (0, [counts, &row[counts.len()..]].concat()),
    }
}

/// Makes the call of the counts into a row of `room` numbers with a guard on both sides, odd rooms 8 bytes past a multiple of 16,
/// and asserts that the number returned and every number there are those of the outcome.
pub fn hold_counts(plan: &[u8], room: usize, outcome: &Result<Vec<u64>, u64>) {
    let first = GUARD + room % 2;
    let before = row_pattern(first + room + GUARD);
    let mut row = before.clone();
    let returned = unchanged([plan], || counted(plan, &mut row[first..][..room]));
    let (number, behind) = row_left(outcome, &before[first..]);
    let left = [&before[..first], &behind].concat();
    assert_eq!(
        (returned, row),
        (number, left),
        "{plan:?}, room {room}, {outcome:?}"
    );
}

/// Makes the call of the game into a buffer of `room` bytes with a guard on both sides, and asserts that the number returned is that
/// of the outcome and that every byte there may be so. Returns the buffer.
pub fn hold_game(plan: &[u8], room: usize, outcome: &Result<Winners, u64>) -> Vec<u8> {
    hold_game_at(plan, room, GUARD, outcome)
}

/// The same, with so many bytes before the buffer.
pub fn hold_game_at(
    plan: &[u8],
    room: usize,
    first: usize,
    outcome: &Result<Winners, u64>,
) -> Vec<u8> {
    let before = pattern(first + room + GUARD);
    let mut all = before.clone();
    let returned = unchanged([plan], || played(plan, &mut all[first..][..room]));
    assert_eq!(all[..first], before[..first], "before the buffer: {plan:?}");
    let left = [&before[first..], &all[first..]];
    if let Err(wrong) = game::check_left(plan, outcome, returned, left) {
        let shown = &all[first..][..room.min(game::GAME)];
        panic!("{wrong}: {plan:?}, room {room}, {outcome:?}, {returned} {shown:?}");
    }
    all[first..][..room].to_vec()
}

/// `check` of no bytes at no address.
pub fn check_nothing() -> u64 {
    // SAFETY: nothing is read of no bytes.
    unsafe { c::check(std::ptr::null(), 0) }
}

/// `figure` with a table of no bytes, and into no bytes, both at no address.
pub fn figure_into_nothing(plan: &[u8], choice: u64, limit: u64) -> u64 {
    let (table, answer) = (std::ptr::null(), std::ptr::null_mut());
    // SAFETY: as above, and nothing is written to no bytes.
    unsafe {
        c::figure(
            plan.as_ptr(),
            plan.len(),
            table,
            0,
            choice,
            limit,
            answer,
            0,
        )
    }
}

/// `counts` into a row of no numbers at no address.
pub fn counts_into_nothing(plan: &[u8]) -> u64 {
    // SAFETY: nothing is written to no numbers.
    unsafe { c::counts(plan.as_ptr(), plan.len(), std::ptr::null_mut(), 0) }
}

/// `counts` of no bytes at no address.
pub fn counts_of_nothing(row: &mut [u64]) -> u64 {
    // SAFETY: nothing is read of no bytes.
    unsafe { c::counts(std::ptr::null(), 0, row.as_mut_ptr(), row.len()) }
}

/// `game` into no bytes at no address.
pub fn game_into_nothing(plan: &[u8]) -> u64 {
    // SAFETY: nothing is written to no bytes.
    unsafe { c::game(plan.as_ptr(), plan.len(), std::ptr::null_mut(), 0) }
}

/// `game` of no bytes at no address.
pub fn game_of_nothing(answer: &mut [u8]) -> u64 {
    // SAFETY: nothing is read of no bytes.
    unsafe { c::game(std::ptr::null(), 0, answer.as_mut_ptr(), answer.len()) }
}

/// A sitting of which one lent part (the plan, the table, the saved work, the answer or the work buffer) is no bytes at no address.
pub fn sat_with_nothing(sitting: &Under<Sitting>, which: usize) -> u64 {
    use std::ptr::{null, null_mut};
    let (mut answer, mut work) = ([0; ANSWER], [0; sittings::WORK]);
    let Sitting { plan, limit, saved } = sitting.asked;
    let lent = |i: usize, bytes: &[u8]| match i == which {
        true => (null(), 0),
        false => (bytes.as_ptr(), bytes.len()),
    };
    let (plan, table, saved) = (lent(0, plan), lent(1, sitting.table), lent(2, saved));
    let lent = |i: usize, bytes: &mut [u8]| match i == which {
        true => (null_mut(), 0),
        false => (bytes.as_mut_ptr(), bytes.len()),
    };
    let (answer, work) = (lent(3, &mut answer), lent(4, &mut work));
    // SAFETY: nothing is read of no bytes and nothing written to them.
    unsafe {
        c::sitting(
            plan.0, plan.1, table.0, table.1, limit, saved.0, saved.1, answer.0, answer.1, work.0,
            work.1,
        )
    }
}
