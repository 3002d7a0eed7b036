//! The answers of accepted calls, in which the library and the rule agree, and what is claimed of them.

use crate::calls::{answer_of, held, limits_around, Call, ANSWER};
use crate::chosen::{self, Terminals};
use crate::plans::Plan;
use crate::random::Random;
use crate::rule::{needed, Answer, Choice, Network};
use crate::sittings::{self, Sat, Sitting, NOTHING, WORK};
use crate::states::{widest, widest_difference, widest_importance, Exact};
use crate::tables::Table;
use std::cmp::Ordering;

/// The answer of an accepted call.
fn answer(call: Call, table: &Table) -> Answer {
    let table = &table.bytes();
    held(call.under(table), 24).unwrap().unwrap()
}

pub fn figure(plan: &Plan, limit: u64) -> Answer {
    let (file, table) = (&plan.bytes(), &plan.table);
    answer(Call::figure(file, limit), table)
}

/// The figure of these nodes.
pub fn figure_of(plan: &Plan, choice: u64, limit: u64) -> Answer {
    let (file, table) = (&plan.bytes(), &plan.table);
    let call = Call::Figure {
        plan: file,
        choice,
        limit,
    };
    answer(call, table)
}

pub fn importance(plan: &Plan, place: usize, limit: u64) -> Answer {
    let (place, table) = (place as u64, &plan.table);
    let plan = &plan.bytes();
    answer(Call::Importance { plan, place, limit }, table)
}

pub fn difference(a: &Plan, b: &Plan, limit: u64) -> Answer {
    assert_eq!(a.table, b.table, "one table for both plans");
    let (table, a, b) = (&a.table, &a.bytes(), &b.bytes());
    answer(Call::Difference { a, b, limit }, table)
}

pub fn sat(plan: &Plan, limit: u64, saved: &[u8]) -> Sat {
    let (plan, table) = (&plan.bytes(), &plan.table.bytes());
    let sitting = Sitting { plan, limit, saved };
    sittings::held(sitting.under(table)).unwrap()
}

pub fn sat_answer(sat: &Sat) -> Answer {
    answer_of(sat.answer[..].try_into().unwrap())
}

/// Work of so many steps by the first link's rule.
pub fn by_first_link(plan: &Plan, limit: u64) -> Vec<u8> {
    let (plan, table, saved) = (&plan.bytes(), &plan.table.bytes(), &NOTHING);
    let first = Sitting { plan, limit, saved }.under(table);
    let sat = first.outcome_by(Choice::FirstLink, ANSWER, WORK);
    sat.unwrap().work
}

/// Sittings from this work to the end, of some steps each: their answers.
pub fn to_the_end(random: &mut Random, plan: &Plan, saved: &[u8]) -> Vec<Answer> {
    let mut now = sat(plan, 0, saved);
    let mut answers = vec![sat_answer(&now)];
    while !sat_answer(&now).finished {
        now = sat(plan, 1 + random.of_any_size(40), &now.work);
        answers.push(sat_answer(&now));
    }
    answers
}

/// The splits that a plan needs.
pub fn splits(plan: &Plan) -> u64 {
    needed(Network::from(plan))
}

/// Whether an answer is in order and, where it is finished, at most so wide.
pub fn is_narrow(answer: &Answer, widest: i64) -> bool {
    answer.low <= answer.high && (!answer.finished || answer.high - answer.low <= widest)
}

/// Each answer lies within the one before.
pub fn hold_nested(answers: &[Answer]) {
    for pair in answers.windows(2) {
        let nested = pair[0].low <= pair[1].low && pair[1].high <= pair[0].high;
        assert!(nested, "{pair:?}");
    }
}

/// Answers under growing limits: each encloses the exact number and lies within the one before; those that are finished are at
/// most so wide.
pub fn hold(exact: &Exact, answers: &[Answer], widest: i64) {
    for answer in answers {
        assert!(exact.is_enclosed_by(answer), "{answer:?}");
        assert!(is_narrow(answer, widest), "{answer:?} {widest}");
    }
    hold_nested(answers);
}

/// A finished answer of an exact number that is no whole one, by the whole one below it.
pub fn hold_between(exact: &Exact, floor: i64, answer: &Answer) {
    assert_eq!(exact.compared(floor), Ordering::Greater, "{floor}");
    assert_eq!(exact.compared(floor + 1), Ordering::Less, "{floor}");
    assert!(answer.finished && answer.low <= floor && floor < answer.high);
}

fn answers(needed: u64, worked: impl Fn(u64) -> Answer) -> Vec<Answer> {
    limits_around(needed).into_iter().map(worked).collect()
}

/// The answers of a figure at limits around the splits that it needs: their steps, and whether they are finished.
fn counted(needed: u64, figure: impl Fn(u64) -> Answer) -> Vec<Answer> {
    answers(needed, |limit| {
        let answer = figure(limit);
        assert_eq!(answer.steps, needed.min(limit), "{answer:?} {limit}");
        assert_eq!(answer.finished, needed <= limit, "{answer:?} {limit}");
        answer
    })
}

/// All that is claimed of a plan's figure, at limits around the splits that it needs, which are returned.
pub fn hold_figure(plan: &Plan) -> u64 {
    let needed = splits(plan);
    let answers = counted(needed, |limit| figure(plan, limit));
    hold(&Exact::figure(plan), &answers, widest(plan));
    needed
}

/// The same of these nodes, but for the sum over the states.
pub fn hold_figures_of(plan: &Plan, choice: u64) -> (u64, Vec<Answer>) {
    let needed = chosen::needed(Terminals::of(plan, choice));
    let answers = counted(needed, |limit| figure_of(plan, choice, limit));
    let widest = widest(plan);
    assert!(answers.iter().all(|answer| is_narrow(answer, widest)));
    hold_nested(&answers);
    (needed, answers)
}

/// All that is claimed of the figure of these nodes.
pub fn hold_figure_of(plan: &Plan, choice: u64) -> u64 {
    let (needed, answers) = hold_figures_of(plan, choice);
    hold(&Exact::figure_of(plan, choice), &answers, widest(plan));
    needed
}

/// The same of the importance of each link; returned are the steps that they take in all.
pub fn hold_importances(plan: &Plan) -> u64 {
    let needed = splits(plan);
    let held = |place| {
        let answers = answers(needed, |limit| importance(plan, place, limit));
        assert!(answers.iter().all(|answer| answer.low >= 0));
        let widest = widest_importance(plan, place);
        hold(&Exact::importance(plan, place), &answers, widest);
        answers.last().unwrap().steps
    };
    (0..plan.links.len()).map(held).sum()
}

/// How many answers are below 0, above it, and neither.
#[derive(Debug, Default)]
pub struct Signs {
    pub below: usize,
    pub across: usize,
    pub above: usize,
}

/// The same of the difference of two plans, both ways round, and of the first with itself.
pub fn hold_differences(signs: &mut Signs, a: &Plan, b: &Plan) {
    let most = splits(a).max(splits(b));
    for (a, b) in [(a, b), (b, a), (a, a)] {
        let answers = answers(most, |limit| difference(a, b, limit));
        hold(&Exact::difference(a, b), &answers, widest_difference(a, b));
        for answer in answers {
            match (answer.low >= 0, answer.high >= 0) {
                (true, _) => signs.above += 1,
                (false, true) => signs.across += 1,
                (false, false) => signs.below += 1,
            }
        }
    }
}
