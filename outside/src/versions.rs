//! The versions of the rule: the bytes of an accepted plan's figure by each.

use crate::bitsets;
use crate::calls::{answer_bytes, Call, ANSWER};
use crate::chosen::{self, all_nodes, Terminals};
use crate::desk;
use crate::plans::Plan;
use crate::rule::{self, Figure, Network};

pub type Version = fn(&Plan, u64) -> [u8; ANSWER];

/// Of a choice of nodes, which stands before the limit.
pub type VersionOf = fn(&Plan, u64, u64) -> [u8; ANSWER];

/// The calculator's library, through its figure call.
pub fn library(plan: &Plan, limit: u64) -> [u8; ANSWER] {
    library_of(plan, all_nodes(plan.nodes), limit)
}

pub fn library_of(plan: &Plan, choice: u64, limit: u64) -> [u8; ANSWER] {
    let (plan, table) = (&plan.bytes(), &plan.table.bytes());
    let mut answer = [0; ANSWER];
    let call = Call::Figure {
        plan,
        choice,
        limit,
    };
    assert_eq!(desk::made(call.under(table), &mut answer), 0);
    answer
}

/// The rule in C with bit sets.
pub fn in_c(plan: &Plan, limit: u64) -> [u8; ANSWER] {
    bytes(bitsets::figure(plan, limit))
}

/// The same with chosen nodes.
pub fn in_c_of(plan: &Plan, choice: u64, limit: u64) -> [u8; ANSWER] {
    bytes(bitsets::figure_of(plan, choice, limit))
}

/// The rule on lists that are handed on by value.
pub fn straightforward(plan: &Plan, limit: u64) -> [u8; ANSWER] {
    bytes(rule::figure(Network::from(plan), limit))
}

/// The same with chosen nodes.
pub fn straightforward_of(plan: &Plan, choice: u64, limit: u64) -> [u8; ANSWER] {
    bytes(chosen::figure(Terminals::of(plan, choice), limit))
}

fn bytes(figure: Figure) -> [u8; ANSWER] {
    answer_bytes(&figure.into()).try_into().unwrap()
}
