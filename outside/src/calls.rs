//! The planning desk's calls but for the sitting, and what each should answer.

use crate::arithmetic::S;
use crate::chosen::{self, all_nodes, is_choice, Terminals};
use crate::plans::{Link, Plan, LENGTH};
use crate::rule::{self, Answer, Figure, Network};
use crate::tables::{Table, Under};

pub const MOST_STEPS: u64 = 1_000_000;

/// The bytes of an answer.
pub const ANSWER: usize = 16;

#[derive(Clone, Copy, Debug)]
pub enum Call<'a> {
    Check {
        plan: &'a [u8],
    },
    Figure {
        plan: &'a [u8],
        choice: u64,
        limit: u64,
    },
    Importance {
        plan: &'a [u8],
        place: u64,
        limit: u64,
    },
    Difference {
        a: &'a [u8],
        b: &'a [u8],
        limit: u64,
    },
}

/// Limits around the splits that a network needs, and far from them, in ascending order.
pub fn limits_around(needed: u64) -> Vec<u64> {
    let around = needed.saturating_sub(1)..=needed + 1;
    let mut limits: Vec<u64> = around.chain([0, 1, needed / 2, MOST_STEPS]).collect();
    limits.sort();
    limits
}

/// What a call answers, which for a check is nothing, or the number that it is refused with.
pub type Outcome = Result<Option<Answer>, u64>;

pub(crate) fn number(bytes: &[u8]) -> u32 {
    bytes.iter().rev().fold(0, |x, b| x * 256 + u32::from(*b))
}

/// The plan that the bytes mean, or rows 1 to 6 of the table.
pub fn read(bytes: &[u8]) -> Result<Plan, u64> {
    if bytes.len() < 4 {
        return Err(1);
    }
    let (nodes, count) = (number(&bytes[..2]), number(&bytes[2..4]) as usize);
    if nodes == 0 || nodes > 32 {
        return Err(2);
    }
    if count > 64 {
        return Err(3);
    }
    if bytes.len() != 4 + 6 * count {
        return Err(4);
    }
    let (ends, values) = bytes[4..].split_at(2 * count);
    let mut plan = Plan::new(nodes as u16, &[]);
    for (i, (ends, value)) in ends.chunks(2).zip(values.chunks(4)).enumerate() {
        let value = number(value);
        if ends.iter().any(|v| u32::from(*v) >= nodes) {
            return Err(5 + 256 * i as u64);
        }
        if (S < value && value < LENGTH) || value > LENGTH + 511 {
            return Err(6 + 256 * i as u64);
        }
        plan.links.push(Link {
            ends: [ends[0], ends[1]],
            value,
        });
    }
    Ok(plan)
}

/// Rows 7, 9, 12 and 13, which come first, and the table.
pub(crate) fn asked(limit: u64, room: usize, table: &[u8]) -> Result<Table, u64> {
    if limit > MOST_STEPS {
        return Err(7);
    }
    if room < ANSWER {
        return Err(9);
    }
    Table::read(table)
}

/// The choice of all nodes of a plan file; of no node where their number is refused.
pub fn all_nodes_of(plan: &[u8]) -> u64 {
    match plan.get(..2).map(number) {
        Some(count) if count <= 32 => all_nodes(count as u16),
        _ => 0,
    }
}

/// The figure of a plan that is accepted. Where all nodes are chosen, it is by the rule for all nodes.
fn figure(plan: &Plan, choice: u64, limit: u64) -> Figure {
    if choice == all_nodes(plan.nodes) {
        return rule::figure(Network::from(plan), limit);
    }
    chosen::figure(Terminals::of(plan, choice), limit)
}

impl<'a> Call<'a> {
    /// The figure with all nodes chosen.
    pub fn figure(plan: &'a [u8], limit: u64) -> Call<'a> {
        let choice = all_nodes_of(plan);
        Call::Figure {
            plan,
            choice,
            limit,
        }
    }

    /// The call with this table, which plays no part in a check.
    pub fn under(self, table: &'a [u8]) -> Under<'a, Call<'a>> {
        Under { asked: self, table }
    }

    /// What the call should answer, with a table of no bytes, into a buffer of `room` bytes.
    pub fn outcome(&self, room: usize) -> Outcome {
        self.under(&[]).outcome(room)
    }
}

impl<'a> From<&Call<'a>> for Under<'a, Call<'a>> {
    fn from(call: &Call<'a>) -> Under<'a, Call<'a>> {
        call.under(&[])
    }
}

impl Under<'_, Call<'_>> {
    /// What the call should answer into a buffer of `room` bytes.
    pub fn outcome(&self, room: usize) -> Outcome {
        match self.asked {
            Call::Check { plan } => read(plan).map(|_| None),
            Call::Figure {
                plan,
                choice,
                limit,
            } => {
                let table = asked(limit, room, self.table)?;
                let plan = read(plan)?.under(&table);
                if !is_choice(choice, plan.nodes) {
                    return Err(14);
                }
                Ok(Some(figure(&plan, choice, limit).into()))
            }
            Call::Importance { plan, place, limit } => {
                let table = asked(limit, room, self.table)?;
                let plan = read(plan)?;
                if place >= plan.links.len() as u64 {
                    return Err(8);
                }
                let network = Network::from(&plan.under(&table));
                Ok(Some(rule::importance(&network, place as usize, limit)))
            }
            Call::Difference { a, b, limit } => {
                let table = asked(limit, room, self.table)?;
                let plans = [read(a)?, read(b).map_err(|r| r + 20)?];
                let [a, b] = plans.map(|plan| Network::from(&plan.under(&table)));
                Ok(Some(rule::difference(a, b, limit)))
            }
        }
    }
}

/// The 16 bytes of an answer. A negative number is its two's complement.
pub fn answer_bytes(answer: &Answer) -> Vec<u8> {
    let finished = i64::from(answer.finished);
    let numbers = [answer.low, answer.high, answer.steps as i64, finished];
    numbers
        .iter()
        .flat_map(|x| x.rem_euclid(1 << 32).to_le_bytes().into_iter().take(4))
        .collect()
}

/// The answer that the bytes hold.
pub fn answer_of(bytes: &[u8; ANSWER]) -> Answer {
    let word = |i: usize| number(&bytes[i..i + 4]);
    Answer {
        low: (word(0) as i32).into(),
        high: (word(4) as i32).into(),
        steps: word(8).into(),
        finished: word(12) == 1,
    }
}

/// The number that a call returns with that outcome, and what it leaves of the buffer.
pub fn left(outcome: &Outcome, buffer: &[u8]) -> (u64, Vec<u8>) {
    match outcome {
        Err(refusal) => (*refusal, buffer.to_vec()),
        Ok(None) => (0, buffer.to_vec()),
        Ok(Some(answer)) => (0, [&answer_bytes(answer), &buffer[ANSWER..]].concat()),
    }
}

/// The outcome of a call by the rule, to which the library is held.
pub fn held<'a>(call: impl Into<Under<'a, Call<'a>>>, room: usize) -> Outcome {
    let call = call.into();
    let outcome = call.outcome(room);
    crate::desk::hold(call, room, &outcome);
    outcome
}
