//! Exact figures: sums over all states of the links, in whole numbers of any size. The chance of a link given in units is counted
//! in parts of which S make one, that of a length with its two joints in parts of which S^3 do.

use crate::arithmetic::{JOINT, S};
use crate::chosen::all_nodes;
use crate::plans::{Link, Plan};
use crate::rule::Answer;
use crate::tables::Table;
use std::cmp::Ordering;

/// The most links that are summed over.
pub const MOST: usize = 16;

/// A number by its digits of 32 bits, the lowest first and the highest not 0.
#[derive(Clone, Debug, PartialEq, Eq)]
struct Whole(Vec<u32>);

impl Whole {
    fn zero() -> Whole {
        Whole(Vec::new())
    }

    fn one() -> Whole {
        Whole(vec![1])
    }

    fn plus(&self, other: &Whole) -> Whole {
        let count = self.0.len().max(other.0.len());
        let mut digits = Vec::with_capacity(count + 1);
        let digit = |x: &Whole, i: usize| u64::from(x.0.get(i).copied().unwrap_or(0));
        let mut carry = 0;
        for i in 0..count {
            let sum = digit(self, i) + digit(other, i) + carry;
            digits.push(sum as u32);
            carry = sum >> 32;
        }
        if carry > 0 {
            digits.push(carry as u32);
        }
        Whole(digits)
    }

    /// The factor is below 2^96, so that a digit's product and the carry fit in 128 bits.
    fn times(&self, factor: u128) -> Whole {
        assert!(factor >> 96 == 0, "a factor past 96 bits");
        if factor == 0 || self.0.is_empty() {
            return Whole::zero();
        }
        let mut digits = Vec::with_capacity(self.0.len() + 3);
        let mut carry = 0;
        for digit in &self.0 {
            let product = u128::from(*digit) * factor + carry;
            digits.push(product as u32);
            carry = product >> 32;
        }
        while carry > 0 {
            digits.push(carry as u32);
            carry >>= 32;
        }
        Whole(digits)
    }

    fn times_power_of_s(&self, exponent: usize) -> Whole {
        (0..exponent).fold(self.clone(), |x, _| x.times(S.into()))
    }
}

impl Ord for Whole {
    fn cmp(&self, other: &Whole) -> Ordering {
        let lengths = self.0.len().cmp(&other.0.len());
        lengths.then_with(|| self.0.iter().rev().cmp(other.0.iter().rev()))
    }
}

impl PartialOrd for Whole {
    fn partial_cmp(&self, other: &Whole) -> Option<Ordering> {
        Some(self.cmp(other))
    }
}

/// The power of S that makes one in the parts of this link.
fn power(link: &Link) -> u32 {
    match link.length() {
        Some(_) => 3,
        None => 1,
    }
}

/// The same of all links of a plan together.
fn powers(plan: &Plan) -> usize {
    plan.links.iter().map(|link| power(link) as usize).sum()
}

/// The chances that the link is sound and that it is broken, in its parts.
fn weights(table: &Table, link: &Link) -> [u128; 2] {
    let sound = match table.rating(link) {
        Some(rating) => u128::from(rating) * u128::from(JOINT) * u128::from(JOINT),
        None => link.value.into(),
    };
    [sound, u128::from(S).pow(power(link)) - sound]
}

/// Which nodes hang together: the lowest node of each one's group.
type Groups = [u8; 32];

fn merged(groups: Groups, [a, b]: [u8; 2]) -> Groups {
    let (x, y) = (groups[usize::from(a)], groups[usize::from(b)]);
    groups.map(|g| if g == x.max(y) { x.min(y) } else { g })
}

/// The sum over the states of these links in which the chosen nodes hang together, the links before them having made the groups.
fn sum(links: &[([u8; 2], [u128; 2])], chosen: &[usize], groups: Groups) -> Whole {
    let Some(((ends, [sound, broken]), others)) = links.split_first() else {
        let together = chosen.iter().all(|v| groups[*v] == groups[chosen[0]]);
        return if together {
            Whole::one()
        } else {
            Whole::zero()
        };
    };
    let if_sound = sum(others, chosen, merged(groups, *ends)).times(*sound);
    let if_broken = sum(others, chosen, groups).times(*broken);
    if_sound.plus(&if_broken)
}

/// N of the plan with all nodes chosen, the nodes of the given ends joined from the start.
fn connected_states(plan: &Plan, joined: Option<[u8; 2]>) -> Whole {
    states_of_chosen(plan, all_nodes(plan.nodes), joined)
}

/// N of the plan with these nodes chosen.
fn states_of_chosen(plan: &Plan, choice: u64, joined: Option<[u8; 2]>) -> Whole {
    assert!(plan.links.len() <= MOST);
    let chosen: Vec<usize> = (0..32).filter(|v| choice >> v & 1 == 1).collect();
    let link = |link: &Link| (link.ends, weights(&plan.table, link));
    let links: Vec<_> = plan.links.iter().map(link).collect();
    let alone = std::array::from_fn(|v| v as u8);
    let groups = joined.map_or(alone, |ends| merged(alone, ends));
    sum(&links, &chosen, groups)
}

/// The number (gain - loss) / one, in units.
pub struct Exact {
    gain: Whole,
    loss: Whole,
    one: Whole,
}

impl Exact {
    pub fn figure(plan: &Plan) -> Exact {
        Exact::figure_of(plan, all_nodes(plan.nodes))
    }

    /// Of these nodes hanging together.
    pub fn figure_of(plan: &Plan, choice: u64) -> Exact {
        Exact {
            gain: states_of_chosen(plan, choice, None).times(S.into()),
            loss: Whole::zero(),
            one: Whole::one().times_power_of_s(powers(plan)),
        }
    }

    /// Of a plan whose links all have this chance in units, of whose sets of i links so many connect it, for each i.
    pub fn of_counts(counts: &[u64], chance: u32) -> Exact {
        let links = counts.len() - 1;
        let term = |(i, count): (usize, &u64)| {
            let sets = Whole::one().times((*count).into());
            let sound = (0..i).fold(sets, |x, _| x.times(chance.into()));
            (i..links).fold(sound, |x, _| x.times((S - chance).into()))
        };
        let terms = counts.iter().enumerate().map(term);
        let sum = terms.fold(Whole::zero(), |x, y| x.plus(&y));
        Exact {
            gain: sum.times(S.into()),
            loss: Whole::zero(),
            one: Whole::one().times_power_of_s(links),
        }
    }

    /// The states of the other links, with the one at `place` sound less those with it broken.
    pub fn importance(plan: &Plan, place: usize) -> Exact {
        let mut others = plan.clone();
        let link = others.links.remove(place);
        Exact {
            gain: connected_states(&others, Some(link.ends)).times(S.into()),
            loss: connected_states(&others, None).times(S.into()),
            one: Whole::one().times_power_of_s(powers(&others)),
        }
    }

    pub fn difference(a: &Plan, b: &Plan) -> Exact {
        let (a_figure, b_figure) = (Exact::figure(a), Exact::figure(b));
        Exact {
            gain: a_figure.gain.times_power_of_s(powers(b)),
            loss: b_figure.gain.times_power_of_s(powers(a)),
            one: a_figure.one.times_power_of_s(powers(b)),
        }
    }

    /// This number against a whole number of units.
    pub fn compared(&self, units: i64) -> Ordering {
        let scaled = self.one.times(units.unsigned_abs().into());
        if units < 0 {
            self.gain.plus(&scaled).cmp(&self.loss)
        } else {
            self.gain.cmp(&self.loss.plus(&scaled))
        }
    }

    pub fn is_enclosed_by(&self, answer: &Answer) -> bool {
        self.compared(answer.low).is_ge() && self.compared(answer.high).is_le()
    }
}

/// How wide the pair of a finished figure may be, with so many links, nodes and lengths.
fn bound(links: usize, nodes: u16, lengths: usize) -> i64 {
    2 * links as i64 + 4 * i64::from(nodes) + 4 * lengths as i64
}

/// How wide a finished figure of the plan may be.
pub fn widest(plan: &Plan) -> i64 {
    bound(plan.links.len(), plan.nodes, plan.lengths())
}

/// How wide a finished importance may be: as both evaluations together, which have the other links. Where the link is sound its
/// ends are one node.
pub fn widest_importance(plan: &Plan, place: usize) -> i64 {
    let mut others = plan.clone();
    let [a, b] = others.links.remove(place).ends;
    let (links, lengths) = (others.links.len(), others.lengths());
    let merged = plan.nodes - u16::from(a != b);
    bound(links, merged, lengths) + bound(links, plan.nodes, lengths)
}

/// How wide a finished difference may be.
pub fn widest_difference(a: &Plan, b: &Plan) -> i64 {
    widest(a) + widest(b)
}
