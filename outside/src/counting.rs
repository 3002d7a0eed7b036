//! How many sets of i links connect all nodes of a plan, for each i, and what the call `counts` should answer. Two ways to count: by
//! going through all sets, and link by link, with sets that leave the same nodes together counted as one.

use crate::calls::read;
use crate::plans::Plan;
use std::collections::HashMap;

/// The most links of a plan that is counted.
pub const MOST_COUNTED: usize = 24;

/// Up to so many links all sets are gone through where the call is held.
const FEW: usize = 14;

/// What the call should write for this file into a row of `room` numbers, or the number that it is refused with.
pub fn outcome(file: &[u8], room: usize) -> Result<Vec<u64>, u64> {
    let plan = read(file)?;
    if plan.links.len() > MOST_COUNTED {
        return Err(15);
    }
    if room < plan.links.len() + 1 {
        return Err(16);
    }
    Ok(match plan.links.len() {
        0..=FEW => by_sets(&plan),
        _ => by_links(&plan),
    })
}

/// The outcome of the call by these counts, to which the library is held.
pub fn held(file: &[u8], room: usize) -> Result<Vec<u64>, u64> {
    let outcome = outcome(file, room);
    crate::desk::hold_counts(file, room, &outcome);
    outcome
}

/// Which nodes hang together: each has the number of its group.
type Groups = [u8; 32];

fn alone() -> Groups {
    std::array::from_fn(|v| v as u8)
}

/// The groups of both ends made one, named by the lower of their numbers.
fn joined(groups: &Groups, [a, b]: [u8; 2]) -> Groups {
    let (x, y) = (groups[usize::from(a)], groups[usize::from(b)]);
    groups.map(|group| if group == x.max(y) { x.min(y) } else { group })
}

/// A set of links that is being put together: how many it has, the groups that they make of the nodes and how many groups these are.
struct Set {
    size: usize,
    groups: Groups,
    pieces: u16,
}

impl Set {
    fn with(&self, ends: [u8; 2]) -> Set {
        let groups = joined(&self.groups, ends);
        let apart = self.groups[usize::from(ends[0])] != self.groups[usize::from(ends[1])];
        Set {
            size: self.size + 1,
            groups,
            pieces: self.pieces - u16::from(apart),
        }
    }
}

/// Goes through all sets of these links, put to those that are in the set already.
fn go_through(links: &[[u8; 2]], set: Set, row: &mut [u64]) {
    let Some((ends, others)) = links.split_first() else {
        row[set.size] += u64::from(set.pieces == 1);
        return;
    };
    go_through(others, set.with(*ends), row);
    go_through(others, set, row);
}

fn ends_of(plan: &Plan) -> Vec<[u8; 2]> {
    plan.links.iter().map(|link| link.ends).collect()
}

/// The counts by going through all sets of links.
pub fn by_sets(plan: &Plan) -> Vec<u64> {
    let links = ends_of(plan);
    let mut row = vec![0; links.len() + 1];
    let empty = Set {
        size: 0,
        groups: alone(),
        pieces: plan.nodes,
    };
    go_through(&links, empty, &mut row);
    row
}

/// The mark of a node that no later link ends at.
const DONE: u8 = 255;

/// The sets of the links so far, how many of each size, by the groups of the nodes that later links end at.
type Open = HashMap<Groups, Vec<u64>>;

/// Adds the sets, each with so many links more, to those with the same groups.
fn add(open: &mut Open, groups: Groups, sets: &[u64], more: usize) {
    let all = open.entry(groups).or_default();
    all.resize(all.len().max(sets.len() + more), 0);
    for (i, count) in sets.iter().enumerate() {
        all[i + more] += count;
    }
}

/// The groups once no later link ends at this node, each named by its lowest node; none if it leaves a group that is cut off from
/// other nodes.
fn without(groups: &Groups, node: usize) -> Option<Groups> {
    let mut left = *groups;
    left[node] = DONE;
    let cut_off = !left.contains(&groups[node]);
    if cut_off && left.iter().any(|group| *group != DONE) {
        return None;
    }
    let lowest = |group: &u8| left.iter().position(|other| other == group).unwrap() as u8;
    Some(std::array::from_fn(|v| match left[v] {
        DONE => DONE,
        group => lowest(&group),
    }))
}

/// The counts link by link, where the first way takes long.
pub fn by_links(plan: &Plan) -> Vec<u64> {
    let links = ends_of(plan);
    let last = |node: usize| links.iter().rposition(|ends| ends.contains(&(node as u8)));
    let nodes = usize::from(plan.nodes);
    let groups = std::array::from_fn(|v| if v < nodes { v as u8 } else { DONE });
    let empty = Open::from([(groups, vec![1])]);
    let mut open = finished(empty, nodes, |v| last(v).is_none());
    for (i, ends) in links.iter().enumerate() {
        let mut next = Open::new();
        for (groups, sets) in &open {
            add(&mut next, *groups, sets, 0);
            add(&mut next, joined(groups, *ends), sets, 1);
        }
        open = finished(next, nodes, |v| last(v) == Some(i));
    }
    let mut row = open.into_values().next().unwrap_or_default();
    row.resize(links.len() + 1, 0);
    row
}

/// The sets once no later link ends at the nodes that are said.
fn finished(mut open: Open, nodes: usize, said: impl Fn(usize) -> bool) -> Open {
    for node in (0..nodes).filter(|node| said(*node)) {
        let mut next = Open::new();
        for (groups, sets) in &open {
            if let Some(groups) = without(groups, node) {
                add(&mut next, groups, sets, 0);
            }
        }
        open = next;
    }
    open
}

/// How many sets of k things n things have, for each k up to n.
pub fn all_sets(n: usize) -> Vec<u64> {
    let mut row = vec![1];
    for _ in 0..n {
        let before = [0].into_iter().chain(row.iter().copied());
        let here = row.iter().copied().chain([0]);
        row = before.zip(here).map(|(a, b)| a + b).collect();
    }
    row
}
