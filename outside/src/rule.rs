//! The written rule, straightforwardly: a network is a list of nodes and a list of links, handed on by value. Step 7 takes the
//! link of the largest sum; the first link, which it took before, is kept for saved work from then.

use crate::arithmetic::{factor, parallel, product, series, split, Side, S, SIDES};
use crate::plans::Plan;
use std::fmt::{self, Display, Formatter};

/// The link that step 7 splits on.
#[derive(Clone, Copy, Debug, PartialEq, Eq)]
pub enum Choice {
    FirstLink,
    /// The link whose two ends' link counts have the largest sum, and the earliest of such links.
    LargestSum,
}

pub const CHOICES: [Choice; 2] = [Choice::FirstLink, Choice::LargestSum];

#[derive(Clone, Copy, Debug)]
pub(crate) struct Link {
    ends: [u8; 2],
    low: u32,
    high: u32,
}

impl Link {
    fn value(&self, side: Side) -> u32 {
        match side {
            Side::Low => self.low,
            Side::High => self.high,
        }
    }

    fn is_loop(&self) -> bool {
        self.ends[0] == self.ends[1]
    }

    fn has(&self, node: u8) -> bool {
        self.ends.contains(&node)
    }

    fn runs_beside(&self, other: &Link) -> bool {
        let [a, b] = self.ends;
        other.ends == [a, b] || other.ends == [b, a]
    }

    /// The figure of a split on this link, from those of its branches, with the step that it takes.
    pub(crate) fn mixed(&self, sound: Figure, broken: Figure) -> Figure {
        Figure {
            low: split(Side::Low, self.low, sound.low, broken.low),
            high: split(Side::High, self.high, sound.high, broken.high),
            steps: 1 + sound.steps + broken.steps,
            finished: sound.finished && broken.finished,
        }
    }

    /// The end that is not `node`.
    fn across(&self, node: u8) -> u8 {
        if self.ends[0] == node {
            self.ends[1]
        } else {
            self.ends[0]
        }
    }
}

/// Low and high of an operation on two links' values.
fn both(operation: fn(Side, u32, u32) -> u32, p: &Link, q: &Link) -> [u32; 2] {
    SIDES.map(|side| operation(side, p.value(side), q.value(side)))
}

/// The nodes stand in ascending order.
#[derive(Clone, Debug)]
pub struct Network {
    nodes: Vec<u8>,
    links: Vec<Link>,
}

/// A split: its link and the link's place, counted from 0 among the links then left, and both branches.
#[derive(Clone, Debug)]
pub(crate) struct Split {
    pub place: u32,
    pub link: Link,
    pub sound: Network,
    pub broken: Network,
}

/// What is left to be done after the first step that fits: nothing, the rest and a factor, or a split of this network.
pub(crate) enum Step {
    Known(u32),
    Rest(Network, [u32; 2]),
    Split(Network),
}

/// The fields stand in memory as those of the figure in `c/rule.c`.
#[derive(Clone, Copy, Debug, PartialEq, Eq)]
#[repr(C)]
pub struct Figure {
    pub low: u32,
    pub high: u32,
    pub steps: u64,
    pub finished: bool,
}

/// Of a figure, an importance or a difference.
#[derive(Clone, Copy, Debug, PartialEq, Eq)]
pub struct Answer {
    pub low: i64,
    pub high: i64,
    pub steps: u64,
    pub finished: bool,
}

impl From<&Plan> for Network {
    fn from(plan: &Plan) -> Network {
        let link = |l: &crate::plans::Link| {
            let [low, high] = plan.table.values(l);
            let ends = l.ends;
            Link { ends, low, high }
        };
        Network {
            nodes: (0..plan.nodes as u8).collect(),
            links: plan.links.iter().map(link).collect(),
        }
    }
}

impl Network {
    fn connected(&self) -> bool {
        let mut reached = vec![self.nodes[0]];
        loop {
            let before = reached.len();
            for link in &self.links {
                match link.ends.map(|v| reached.contains(&v)) {
                    [true, false] => reached.push(link.ends[1]),
                    [false, true] => reached.push(link.ends[0]),
                    _ => (),
                }
            }
            if reached.len() == before {
                return before == self.nodes.len();
            }
        }
    }

    fn first_pair(&self) -> Option<(usize, usize)> {
        (0..self.links.len()).find_map(|i| {
            let partner = |j: &usize| self.links[*j].runs_beside(&self.links[i]);
            (i + 1..self.links.len()).find(partner).map(|j| (i, j))
        })
    }

    fn places_at(&self, node: u8) -> Vec<usize> {
        (0..self.links.len())
            .filter(|i| self.links[*i].has(node))
            .collect()
    }

    /// The lowest node with that many links, and their places.
    fn lowest_with(&self, count: usize) -> Option<(u8, Vec<usize>)> {
        let found = self.nodes.iter().map(|v| (*v, self.places_at(*v)));
        found.into_iter().find(|(_, places)| places.len() == count)
    }

    fn without_node(mut self, node: u8) -> Network {
        self.nodes.retain(|v| *v != node);
        self
    }

    fn without_link(mut self, place: usize) -> Network {
        self.links.remove(place);
        self
    }

    /// The larger end is renamed to the smaller.
    fn contracted(mut self, ends: [u8; 2]) -> Network {
        let (keep, gone) = (ends[0].min(ends[1]), ends[0].max(ends[1]));
        for link in &mut self.links {
            link.ends = link.ends.map(|v| if v == gone { keep } else { v });
        }
        self.without_node(gone)
    }

    /// The link at `place` takes the place of both.
    fn joined(mut self, place: usize, other: usize, ends: [u8; 2], values: [u32; 2]) -> Network {
        let [low, high] = values;
        self.links[place] = Link { ends, low, high };
        self.without_link(other)
    }

    pub(crate) fn step(mut self) -> Step {
        self.links.retain(|l| !l.is_loop());
        if self.nodes.len() == 1 {
            return Step::Known(S);
        }
        if !self.connected() {
            return Step::Known(0);
        }
        if let Some((i, j)) = self.first_pair() {
            let (p, q) = (self.links[i], self.links[j]);
            let rest = self.joined(i, j, p.ends, both(parallel, &p, &q));
            return Step::Rest(rest, [S, S]);
        }
        if let Some((v, at)) = self.lowest_with(1) {
            let p = self.links[at[0]];
            let rest = self.without_link(at[0]).without_node(v);
            return Step::Rest(rest, [p.low, p.high]);
        }
        if let Some((v, at)) = self.lowest_with(2) {
            let (p, q) = (self.links[at[0]], self.links[at[1]]);
            let ends = [p.across(v), q.across(v)];
            let rest = self.joined(at[0], at[1], ends, both(series, &p, &q));
            return Step::Rest(rest.without_node(v), both(factor, &p, &q));
        }
        Step::Split(self)
    }

    /// The ends of its links.
    pub(crate) fn ends(&self) -> Vec<[u8; 2]> {
        self.links.iter().map(|link| link.ends).collect()
    }

    /// The place of the link that the choice takes.
    pub(crate) fn chosen(&self, choice: Choice) -> usize {
        match choice {
            Choice::FirstLink => 0,
            Choice::LargestSum => self.largest_sum(),
        }
    }

    fn largest_sum(&self) -> usize {
        let mut counts = [0; 32];
        for end in self.links.iter().flat_map(|link| link.ends) {
            counts[usize::from(end)] += 1;
        }
        let sum = |link: &Link| link.ends.map(|v| counts[usize::from(v)]).iter().sum();
        let sums: Vec<usize> = self.links.iter().map(sum).collect();
        let most = sums.iter().max().expect("a split has links");
        sums.iter().position(|sum| sum == most).unwrap()
    }

    /// The split on the link at `place`, which is no loop.
    pub(crate) fn split(self, place: usize) -> Split {
        let link = self.links[place];
        let broken = self.without_link(place);
        Split {
            place: place as u32,
            link,
            sound: broken.clone().contracted(link.ends),
            broken,
        }
    }

    /// The network with the link at `place` sound, and with it broken.
    fn branches(&self, place: usize) -> [Network; 2] {
        let link = self.links[place];
        let broken = self.clone().without_link(place);
        let sound = if link.is_loop() {
            broken.clone()
        } else {
            broken.clone().contracted(link.ends)
        };
        [sound, broken]
    }
}

impl Figure {
    pub(crate) fn known(value: u32) -> Figure {
        Figure {
            low: value,
            high: value,
            steps: 0,
            finished: true,
        }
    }

    /// Of a network at a split for which no step is left.
    pub(crate) fn unknown() -> Figure {
        Figure {
            low: 0,
            high: S,
            steps: 0,
            finished: false,
        }
    }

    pub(crate) fn times(self, [low, high]: [u32; 2]) -> Figure {
        Figure {
            low: product(Side::Low, low, self.low),
            high: product(Side::High, high, self.high),
            ..self
        }
    }
}

pub fn figure(network: Network, limit: u64) -> Figure {
    figure_by(Choice::LargestSum, network, limit)
}

/// The figure by the rule with this choice.
pub fn figure_by(choice: Choice, network: Network, limit: u64) -> Figure {
    match network.step() {
        Step::Known(value) => Figure::known(value),
        Step::Rest(rest, factors) => figure_by(choice, rest, limit).times(factors),
        Step::Split(_) if limit == 0 => Figure::unknown(),
        Step::Split(network) => {
            let place = network.chosen(choice);
            let taken = network.split(place);
            let sound = figure_by(choice, taken.sound, limit - 1);
            let broken = figure_by(choice, taken.broken, limit - 1 - sound.steps);
            taken.link.mixed(sound, broken)
        }
    }
}

/// The splits that the network needs.
pub fn needed(network: Network) -> u64 {
    needed_by(Choice::LargestSum, network)
}

/// The splits that it needs by the rule with this choice.
pub fn needed_by(choice: Choice, network: Network) -> u64 {
    match network.step() {
        Step::Known(_) => 0,
        Step::Rest(rest, _) => needed_by(choice, rest),
        Step::Split(network) => {
            let place = network.chosen(choice);
            let taken = network.split(place);
            1 + needed_by(choice, taken.sound) + needed_by(choice, taken.broken)
        }
    }
}

impl Answer {
    /// A finished one that takes no split.
    pub fn at_once(low: i64, high: i64) -> Answer {
        Answer {
            low,
            high,
            steps: 0,
            finished: true,
        }
    }
}

impl From<Figure> for Answer {
    fn from(figure: Figure) -> Answer {
        Answer {
            low: figure.low.into(),
            high: figure.high.into(),
            steps: figure.steps,
            finished: figure.finished,
        }
    }
}

impl Display for Answer {
    fn fmt(&self, to: &mut Formatter) -> fmt::Result {
        let (low, high, steps) = (self.low, self.high, self.steps);
        let finished = u8::from(self.finished);
        write!(
            to,
            "low {low} high {high} steps {steps} finished {finished}"
        )
    }
}

/// The difference of two figures.
pub fn minus(a: Figure, b: Figure) -> Answer {
    Answer {
        low: i64::from(a.low) - i64::from(b.high),
        high: i64::from(a.high) - i64::from(b.low),
        steps: a.steps + b.steps,
        finished: a.finished && b.finished,
    }
}

pub fn importance(network: &Network, place: usize, limit: u64) -> Answer {
    let [sound, broken] = network.branches(place).map(|n| figure(n, limit));
    let difference = minus(sound, broken);
    Answer {
        low: difference.low.max(0),
        ..difference
    }
}

pub fn difference(a: Network, b: Network, limit: u64) -> Answer {
    minus(figure(a, limit), figure(b, limit))
}
