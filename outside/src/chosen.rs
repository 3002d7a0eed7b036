//! The written rule with chosen nodes, straightforwardly: the figure of all chosen nodes hanging together. A version apart from
//! `rule.rs`, which has the rule for all nodes; the tests hold the two to each other where all nodes are chosen.

use crate::arithmetic::{factor, parallel, product, series, split, Side, S, SIDES};
use crate::plans::Plan;
use crate::rule::Figure;

/// The choice of all of so many nodes: bit i names node i.
pub fn all_nodes(count: u16) -> u64 {
    (0..count).map(|node| 1 << node).sum()
}

/// Whether a choice names some of so many nodes, and no other.
pub fn is_choice(choice: u64, count: u16) -> bool {
    choice != 0 && choice & !all_nodes(count) == 0
}

/// Its low and its high value stand in the order of the sides.
#[derive(Clone, Copy, Debug)]
struct Link {
    ends: [u8; 2],
    values: [u32; 2],
}

impl Link {
    fn joins(&self, a: u8, b: u8) -> bool {
        self.ends == [a, b] || self.ends == [b, a]
    }

    /// The end that is not this node.
    fn neighbour(&self, node: u8) -> u8 {
        let [a, b] = self.ends;
        if a == node {
            b
        } else {
            a
        }
    }
}

/// An operation on the low values and on the high ones of two links.
fn worked(operation: fn(Side, u32, u32) -> u32, p: &Link, q: &Link) -> [u32; 2] {
    [0, 1].map(|i| operation(SIDES[i], p.values[i], q.values[i]))
}

#[derive(Clone, Copy, Debug)]
struct Node {
    name: u8,
    chosen: bool,
}

/// A network whose nodes stand in ascending order.
#[derive(Clone, Debug)]
pub struct Terminals {
    nodes: Vec<Node>,
    links: Vec<Link>,
}

/// What the rule comes to next.
enum Next {
    Known(u32),
    /// What is left to work, and what its figure is multiplied by, if by anything.
    Left(Option<[u32; 2]>),
    Split(usize),
}

impl Terminals {
    /// The plan's network with these nodes chosen, some of them and no others.
    pub fn of(plan: &Plan, choice: u64) -> Terminals {
        assert!(is_choice(choice, plan.nodes));
        let node = |name: u8| Node {
            name,
            chosen: choice >> name & 1 == 1,
        };
        let link = |link: &crate::plans::Link| Link {
            ends: link.ends,
            values: plan.table.values(link),
        };
        Terminals {
            nodes: (0..plan.nodes as u8).map(node).collect(),
            links: plan.links.iter().map(link).collect(),
        }
    }

    fn is_chosen(&self, name: u8) -> bool {
        let named = self.nodes.iter().find(|node| node.name == name);
        named.is_some_and(|node| node.chosen)
    }

    fn choose(&mut self, name: u8) {
        let named = self.nodes.iter_mut().find(|node| node.name == name);
        named.expect("a neighbour is a node").chosen = true;
    }

    /// The names of the nodes in the piece of this one.
    fn piece(&self, name: u8) -> Vec<u8> {
        let mut piece = vec![name];
        let mut seen = 0;
        while seen < piece.len() {
            let node = piece[seen];
            seen += 1;
            for link in self.links.iter().filter(|link| link.ends.contains(&node)) {
                let other = link.neighbour(node);
                if !piece.contains(&other) {
                    piece.push(other);
                }
            }
        }
        piece
    }

    /// The places of the links at a node.
    fn places(&self, name: u8) -> Vec<usize> {
        let places = 0..self.links.len();
        places
            .filter(|place| self.links[*place].ends.contains(&name))
            .collect()
    }

    fn remove_node(&mut self, name: u8) {
        self.nodes.retain(|node| node.name != name);
    }

    /// Whether the chosen nodes are in one piece; other pieces are dropped then.
    fn gather(&mut self) -> bool {
        let first = self.nodes.iter().find(|node| node.chosen);
        let piece = self.piece(first.expect("a node is chosen").name);
        if self
            .nodes
            .iter()
            .any(|node| node.chosen && !piece.contains(&node.name))
        {
            return false;
        }
        self.nodes.retain(|node| piece.contains(&node.name));
        self.links.retain(|link| piece.contains(&link.ends[0]));
        true
    }

    /// Step 4, if it fits.
    fn joined_parallel(&mut self) -> Option<()> {
        let count = self.links.len();
        let mut pairs = (0..count).flat_map(|i| (i + 1..count).map(move |j| (i, j)));
        let (i, j) = pairs.find(|(i, j)| {
            let [a, b] = self.links[*i].ends;
            self.links[*j].joins(a, b)
        })?;
        let gone = self.links.remove(j);
        self.links[i].values = worked(parallel, &self.links[i], &gone);
        Some(())
    }

    /// Step 5, if it fits.
    fn trimmed(&mut self) -> Option<Next> {
        let fits = |node: &&Node| self.places(node.name).len() <= 1;
        let Node { name, chosen } = *self.nodes.iter().find(fits)?;
        let link = self
            .places(name)
            .first()
            .map(|place| self.links.remove(*place));
        self.remove_node(name);
        if !chosen {
            return Some(Next::Left(None));
        }
        let link = link.expect("a chosen node alone is decided in steps 2 and 3");
        self.choose(link.neighbour(name));
        Some(Next::Left(Some(link.values)))
    }

    /// The places of a node's two links, if a rule of step 6 fits it.
    fn series_at(&self, node: &Node) -> Option<[usize; 2]> {
        let places: [usize; 2] = self.places(node.name).try_into().ok()?;
        let neighbours = places.map(|place| self.links[place].neighbour(node.name));
        let fits = !node.chosen || neighbours.iter().all(|v| self.is_chosen(*v));
        fits.then_some(places)
    }

    /// Step 6, if it fits.
    fn bypassed(&mut self) -> Option<Next> {
        let fitting = |node: &Node| Some((*node, self.series_at(node)?));
        let (node, [earlier, later]) = self.nodes.iter().find_map(fitting)?;
        let (p, q) = (self.links[earlier], self.links.remove(later));
        let ends = [p.neighbour(node.name), q.neighbour(node.name)];
        let (operation, factors): (fn(Side, u32, u32) -> u32, _) = match node.chosen {
            true => (series, Some(worked(factor, &p, &q))),
            false => (product, None),
        };
        let values = worked(operation, &p, &q);
        self.links[earlier] = Link { ends, values };
        self.remove_node(node.name);
        Some(Next::Left(factors))
    }

    /// The place of the first link with the most links at both its ends together.
    fn thickest(&self) -> usize {
        let count = |place: &usize| -> usize {
            let ends = self.links[*place].ends;
            ends.map(|v| self.places(v).len()).iter().sum()
        };
        let places = (0..self.links.len()).rev();
        places.max_by_key(count).expect("a split has links")
    }

    /// Takes the first step of the rule that fits.
    fn next(&mut self) -> Next {
        self.links.retain(|link| link.ends[0] != link.ends[1]);
        if self.nodes.iter().filter(|node| node.chosen).count() == 1 {
            return Next::Known(S);
        }
        if !self.gather() {
            return Next::Known(0);
        }
        if self.joined_parallel().is_some() {
            return Next::Left(None);
        }
        let reduced = self.trimmed().or_else(|| self.bypassed());
        reduced.unwrap_or_else(|| Next::Split(self.thickest()))
    }

    /// The value of the link at a place, and both branches of the split on it, sound first.
    fn branches(mut self, place: usize) -> ([u32; 2], [Terminals; 2]) {
        let Link { ends, values } = self.links.remove(place);
        let (kept, gone) = (ends[0].min(ends[1]), ends[0].max(ends[1]));
        let mut sound = self.clone();
        if sound.is_chosen(gone) {
            sound.choose(kept);
        }
        sound.remove_node(gone);
        for end in sound.links.iter_mut().flat_map(|link| &mut link.ends) {
            if *end == gone {
                *end = kept;
            }
        }
        (values, [sound, self])
    }
}

/// The figure within so many steps.
pub fn figure(mut network: Terminals, limit: u64) -> Figure {
    match network.next() {
        Next::Known(value) => Figure::known(value),
        Next::Left(factors) => {
            let rest = figure(network, limit);
            factors.map_or(rest, |factors| rest.times(factors))
        }
        Next::Split(_) if limit == 0 => Figure::unknown(),
        Next::Split(place) => {
            let ([low, high], [sound, broken]) = network.branches(place);
            let sound = figure(sound, limit - 1);
            let broken = figure(broken, limit - 1 - sound.steps);
            Figure {
                low: split(Side::Low, low, sound.low, broken.low),
                high: split(Side::High, high, sound.high, broken.high),
                steps: 1 + sound.steps + broken.steps,
                finished: sound.finished && broken.finished,
            }
        }
    }
}

/// The splits that the network needs.
pub fn needed(mut network: Terminals) -> u64 {
    match network.next() {
        Next::Known(_) => 0,
        Next::Left(_) => needed(network),
        Next::Split(place) => {
            let (_, branches) = network.branches(place);
            1 + branches.map(needed).iter().sum::<u64>()
        }
    }
}
