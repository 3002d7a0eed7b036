//! A plan as data, and its bytes; random plans; damage.

use crate::arithmetic::S;
use crate::random::Random;
use crate::tables::Table;

/// A value from here on is a length.
pub const LENGTH: u32 = 1 << 31;

/// A link as the file has it.
#[derive(Clone, Copy, Debug, PartialEq, Eq)]
pub struct Link {
    pub ends: [u8; 2],
    pub value: u32,
}

impl Link {
    /// Its length in hundred metres; none of a value in units.
    pub fn length(&self) -> Option<u32> {
        self.value.checked_sub(LENGTH)
    }
}

/// Any sizes, ends and values, right or wrong, and the table that the lengths are rated by, which is not in the file.
#[derive(Clone, Debug, PartialEq, Eq)]
pub struct Plan {
    pub nodes: u16,
    pub links: Vec<Link>,
    pub table: Table,
}

impl Plan {
    pub fn new(nodes: u16, links: &[(u8, u8, u32)]) -> Plan {
        let link = |&(a, b, value): &(u8, u8, u32)| Link {
            ends: [a, b],
            value,
        };
        Plan {
            nodes,
            links: links.iter().map(link).collect(),
            table: Table::BuiltIn,
        }
    }

    /// The same plan under another table.
    pub fn under(mut self, table: &Table) -> Plan {
        self.table = table.clone();
        self
    }

    /// Two nodes and links of these values between them.
    pub fn between(values: &[u32]) -> Plan {
        let links: Vec<(u8, u8, u32)> = values.iter().map(|value| (0, 1, *value)).collect();
        Plan::new(2, &links)
    }

    /// A plan of so many links, at least 13, in which all hangs on the one at this place, of a length: five nodes are joined each to
    /// each by links of S, the length leads to a sixth, the next link, of S, from there to a seventh; the others are loops of the same
    /// length.
    pub fn hanging_on(length: u32, place: usize, count: usize) -> Plan {
        let next = (place + 1) % count;
        let mut links = vec![(0, 0, LENGTH + length); count];
        let mut others = (0..count).filter(|other| ![place, next].contains(other));
        for [a, b] in every_pair(5) {
            links[others.next().unwrap()] = (a, b, S);
        }
        links[place] = (0, 5, LENGTH + length);
        links[next] = (5, 6, S);
        Plan::new(7, &links)
    }

    /// Links of one value between the given ends.
    pub fn alike(nodes: u16, value: u32, ends: &[[u8; 2]]) -> Plan {
        let links: Vec<(u8, u8, u32)> = ends.iter().map(|[a, b]| (*a, *b, value)).collect();
        Plan::new(nodes, &links)
    }

    /// The plan with the ends of one link, which are two nodes, made one: the last node is named as the one that goes.
    pub fn contracted(&self, place: usize) -> Plan {
        let mut plan = self.clone();
        let [a, b] = plan.links.remove(place).ends;
        let last = plan.nodes as u8 - 1;
        for end in plan.links.iter_mut().flat_map(|link| &mut link.ends) {
            *end = if *end == b { a } else { *end };
            *end = if *end == last { b } else { *end };
        }
        plan.nodes -= 1;
        plan
    }

    /// How many of its links are given by length.
    pub fn lengths(&self) -> usize {
        let lengths = self.links.iter().filter_map(Link::length);
        lengths.count()
    }

    pub fn bytes(&self) -> Vec<u8> {
        let count = u16::try_from(self.links.len()).expect("m is 16 bits");
        let mut bytes = Vec::from(self.nodes.to_le_bytes());
        bytes.extend(count.to_le_bytes());
        bytes.extend(self.links.iter().flat_map(|l| l.ends));
        bytes.extend(self.links.iter().flat_map(|l| l.value.to_le_bytes()));
        bytes
    }

    /// The plan of the complete graph.
    pub fn complete(nodes: u8, value: u32) -> Plan {
        let ends: Vec<[u8; 2]> = every_pair(nodes).collect();
        Plan::alike(nodes.into(), value, &ends)
    }

    /// A ring of ten nodes with all its chords but three, and a path of 22 nodes at one of them. It needs 27,368 splits, and
    /// its deepest branch goes through 64 steps, of which all but two are ends, series and splits: what those leave has to be
    /// worked before they are done.
    pub fn deepest() -> Plan {
        let chord = |d: u8| (0..10).map(move |v| [v, (v + d) % 10]);
        let core = (1..=5).flat_map(chord).take(42);
        let path = (10..32).map(|v| [v - 1, v]);
        let ends: Vec<[u8; 2]> = core.chain(path).collect();
        Plan::alike(32, S / 10 * 9, &ends)
    }

    /// Of the plans of 32 nodes and 64 links that a search on the library's own stack has tried, the one whose figure takes the
    /// most, within its first 3,000 splits. The two ends of each link, link by link.
    pub fn most_stack() -> Plan {
        let ends: [u8; 128] = [
            8, 19, 15, 21, 22, 17, 9, 0, 3, 2, 14, 15, 8, 6, 13, 8, 7, 6, 28, 21, 1, 9, 15, 4, 11,
            12, 5, 21, 24, 25, 2, 7, 7, 0, 30, 2, 6, 22, 23, 24, 22, 5, 26, 27, 1, 21, 6, 17, 7,
            29, 13, 21, 27, 9, 9, 5, 13, 4, 3, 5, 28, 1, 3, 7, 28, 19, 11, 4, 6, 18, 29, 4, 20, 6,
            12, 23, 19, 5, 25, 26, 31, 9, 4, 29, 9, 10, 6, 31, 10, 11, 5, 28, 4, 25, 17, 18, 8, 10,
            30, 9, 9, 24, 6, 16, 7, 19, 8, 21, 16, 4, 8, 0, 1, 5, 14, 20, 0, 4, 23, 4, 4, 12, 18,
            26, 29, 20, 5, 7,
        ];
        let ends: Vec<[u8; 2]> = ends.chunks(2).map(|e| [e[0], e[1]]).collect();
        Plan::alike(32, S / 10 * 9, &ends)
    }

    /// Of the plans of 24 links that a search has tried, the one whose counts take the most splits: each of its twelve nodes has four
    /// links.
    pub fn slowest_counted() -> Plan {
        let others: [&[u8]; 11] = [
            &[5, 6, 8, 11],
            &[3, 4, 5, 6],
            &[4, 6, 9, 10],
            &[8, 9, 10],
            &[7, 11],
            &[7, 10],
            &[8],
            &[8, 9],
            &[],
            &[11],
            &[11],
        ];
        let with = |(a, others): (usize, &&'static [u8])| others.iter().map(move |b| [a as u8, *b]);
        let ends: Vec<[u8; 2]> = others.iter().enumerate().flat_map(with).collect();
        Plan::alike(12, S / 2, &ends)
    }

    /// A ring of all nodes, at least three, and other pairs of nodes, so many links in all if there are enough pairs, in any order
    /// and with any values.
    pub fn meshed(random: &mut Random, nodes: u8, count: usize) -> Plan {
        let ring = |a: u8, b: u8| b - a == 1 || b - a == nodes - 1;
        let mut all: Vec<[u8; 2]> = every_pair(nodes).collect();
        random.shuffle(&mut all);
        all.sort_by_key(|[a, b]| !ring(*a, *b));
        all.truncate(count);
        random.shuffle(&mut all);
        let mut plan = Plan::alike(nodes.into(), 0, &all);
        for link in &mut plan.links {
            link.value = random_value(random);
        }
        plan
    }

    /// An accepted plan, of few or many nodes.
    pub fn random(random: &mut Random, most_nodes: u8, most_links: usize) -> Plan {
        let mut count = || random.below(most_links + 1);
        let count = count().max(count());
        let most = match random.below(2) {
            0 => 1 + count * 2 / 3,
            _ => 2 + count,
        };
        let nodes = 1 + random.below(most.min(most_nodes.into()));
        Plan::random_of(random, nodes as u8, count)
    }

    /// An accepted plan of these sizes. Loops, parallels, values of 0 and S, and lengths are common; a third of the plans
    /// have no loop, and no parallels where there are enough pairs of nodes; a third have a spanning tree.
    pub fn random_of(random: &mut Random, nodes: u8, count: usize) -> Plan {
        let ends = match random.below(3) {
            0 => pairs(random, nodes, count),
            tree => ends(random, nodes, count, tree == 1),
        };
        let link = |ends: [u8; 2]| Link {
            ends: if random.below(2) == 0 {
                ends
            } else {
                [ends[1], ends[0]]
            },
            value: random_value(random),
        };
        let mut links: Vec<Link> = ends.into_iter().map(link).collect();
        random.shuffle(&mut links);
        Plan {
            nodes: nodes.into(),
            links,
            table: Table::BuiltIn,
        }
    }

    /// The same plan with the rating of each length as a value in units: what it stood for without joints.
    pub fn without_joints(mut self) -> Plan {
        for link in &mut self.links {
            link.value = self.table.rating(link).unwrap_or(link.value);
        }
        self
    }

    /// Meshed plans and plans of all kinds, with lengths.
    pub fn of_lengths(random: &mut Random, most_links: usize) -> Plan {
        let nodes = 3 + random.below(10) as u8;
        let count = 3 + random.below(most_links - 2);
        let plan = match random.below(3) {
            0 => Plan::random_of(random, nodes, count),
            1 => Plan::meshed(random, 4 + nodes % 4, count),
            _ => Plan::meshed(random, nodes, count),
        };
        let of_ten = of_ten(random);
        plan.with_lengths(random, of_ten)
    }

    /// The same of few nodes.
    pub fn small_of_lengths(random: &mut Random, most_links: usize) -> Plan {
        let of_ten = of_ten(random);
        let plan = match random.below(2) {
            0 => Plan::random(random, 8, most_links),
            _ => {
                let nodes = 4 + random.below(3) as u8;
                let count = 6 + random.below(most_links - 5);
                Plan::meshed(random, nodes, count)
            }
        };
        plan.with_lengths(random, of_ten)
    }

    /// Two trees of 32 nodes, in an order in which links have to be moved far to make them: a search by levels climbs up to 26, and
    /// puts 36 links more than there are.
    pub fn moved_far() -> Plan {
        let ends: Vec<[u8; 2]> = MOVED_FAR.chunks(2).map(|pair| [pair[0], pair[1]]).collect();
        Plan::alike(32, S / 2, &ends)
    }

    /// Two trees of 30 nodes and more, and a path of two links at one of them: 64 links of which no opening saves the last two.
    pub fn hanging_path(random: &mut Random) -> Plan {
        let mut plan = Plan::meshed(random, 30, 62);
        let path = Plan::alike(32, S / 2, &[[29, 30], [30, 31]]);
        plan.nodes = 32;
        plan.links.extend(path.links);
        plan
    }

    /// The same plan with lengths for so many of ten links.
    pub fn with_lengths(mut self, random: &mut Random, of_ten: usize) -> Plan {
        for link in &mut self.links {
            if random.below(10) < of_ten {
                link.value = LENGTH + random_length(random);
            }
        }
        self
    }
}

/// The ends of the links of `Plan::moved_far`.
const MOVED_FAR: [u8; 124] = [
    3, 27, 23, 27, 26, 8, 3, 26, 20, 26, 9, 25, 20, 19, 8, 29, 0, 7, 16, 5, 18, 12, 26, 28, 8, 2,
    24, 15, 26, 18, 9, 30, 18, 9, 12, 14, 22, 13, 15, 25, 6, 17, 7, 25, 10, 1, 11, 29, 19, 1, 18,
    24, 20, 5, 11, 4, 30, 27, 30, 25, 27, 24, 25, 4, 16, 17, 11, 3, 31, 7, 23, 16, 22, 24, 26, 22,
    18, 28, 13, 0, 15, 28, 25, 24, 31, 23, 16, 9, 31, 0, 12, 19, 21, 29, 27, 31, 14, 8, 2, 1, 6,
    13, 17, 14, 16, 10, 6, 16, 1, 4, 4, 21, 21, 26, 11, 27, 21, 10, 22, 25, 24, 22, 25, 2,
];

/// How many of ten links are lengths: all in half of the plans, and some in the others.
pub fn of_ten(random: &mut Random) -> usize {
    match random.below(2) {
        0 => 10,
        _ => 3 + random.below(5),
    }
}

/// Pairs of nodes, each once before any comes again.
fn pairs(random: &mut Random, nodes: u8, count: usize) -> Vec<[u8; 2]> {
    let mut all: Vec<[u8; 2]> = every_pair(nodes).collect();
    if all.is_empty() {
        all.push([0, 0]);
    }
    random.shuffle(&mut all);
    all.into_iter().cycle().take(count).collect()
}

/// Any ends; the first of them a spanning tree if asked.
fn ends(random: &mut Random, nodes: u8, count: usize, tree: bool) -> Vec<[u8; 2]> {
    let mut all: Vec<[u8; 2]> = Vec::with_capacity(count);
    for i in 0..count {
        let mut any = || random.below(nodes.into()) as u8;
        let ends = [any(), any()];
        all.push(match random.below(10) {
            _ if tree && i + 1 < nodes.into() => [random.below(i + 1) as u8, i as u8 + 1],
            0 if i > 0 => all[random.below(i)],
            1 => [ends[0]; 2],
            _ => ends,
        });
    }
    all
}

fn every_pair(nodes: u8) -> impl Iterator<Item = [u8; 2]> {
    (0..nodes).flat_map(|b| (0..b).map(move |a| [a, b]))
}

fn random_value(random: &mut Random) -> u32 {
    let most = u64::from(S);
    match random.below(12) {
        0 => 0,
        1 => S,
        2 => S / 2,
        3 | 4 => LENGTH + random.below(512) as u32,
        5 => random.of_any_size(most) as u32,
        6 | 7 => S - random.of_any_size(most) as u32,
        _ => random.up_to(most) as u32,
    }
}

fn random_length(random: &mut Random) -> u32 {
    match random.below(6) {
        0 => 0,
        1 => 511,
        2 => random.of_any_size(511) as u32,
        _ => random.below(512) as u32,
    }
}

/// The bytes of a file damaged in many ways: each byte flipped in one bit, in all, or replaced; cut short at each length;
/// run long.
pub fn damaged(random: &mut Random, bytes: &[u8]) -> Vec<Vec<u8>> {
    let mut all: Vec<Vec<u8>> = (0..bytes.len()).map(|cut| bytes[..cut].to_vec()).collect();
    for i in 0..bytes.len() {
        for flip in [
            1 << random.below(8),
            1 << random.below(8),
            0xff,
            1 + random.below(255) as u8,
        ] {
            let mut copy = bytes.to_vec();
            copy[i] ^= flip;
            all.push(copy);
        }
    }
    for extra in 1..=12 {
        let mut copy = bytes.to_vec();
        copy.extend((0..extra).map(|_| random.next() as u8));
        all.push(copy);
    }
    all
}
