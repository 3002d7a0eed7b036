//! Cutter and keeper: who wins, by playing the game out and by pebbles, and whether what the call `game` shows is right. Trees and
//! groupings are never made here: any will do, so those of an answer are checked.

use crate::calls::read;
use crate::plans::Plan;

/// The bytes of an answer.
pub const GAME: usize = 98;

/// Where the bytes of the links and those of the nodes begin.
pub const LINKS: usize = 2;
pub const NODES: usize = 66;

/// Whether the keeper wins if the cutter opens, and if the keeper does.
pub type Winners = [bool; 2];

/// Who wins the game of this file, into a buffer of `room` bytes, or the number that the call is refused with.
pub fn outcome(file: &[u8], room: usize) -> Result<Winners, u64> {
    if room < GAME {
        return Err(9);
    }
    Ok(winners(&read(file)?))
}

/// The outcome of the call by pebbles, to which the library is held, and the bytes of its answer.
pub fn held(file: &[u8], room: usize) -> Result<Vec<u8>, u64> {
    let outcome = outcome(file, room);
    let left = crate::desk::hold_game(file, room, &outcome);
    outcome.map(|_| left[..GAME].to_vec())
}

/// Two pebbles a node, each free or on a link that leads to another node.
struct Pebbles(Vec<[Option<u8>; 2]>);

impl Pebbles {
    fn free(&self, node: u8) -> usize {
        let all = self.0[usize::from(node)].iter();
        all.filter(|pebble| pebble.is_none()).count()
    }

    fn put(&mut self, node: u8, from: Option<u8>, to: Option<u8>) {
        let pebbles = &mut self.0[usize::from(node)];
        let place = pebbles.iter().position(|pebble| *pebble == from).unwrap();
        pebbles[place] = to;
    }

    /// Frees a pebble of this node, by others that have not been asked.
    fn fetch(&mut self, node: u8, asked: &mut u32) -> bool {
        for to in self.0[usize::from(node)].into_iter().flatten() {
            if *asked >> to & 1 == 1 {
                continue;
            }
            *asked |= 1 << to;
            if self.free(to) > 0 || self.fetch(to, asked) {
                self.put(to, None, Some(node));
                self.put(node, Some(to), None);
                return true;
            }
        }
        false
    }

    /// Lays a pebble on a link if three of its ends' four can be free.
    fn laid(&mut self, [a, b]: [u8; 2]) -> bool {
        if a == b {
            return false;
        }
        while self.free(a) + self.free(b) < 3 {
            let mut asked = 1 << a | 1 << b;
            if !self.fetch(a, &mut asked) && !self.fetch(b, &mut asked) {
                return false;
            }
        }
        let (from, to) = if self.free(a) > 0 { (a, b) } else { (b, a) };
        self.put(from, None, Some(to));
        true
    }
}

/// Whether the links have two spanning trees without a common link, by the pebble game for sets of links that are two forests: of
/// any k nodes at most 2 * (k - 1) links get a pebble.
pub fn two_trees(plan: &Plan) -> bool {
    let mut pebbles = Pebbles(vec![[None; 2]; plan.nodes.into()]);
    let laid = plan.links.iter().filter(|link| pebbles.laid(link.ends));
    laid.count() == 2 * usize::from(plan.nodes - 1)
}

/// Who wins, of a plan of any size: where the cutter opens the keeper has to have two trees, where he opens himself he may make the
/// ends of a link one first.
pub fn winners(plan: &Plan) -> Winners {
    let second = two_trees(plan);
    let joins = |place: &usize| plan.links[*place].ends[0] != plan.links[*place].ends[1];
    let mut places = (0..plan.links.len()).filter(joins);
    let first = second || places.any(|place| two_trees(&plan.contracted(place)));
    [second, first]
}

/// The game played out: every move of either side from every position.
struct Played<'a> {
    plan: &'a Plan,
    /// By whose turn it is and what was done to each link, as digits to the base 3: whether the keeper wins.
    known: Vec<Option<bool>>,
}

impl Played<'_> {
    fn connected(&self, safe: u32) -> bool {
        let all = (1_u64 << self.plan.nodes) - 1;
        let mut reached = 1_u64;
        for _ in 0..self.plan.nodes {
            for (i, link) in self.plan.links.iter().enumerate() {
                let ends = link.ends.iter().fold(0, |ends, v| ends | 1_u64 << v);
                if safe >> i & 1 == 1 && reached & ends != 0 {
                    reached |= ends;
                }
            }
        }
        reached == all
    }

    fn keeper_wins(&mut self, keeper_moves: bool, cut: u32, safe: u32) -> bool {
        let count = self.plan.links.len();
        if cut | safe == (1 << count) - 1 {
            return self.connected(safe);
        }
        let digit = |i: usize| (cut >> i & 1) + 2 * (safe >> i & 1);
        let position = (0..count).fold(0, |sum, i| 3 * sum + digit(i) as usize);
        let position = 2 * position + usize::from(keeper_moves);
        if let Some(known) = self.known[position] {
            return known;
        }
        let mut open = (0..count).filter(|i| (cut | safe) >> i & 1 == 0);
        let wins = match keeper_moves {
            true => open.any(|i| self.keeper_wins(false, cut, safe | 1 << i)),
            false => open.all(|i| self.keeper_wins(true, cut | 1 << i, safe)),
        };
        self.known[position] = Some(wins);
        wins
    }
}

/// Who wins by playing the game out, of a plan of few links.
pub fn by_playing(plan: &Plan) -> Winners {
    let known = vec![None; 2 * 3_usize.pow(plan.links.len() as u32)];
    let mut played = Played { plan, known };
    [false, true].map(|keeper_opens| played.keeper_wins(keeper_opens, 0, 0))
}

fn right(holds: bool, what: &str) -> Result<(), String> {
    holds.then_some(()).ok_or(what.to_owned())
}

/// Whether these links, which are as many as they have to be, reach every node.
fn is_tree(plan: &Plan, marks: &[u8], mark: u8) -> bool {
    let mut tree = plan.clone();
    let marked = plan.links.iter().zip(marks);
    tree.links = marked
        .filter(|(_, m)| **m == mark)
        .map(|(l, _)| *l)
        .collect();
    tree.links.len() + 1 == usize::from(plan.nodes) && crate::pieces::pieces(&tree) == 1
}

/// The groups are numbered from 0 with none left out, and the links between them are fewer than twice the groups but one.
fn check_groups(plan: &Plan, groups: &[u8]) -> Result<(), String> {
    let count = 1 + usize::from(*groups.iter().max().unwrap());
    let named = (0..count).all(|group| groups.contains(&(group as u8)));
    right(named, "a group is empty")?;
    let group = |v: u8| groups[usize::from(v)];
    let leads = |ends: [u8; 2]| group(ends[0]) != group(ends[1]);
    let between = plan.links.iter().filter(|link| leads(link.ends)).count();
    right(
        between < 2 * (count - 1),
        "too many links lead between groups",
    )
}

/// Whether the bytes of an answer say who wins, and show it.
pub fn check_answer(plan: &Plan, winners: Winners, answer: &[u8]) -> Result<(), String> {
    right(answer.len() == GAME, "not 98 bytes")?;
    right(answer[..2] == winners.map(u8::from), "other winners")?;
    let (marks, groups) = (&answer[LINKS..NODES], &answer[NODES..]);
    let (marks, behind) = marks.split_at(plan.links.len());
    right(behind.iter().all(|b| *b == 0), "a mark of no link")?;
    let (groups, behind) = groups.split_at(plan.nodes.into());
    right(behind.iter().all(|b| *b == 0), "a group of no node")?;
    if !winners[0] {
        right(marks.iter().all(|b| *b == 0), "a mark beside groups")?;
        return check_groups(plan, groups);
    }
    right(groups.iter().all(|b| *b == 0), "a group beside trees")?;
    right(marks.iter().all(|b| *b <= 2), "neither tree")?;
    let trees = is_tree(plan, marks, 1) && is_tree(plan, marks, 2);
    right(trees, "no tree")
}

/// Whether the call with that outcome may return this number, and leave these bytes where it was lent those.
pub fn check_left(
    file: &[u8],
    outcome: &Result<Winners, u64>,
    returned: u64,
    [before, after]: [&[u8]; 2],
) -> Result<(), String> {
    right(returned == outcome.err().unwrap_or(0), "another number")?;
    match outcome {
        Err(_) => right(before == after, "refused, and bytes are changed"),
        Ok(winners) => {
            let behind = before[GAME..] == after[GAME..];
            right(behind, "bytes behind the answer are changed")?;
            check_answer(&read(file).unwrap(), *winners, &after[..GAME])
        }
    }
}
