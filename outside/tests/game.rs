//! Cutter and keeper: the library against the game played out, against an independent way to decide it, and against winners that are
//! known; the trees and the groupings that it shows; every refusal, and every byte of the buffer.

use outside::arithmetic::S;
use outside::desk::{game_into_nothing, game_of_nothing, hold_game_at, pattern, played};
use outside::game::{by_playing, held, outcome, winners, Winners, GAME, LINKS, NODES};
use outside::pieces::pieces;
use outside::plans::{damaged, Plan, LENGTH};
use outside::random::Random;
use outside::repository::{plan, plans_with};

const HALF: u32 = S / 2;

/// Who wins: the keeper whoever opens, who opens, the cutter whoever opens.
const KEEPER: Winners = [true, true];
const OPENER: Winners = [false, true];
const CUTTER: Winners = [false, false];

/// The answer for an accepted plan, to which the library is held in a buffer of just enough bytes.
fn answer(plan: &Plan) -> Vec<u8> {
    held(&plan.bytes(), GAME).unwrap()
}

/// Holds the library to winners that are known.
fn hold_winners(plan: &Plan, known: Winners) {
    assert_eq!(answer(plan)[..2], known.map(u8::from), "{plan:?}");
}

/// The winners that the library says, without a look at the rest.
fn said(plan: &Plan) -> Winners {
    let mut answer = [7; GAME];
    assert_eq!(played(&plan.bytes(), &mut answer), 0, "{plan:?}");
    [answer[0] == 1, answer[1] == 1]
}

fn of(nodes: u16, ends: &[[u8; 2]]) -> Plan {
    Plan::alike(nodes, HALF, ends)
}

/// How many plans there were of each kind, by who wins.
#[derive(Debug, Default)]
struct Tried {
    all: [usize; 3],
    looped: [usize; 3],
    side_by_side: [usize; 3],
    apart: usize,
    one_node: usize,
    lengths: usize,
    largest: [usize; 3],
}

impl Tried {
    fn add(&mut self, plan: &Plan, winners: Winners) {
        let by = winners.iter().filter(|keeper| **keeper).count();
        let links = || plan.links.iter().map(|link| link.ends).enumerate();
        let joins = |a: [u8; 2], b: [u8; 2]| a[0] != a[1] && (a == b || a == [b[1], b[0]]);
        let pairs =
            || links().flat_map(|(i, a)| links().filter(move |(j, b)| i < *j && joins(a, *b)));
        let counts = [
            (&mut self.all[by], true),
            (&mut self.looped[by], links().any(|(_, [a, b])| a == b)),
            (&mut self.side_by_side[by], pairs().next().is_some()),
            (&mut self.apart, pieces(plan) > 1),
            (&mut self.one_node, plan.nodes == 1),
            (&mut self.lengths, plan.lengths() > 0),
            (&mut self.largest[by], plan.nodes == 32),
        ];
        for (count, fits) in counts {
            *count += usize::from(fits);
        }
    }

    fn assert_all(&self, least: usize) {
        let by_winner = [self.all, self.looped, self.side_by_side].concat();
        let others = [self.apart, self.one_node, self.lengths];
        let mut all = by_winner.iter().chain(&others);
        assert!(all.all(|count| *count >= least), "{self:?}");
    }
}

/// A plan of few nodes, around as many links as two trees have.
fn few_links(random: &mut Random, most: usize) -> Plan {
    let nodes = 1 + random.below(6) as u8;
    let trees = 2 * usize::from(nodes - 1);
    let count = (trees + random.below(4)).saturating_sub(random.below(4));
    match random.below(4) {
        0 => Plan::random(random, 8, most),
        _ => Plan::random_of(random, nodes, count.min(most)),
    }
}

/// Up to nine links, every game played out: by playing, by pebbles and by the library.
#[test]
fn games_played_out() {
    let mut random = Random::new(211);
    let mut tried = Tried::default();
    for _ in 0..4_000 {
        let plan = few_links(&mut random, 9);
        let known = by_playing(&plan);
        assert_eq!(winners(&plan), known, "{plan:?}");
        hold_winners(&plan, known);
        tried.add(&plan, known);
    }
    tried.assert_all(100);
    assert!(tried.all.iter().all(|count| *count > 600), "{tried:?}");
}

/// Ten and eleven links.
#[test]
fn longer_games_played_out() {
    let mut random = Random::new(212);
    let mut tried = Tried::default();
    for i in 0..60 {
        let plan = Plan::random_of(&mut random, 5 + i % 3, 10 + usize::from(i % 2));
        let known = by_playing(&plan);
        assert_eq!(winners(&plan), known, "{plan:?}");
        hold_winners(&plan, known);
        tried.add(&plan, known);
    }
    assert!(tried.all.iter().all(|count| *count > 5), "{tried:?}");
}

/// A tree of all nodes, each at any one before it, by other names.
fn tree(random: &mut Random, nodes: u8) -> Vec<[u8; 2]> {
    let mut names: Vec<u8> = (0..nodes).collect();
    random.shuffle(&mut names);
    let name = |v: usize| names[v];
    (1..usize::from(nodes))
        .map(|v| [name(v), name(random.below(v))])
        .collect()
}

/// Two trees without a common link, in any order.
fn trees(random: &mut Random, nodes: u8) -> Vec<[u8; 2]> {
    let mut ends = [tree(random, nodes), tree(random, nodes)].concat();
    random.shuffle(&mut ends);
    ends
}

/// Two trees put together: the keeper wins. One link less, and he has to open, at a link between the sides of that tree; two less, and
/// they are too few. Loops more make no difference.
#[test]
fn two_trees_and_less() {
    let mut random = Random::new(213);
    for nodes in (2..=32).cycle().take(310) {
        let mut ends = trees(&mut random, nodes);
        for known in [KEEPER, OPENER, CUTTER] {
            hold_winners(&of(nodes.into(), &ends), known);
            let mut looped = ends.clone();
            for _ in 0..=random.below(64 - ends.len()) {
                let node = random.below(nodes.into()) as u8;
                looped.insert(random.below(looped.len() + 1), [node; 2]);
            }
            hold_winners(&of(nodes.into(), &looped), known);
            ends.pop();
        }
    }
}

/// Two paths of 16 nodes, side by side, with a link from each node of the first to that beside it and to the one behind; the first two
/// are joined twice.
fn braced_ladder() -> Vec<[u8; 2]> {
    let rungs = (0..16).map(|i| [i, 16 + i]);
    let others = (0..15).flat_map(|i| [[i, i + 1], [16 + i, 17 + i], [i, 17 + i]]);
    rungs.chain(others).chain([[0, 16]]).collect()
}

/// Each node joined to the next and to the one behind that; the first two are joined twice.
fn triangles() -> Vec<[u8; 2]> {
    let braces = (0..30).map(|i| [i, i + 2]);
    path(32).into_iter().chain(braces).chain([[0, 1]]).collect()
}

/// Plans that are two trees and not a link more, with their links in many orders: whoever looks for the trees has to move links that
/// are put already, and others for those.
#[test]
fn links_that_have_to_be_moved_far() {
    let mut random = Random::new(223);
    let fixed = Plan::moved_far().links;
    let fixed = fixed.iter().map(|link| link.ends).collect();
    for (family, times) in [(fixed, 1), (braced_ladder(), 400), (triangles(), 400)] {
        assert_eq!(family.len(), 62);
        let mut ends = family;
        for _ in 0..times {
            let mut fewer = ends.clone();
            for known in [KEEPER, OPENER, CUTTER] {
                hold_winners(&of(32, &fewer), known);
                fewer.pop();
            }
            random.shuffle(&mut ends);
        }
    }
}

/// Up to 32 nodes and 64 links: random ones, meshed ones, and two trees with some links out and others in.
fn any_plan(random: &mut Random) -> Plan {
    let nodes = 2 + random.below(31) as u8;
    match random.below(4) {
        0 => Plan::random(random, 32, 64),
        1 => {
            let count = (2 * usize::from(nodes) + random.below(6)).min(64);
            Plan::meshed(random, nodes.max(3), count.saturating_sub(4))
        }
        2 => {
            let count = (2 * usize::from(nodes) + random.below(20)).min(64);
            Plan::random_of(random, nodes, count)
        }
        _ => {
            let nodes = if random.below(3) == 0 { 32 } else { nodes };
            let mut ends = trees(random, nodes);
            for _ in 0..random.below(4) {
                ends.pop();
            }
            while ends.len() < 64 && random.below(2) == 0 {
                ends.push([(); 2].map(|()| random.below(nodes.into()) as u8));
            }
            random.shuffle(&mut ends);
            of(nodes.into(), &ends)
        }
    }
}

/// The winners by pebbles, and every tree and every grouping checked.
#[test]
fn plans_of_every_size() {
    let mut random = Random::new(214);
    let mut tried = Tried::default();
    for _ in 0..2_500 {
        let plan = any_plan(&mut random);
        answer(&plan);
        tried.add(&plan, winners(&plan));
    }
    tried.assert_all(20);
    assert!(tried.all.iter().all(|count| *count > 200), "{tried:?}");
    assert!(tried.largest.iter().all(|count| *count > 20), "{tried:?}");
}

/// Where the cutter wins if he opens, the library itself says of each link whether the keeper may open with it: the plan with its ends
/// made one, of which the trees or the grouping are checked.
#[test]
fn the_links_to_open_with() {
    let mut random = Random::new(215);
    let mut met = [0; 2];
    for _ in 0..120 {
        let plan = any_plan(&mut random);
        let [second, first] = said(&plan);
        if second {
            continue;
        }
        let joins = |place: &usize| plan.links[*place].ends[0] != plan.links[*place].ends[1];
        let places = (0..plan.links.len()).filter(joins);
        let found = places
            .map(|place| answer(&plan.contracted(place))[0])
            .max()
            .unwrap_or(0);
        assert_eq!(found == 1, first, "{plan:?}");
        met[usize::from(first)] += 1;
    }
    assert!(met.iter().all(|count| *count > 15), "{met:?}");
}

fn path(nodes: u8) -> Vec<[u8; 2]> {
    (1..nodes).map(|v| [v - 1, v]).collect()
}

fn ring(nodes: u8) -> Vec<[u8; 2]> {
    (0..nodes).map(|v| [v, (v + 1) % nodes]).collect()
}

/// A ring and a node that is joined to each of its nodes.
fn wheel(rim: u8) -> Vec<[u8; 2]> {
    let spokes = (0..rim).map(|v| [v, rim]);
    ring(rim).into_iter().chain(spokes).collect()
}

#[test]
fn complete_graphs() {
    for (nodes, known) in [(1, KEEPER), (2, OPENER), (3, OPENER)] {
        hold_winners(&Plan::complete(nodes, HALF), known);
    }
    for nodes in 4..=11 {
        hold_winners(&Plan::complete(nodes, HALF), KEEPER);
    }
    let mut four = Plan::complete(4, HALF);
    let shown = answer(&four);
    let marked = |mark| shown[LINKS..NODES].iter().filter(|b| **b == mark).count();
    assert_eq!([marked(1), marked(2)], [3, 3]);
    four.links.pop();
    hold_winners(&four, OPENER);
    four.links.pop();
    hold_winners(&four, CUTTER);
}

/// Trees, rings and the same with each link twice, with one of these links less.
#[test]
fn trees_and_rings() {
    for nodes in 2..=32_u8 {
        let count = u16::from(nodes);
        let known = if nodes == 2 { OPENER } else { CUTTER };
        hold_winners(&of(count, &path(nodes)), known);
        let star: Vec<[u8; 2]> = (1..nodes).map(|v| [0, v]).collect();
        for tree in [path(nodes), star] {
            let mut twice = [&tree[..], &tree].concat();
            hold_winners(&of(count, &twice), KEEPER);
            twice.pop();
            hold_winners(&of(count, &twice), OPENER);
        }
        let known = [KEEPER, OPENER, CUTTER][usize::from(nodes - 2).min(2)];
        hold_winners(&of(count, &ring(nodes)), known);
        hold_winners(&of(count, &ring(nodes).repeat(2)), KEEPER);
    }
}

/// A wheel is two trees; without one of its links it is not.
#[test]
fn wheels() {
    for rim in 3..=31 {
        let nodes = u16::from(rim) + 1;
        hold_winners(&of(nodes, &wheel(rim)), KEEPER);
        for place in [0, usize::from(rim) - 1, usize::from(rim)] {
            let mut ends = wheel(rim);
            ends.remove(place);
            hold_winners(&of(nodes, &ends), OPENER);
        }
    }
}

/// Two complete graphs of four: apart, joined by one link, by two, and by a path of two.
#[test]
fn two_fours() {
    let four = Plan::complete(4, HALF).links;
    let shifted = four.iter().map(|link| link.ends.map(|v| v + 4));
    let ends = four.iter().map(|link| link.ends).chain(shifted);
    let ends: Vec<[u8; 2]> = ends.collect();
    let with = |more: &[[u8; 2]]| [&ends[..], more].concat();
    hold_winners(&of(8, &ends), CUTTER);
    hold_winners(&of(8, &with(&[[1, 6]])), OPENER);
    hold_winners(&of(8, &with(&[[1, 6], [6, 1]])), KEEPER);
    hold_winners(&of(9, &with(&[[1, 8], [8, 6]])), CUTTER);
    let shown = answer(&of(8, &with(&[[1, 6]])));
    assert_eq!(shown[LINKS..NODES], [0; 64]);
}

/// One node has lost nothing; two are joined by a link for each side.
#[test]
fn one_node_and_two() {
    for count in 0..=64 {
        let mut known = vec![0; GAME];
        known[..2].fill(1);
        assert_eq!(answer(&of(1, &vec![[0, 0]; count])), known);
        let side_by_side = [CUTTER, OPENER, KEEPER][count.min(2)];
        hold_winners(&of(2, &vec![[0, 1]; count]), side_by_side);
        hold_winners(&of(2, &vec![[1, 1]; count]), CUTTER);
        hold_winners(&of(32, &vec![[31, 0]; count]), CUTTER);
    }
    for nodes in 2..=32 {
        hold_winners(&of(nodes, &[]), CUTTER);
    }
}

/// Neither the order of the links nor the numbers of the nodes play a part, nor which end is first.
#[test]
fn order_and_names_play_no_part() {
    let mut random = Random::new(216);
    for _ in 0..300 {
        let plan = any_plan(&mut random);
        let before = said(&plan);
        let mut names: Vec<u8> = (0..plan.nodes as u8).collect();
        random.shuffle(&mut names);
        let mut other = plan.clone();
        random.shuffle(&mut other.links);
        for link in &mut other.links {
            let [a, b] = link.ends.map(|v| names[usize::from(v)]);
            link.ends = [b, a];
        }
        hold_winners(&other, before);
    }
}

/// The same ends with other values, each kind alone and mixed.
#[test]
fn values_play_no_part() {
    let mut random = Random::new(217);
    let values = [0, 1, HALF, S - 1, S, LENGTH, LENGTH + 1, LENGTH + 511];
    for _ in 0..150 {
        let mut plan = any_plan(&mut random);
        let before = winners(&plan);
        for value in values {
            plan.links.iter_mut().for_each(|link| link.value = value);
            hold_winners(&plan, before);
        }
        for link in &mut plan.links {
            link.value = values[random.below(values.len())];
        }
        hold_winners(&plan, before);
    }
}

/// The same bytes from the same plan, whatever the buffer held and whatever was asked between.
#[test]
fn the_same_twice() {
    let mut random = Random::new(218);
    for _ in 0..200 {
        let plan = any_plan(&mut random);
        let first = answer(&plan);
        said(&any_plan(&mut random));
        for byte in [0, 1, 2, 0xff] {
            let mut again = [byte; GAME];
            assert_eq!(played(&plan.bytes(), &mut again), 0);
            assert_eq!(again[..], first[..], "{plan:?}");
        }
    }
}

/// A plan for each outcome.
fn one_of_each() -> [Plan; 4] {
    [
        Plan::complete(4, HALF),
        of(5, &wheel(4)[1..]),
        of(32, &path(32)),
        of(1, &[]),
    ]
}

/// Buffers of every length up to 140: below 98 refused and untouched, from there on written up to byte 97.
#[test]
fn buffers_of_every_length() {
    for plan in one_of_each() {
        let file = &plan.bytes();
        for room in 0..=140 {
            let refused = held(file, room).err();
            assert_eq!(refused, (room < GAME).then_some(9), "{file:?} {room}");
        }
    }
}

/// Buffers whose length in 16 or 17 bits is too small or nothing.
#[test]
fn buffers_of_many_bytes() {
    for plan in one_of_each() {
        for wide in [1 << 16, 1 << 17] {
            for room in [0, 1, 97, 98, 99].map(|room| wide + room) {
                assert!(held(&plan.bytes(), room).is_ok(), "{room}");
            }
        }
        for room in [256, 256 + 97, 512, 1 << 10] {
            assert!(held(&plan.bytes(), room).is_ok(), "{room}");
        }
    }
}

/// No bytes at no address are too few, ahead of all else; no bytes at no address are no plan.
#[test]
fn nothing_at_no_address() {
    assert_eq!(game_into_nothing(&of(1, &[]).bytes()), 9);
    assert_eq!(game_into_nothing(&Plan::complete(4, HALF).bytes()), 9);
    assert_eq!(game_into_nothing(&[]), 9);
    for (room, number) in [(97, 9), (98, 1), (120, 1)] {
        let mut answer = pattern(room);
        assert_eq!(game_of_nothing(&mut answer), number);
        assert_eq!(answer, pattern(room));
    }
}

/// Each cause of the plan alone, at the first, the last and other links; with a shorter buffer 9 comes first.
#[test]
fn refusals_in_their_order() {
    let mut random = Random::new(219);
    for count in [3, 24, 25, 64] {
        let good = Plan::random_of(&mut random, 9, count);
        for room in [0, 16, 97, 98, 99, 400] {
            let number = |number: u64| if room < GAME { 9 } else { number };
            let refused = |cause: u64, spoil: &dyn Fn(&mut Plan)| {
                let mut plan = good.clone();
                spoil(&mut plan);
                assert_eq!(held(&plan.bytes(), room), Err(number(cause)));
            };
            refused(2, &|plan| plan.nodes = 0);
            refused(2, &|plan| plan.nodes = 33);
            refused(3, &|plan| plan.links.resize(65, good.links[0]));
            for i in [0, 1, count - 1] {
                let at = 256 * i as u64;
                refused(5 + at, &|plan| plan.links[i].ends[0] = 9);
                refused(5 + at, &|plan| plan.links[i].ends[1] = 255);
                refused(6 + at, &|plan| plan.links[i].value = S + 1);
                refused(6 + at, &|plan| plan.links[i].value = LENGTH - 1);
                refused(6 + at, &|plan| plan.links[i].value = LENGTH + 512);
            }
            let file = good.bytes();
            assert_eq!(held(&file[..3], room), Err(number(1)));
            assert_eq!(held(&file[..file.len() - 1], room), Err(number(4)));
            assert_eq!(held(&[&file[..], &[0]].concat(), room), Err(number(4)));
        }
    }
}

/// The sizes at their most, and many bytes behind a plan.
#[test]
fn the_largest_sizes() {
    let mut random = Random::new(220);
    for value in [S, LENGTH + 511] {
        let mut ends = trees(&mut random, 32);
        ends.extend([[31, 30], [0, 31]]);
        let plan = Plan::alike(32, value, &ends);
        hold_winners(&plan, KEEPER);
        for more in [1 << 16, 1 << 17, 3 << 16] {
            let longer = [plan.bytes(), vec![0; more]].concat();
            assert_eq!(held(&longer, GAME), Err(4));
        }
    }
}

/// Plans and buffers at even and odd addresses.
#[test]
fn any_address() {
    let mut random = Random::new(221);
    for _ in 0..20 {
        let file = any_plan(&mut random).bytes();
        let outcome = outcome(&file, GAME);
        for first in 0..16 {
            let lent = [vec![0xee; first], file.clone()].concat();
            assert!(held(&lent[first..], 100).is_ok(), "{first}");
            hold_game_at(&file, GAME, first, &outcome);
        }
    }
}

#[test]
fn damaged_files() {
    let mut random = Random::new(222);
    let (mut accepted, mut refused) = (0, [0; 10]);
    for (count, most) in [(40, 9), (6, 30), (4, 64)] {
        for _ in 0..count {
            let file = Plan::random(&mut random, 32, most).bytes();
            for file in damaged(&mut random, &file) {
                let room = 98 + random.below(20) - random.below(4) / 3 * random.below(99);
                match held(&file, room) {
                    Ok(_) => accepted += 1,
                    Err(number) => refused[number as usize % 256] += 1,
                }
            }
        }
    }
    let met = |number: &usize| refused[*number] > 10;
    let all = [1, 2, 3, 4, 5, 6, 9];
    assert!(
        accepted > 500 && all.iter().all(met),
        "{accepted} {refused:?}"
    );
}

#[test]
fn sample_plans() {
    let mut kept = Vec::new();
    for name in plans_with("plan") {
        let shown = held(&plan(&name), GAME).unwrap();
        if shown[0] == 1 {
            kept.push(name);
        } else {
            assert_eq!(shown[1], 0, "{name}");
        }
    }
    assert_eq!(kept, ["example", "four-cabinets", "mesh"]);
}
