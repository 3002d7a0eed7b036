//! The listing program, with plans on its standard input: all that it writes against the text by the rule.

use outside::arithmetic::S;
use outside::listing::{by_the_calls, by_the_rule, written};
use outside::plans::{damaged, Plan, LENGTH};
use outside::random::Random;
use outside::repository::{plan, plans_with};

/// Asserts that the program writes the text by the rule, and returns it.
fn hold(file: &[u8]) -> String {
    let text = written(&[file]);
    assert_eq!(text, by_the_rule(file), "{file:?}");
    text
}

/// The number behind this word in the first two lines.
fn number(text: &str, word: &str) -> u64 {
    let mut words = text.lines().take(2).flat_map(|line| line.split(' '));
    words.find(|w| *w == word).unwrap();
    words.next().unwrap().parse().unwrap()
}

fn steps(text: &str) -> u64 {
    number(text, "steps")
}

/// The figure's line of a plan in more than one piece.
const NO_CHANCE: &str = "low 0 high 0 steps 0 finished 1";

/// Asserts that the listing says this number of pieces, and returns the figure's line.
fn hold_pieces(plan: &Plan, pieces: usize) -> String {
    let text = hold(&plan.bytes());
    let lines: Vec<&str> = text.lines().collect();
    let sizes = format!("nodes {} links {}", plan.nodes, plan.links.len());
    assert_eq!(lines[0], format!("{sizes} pieces {pieces}"), "{plan:?}");
    assert!(pieces == 1 || lines[1] == NO_CHANCE, "{plan:?}");
    lines[1].into()
}

#[test]
fn the_example_of_the_request() {
    let expected = "\
nodes 2 links 2 pieces 1
low 980000000 high 980000000 steps 0 finished 1
link 0 0 1 900000000 200000000 200000000
link 1 0 1 800000000 100000000 100000000
limits 100000 20000
";
    assert_eq!(hold(&plan("example")), expected);
}

/// The shapes of P1 to P8; P4 and P9 to P11 are sample plans.
#[test]
fn the_plans_that_are_written_down() {
    let triangle = |value| Plan::alike(3, value, &[[0, 1], [1, 2], [0, 2]]);
    let rows = [
        (Plan::new(1, &[]), 1, S, S),
        (Plan::new(2, &[]), 2, 0, 0),
        (Plan::new(1, &[(0, 0, 0)]), 1, S, S),
        (Plan::alike(3, S / 2, &[[0, 1], [1, 2]]), 1, S / 4, S / 4),
        (triangle(S / 2), 1, 499_999_999, 500_000_001),
        (triangle(0), 1, 0, 0),
        (triangle(S), 1, S, S),
    ];
    for (plan, pieces, low, high) in rows {
        let expected = format!("low {low} high {high} steps 0 finished 1");
        assert_eq!(hold_pieces(&plan, pieces), expected);
    }
}

/// And that the listing has the numbers of the library's figure and importance calls.
#[test]
fn the_sample_plans() {
    let names = plans_with("plan");
    for name in names.iter().filter(|name| *name != "mesh") {
        let file = plan(name);
        let text = hold(&file);
        assert_eq!(text, by_the_calls(&file), "{name}");
        let pieces = if name == "no-crossing" { 2 } else { 1 };
        assert_eq!(number(&text, "pieces"), pieces, "{name}");
    }
}

/// Its figure takes all the steps that it may.
#[test]
fn the_mesh() {
    let text = hold(&plan("mesh"));
    assert_eq!(text.lines().count(), 2 + 64 + 1);
    assert_eq!(text.lines().next(), Some("nodes 32 links 64 pieces 1"));
    assert_eq!(steps(&text), 100_000);
}

/// The figure needs 40,528 steps and is finished. The evaluation with a link broken takes all 20,000 steps, and a step more or less
/// shows in the importance.
#[test]
fn ten_nodes_each_two_joined() {
    let text = hold(&Plan::complete(10, S / 2).bytes());
    assert_eq!(steps(&text), 40_528);
    assert!(text.lines().nth(1).unwrap().ends_with(" finished 1"));
}

#[test]
fn small_random_plans() {
    let mut random = Random::new(51);
    let mut splits = 0;
    for i in 0..60 {
        let links = 1 + i % 14;
        let plan = Plan::random(&mut random, 9, links).bytes();
        let text = hold(&plan);
        assert_eq!(text, by_the_calls(&plan));
        splits += steps(&text);
    }
    for nodes in [5, 6, 7, 8] {
        splits += steps(&hold(&Plan::random_of(&mut random, nodes, 16).bytes()));
    }
    assert!(splits > 30, "too few splits: {splits}");
}

/// A tree of random shape, `more` links beside it, and links that run beside these, 64 in all.
fn sparse(random: &mut Random, nodes: u8, more: usize) -> Plan {
    let mut tree = Plan::random_of(random, nodes, 64);
    let count = usize::from(nodes) - 1;
    for i in 0..64 {
        tree.links[i].ends = match i {
            _ if i < count => [random.below(i + 1) as u8, i as u8 + 1],
            _ if i < count + more => [0, 1].map(|_| random.below(nodes.into()) as u8),
            _ => tree.links[random.below(count + more)].ends,
        };
    }
    random.shuffle(&mut tree.links);
    tree
}

#[test]
fn random_plans_of_64_links() {
    let mut random = Random::new(52);
    let mut splits = 0;
    for nodes in [1, 2, 3, 4, 5] {
        hold(&Plan::random_of(&mut random, nodes, 64).bytes());
    }
    for more in 0..10 {
        splits += steps(&hold(&sparse(&mut random, 32, more).bytes()));
        splits += steps(&hold(&sparse(&mut random, 20, more).bytes()));
    }
    assert!(splits > 30, "too few splits: {splits}");
}

/// The links of a path through the nodes in this order.
fn path_through(nodes: &[u8]) -> Vec<[u8; 2]> {
    nodes.windows(2).map(|pair| [pair[0], pair[1]]).collect()
}

/// Of a path through 32 nodes the links are taken away one by one: from its end, from its start, in any order. It runs up, down,
/// and through the nodes in any order.
#[test]
fn every_number_of_pieces_at_32_nodes() {
    let mut random = Random::new(54);
    let up: Vec<u8> = (0..32).collect();
    let down: Vec<u8> = (0..32).rev().collect();
    let mut any = up.clone();
    random.shuffle(&mut any);
    for nodes in [up, down, any] {
        let from_its_end = path_through(&nodes);
        let mut from_its_start = from_its_end.clone();
        from_its_start.reverse();
        let mut in_any_order = from_its_end.clone();
        random.shuffle(&mut in_any_order);
        for links in [from_its_end, from_its_start, in_any_order] {
            for pieces in 1..=32 {
                hold_pieces(&Plan::alike(32, S, &links[..32 - pieces]), pieces);
            }
        }
    }
}

#[test]
fn one_node_is_one_piece() {
    for value in [0, S] {
        for loops in [0, 1, 2, 64] {
            let plan = Plan::alike(1, value, &vec![[0, 0]; loops]);
            let certain = format!("low {S} high {S} steps 0 finished 1");
            assert_eq!(hold_pieces(&plan, 1), certain);
        }
    }
}

/// No link at all, and a path through all nodes but the highest.
#[test]
fn nodes_without_a_link_are_pieces() {
    for nodes in 2..=32 {
        hold_pieces(&Plan::new(nodes.into(), &[]), nodes.into());
        let others: Vec<u8> = (0..nodes - 1).collect();
        hold_pieces(&Plan::alike(nodes.into(), S, &path_through(&others)), 2);
    }
}

/// A path through the others; then a loop at the node, and a link to the path.
#[test]
fn each_node_alone() {
    for alone in 0..32 {
        let others: Vec<u8> = (0..32).filter(|v| *v != alone).collect();
        let mut links = path_through(&others);
        hold_pieces(&Plan::alike(32, S, &links), 2);
        links.insert(0, [alone, alone]);
        hold_pieces(&Plan::alike(32, S, &links), 2);
        links.push([alone, others[30]]);
        hold_pieces(&Plan::alike(32, S, &links), 1);
    }
}

/// A loop at each node; two at each; and one at each beside a link from 0 to 1, one from 2 to 3 and so on.
#[test]
fn loops_join_nothing() {
    for nodes in 1..=32 {
        let mut links: Vec<[u8; 2]> = (0..nodes).map(|v| [v, v]).collect();
        hold_pieces(&Plan::alike(nodes.into(), 0, &links), nodes.into());
        let two = [&links[..], &links].concat();
        hold_pieces(&Plan::alike(nodes.into(), S, &two), nodes.into());
        links.extend((0..nodes / 2).map(|i| [2 * i, 2 * i + 1]));
        let pieces = nodes - nodes / 2;
        hold_pieces(&Plan::alike(nodes.into(), S, &links), pieces.into());
    }
}

/// Two plans with the same figure: with links of value 0 in a path through all nodes, and without these links.
#[test]
fn links_of_value_0_join() {
    let mut random = Random::new(55);
    let all: Vec<u8> = (0..32).collect();
    for zeros in 1..=31 {
        let mut plan = Plan::alike(32, S, &path_through(&all));
        random.shuffle(&mut plan.links);
        for link in &mut plan.links[..zeros] {
            link.value = 0;
        }
        random.shuffle(&mut plan.links);
        assert_eq!(hold_pieces(&plan, 1), NO_CHANCE);
        plan.links.retain(|link| link.value > 0);
        assert_eq!(hold_pieces(&plan, zeros + 1), NO_CHANCE);
    }
}

/// A path through the odd nodes, which leaves the even ones.
#[test]
fn links_of_every_kind_of_value_join() {
    let odd: Vec<u8> = (0..32).filter(|v| v % 2 == 1).collect();
    for value in [0, 1, S / 2, S - 1, S, LENGTH, LENGTH + 1, LENGTH + 511] {
        hold_pieces(&Plan::alike(32, value, &path_through(&odd)), 16 + 1);
    }
}

/// Any number of them, either end first; and a path with each link twice.
#[test]
fn links_side_by_side_join_once() {
    for count in 1..=64 {
        let links: Vec<[u8; 2]> = [[4, 9], [9, 4]].into_iter().cycle().take(count).collect();
        hold_pieces(&Plan::alike(12, S, &links), 11);
    }
    let all: Vec<u8> = (0..32).collect();
    let path = path_through(&all);
    let twice: Vec<[u8; 2]> = path.iter().flat_map(|&[a, b]| [[a, b], [b, a]]).collect();
    hold_pieces(&Plan::alike(32, S, &twice), 1);
}

/// The nodes are dealt out to the pieces in turn, and each piece is a ring: a loop of one node, two links of two. So there are as
/// many links as nodes, whatever the number of pieces.
#[test]
fn pieces_whose_nodes_interleave() {
    for pieces in 1..=32 {
        let next = |v: u8| {
            if v + pieces < 32 {
                v + pieces
            } else {
                v % pieces
            }
        };
        let links: Vec<[u8; 2]> = (0..32).map(|v| [v, next(v)]).collect();
        hold_pieces(&Plan::alike(32, S, &links), pieces.into());
    }
}

/// 63 links run side by side; the one at the place joins a third node to their two, the next or the highest.
#[test]
fn a_link_joins_at_each_place() {
    for place in 0..64 {
        for ends in [[1, 2], [31, 1]] {
            let mut links = vec![[0, 1]; 64];
            links[place] = ends;
            hold_pieces(&Plan::alike(32, S, &links), 32 - 2);
        }
    }
}

/// Of the 64 sets of links between four nodes 38 leave one piece, 19 two, 6 three, and the empty one four. Among 32 nodes there are
/// 28 pieces more.
#[test]
fn every_set_of_links_between_four_nodes() {
    for (nodes, four) in [(4, [0, 1, 2, 3]), (32, [0, 15, 16, 31])] {
        let pairs = [[0, 1], [0, 2], [0, 3], [1, 2], [1, 3], [2, 3]];
        let mut counts = [0; 4];
        for set in 0..64 {
            let chosen = (0..6).filter(|i| set >> i & 1 == 1);
            let links: Vec<[u8; 2]> = chosen.map(|i| pairs[i].map(|v| four[v])).collect();
            let text = hold(&Plan::alike(nodes, S / 2, &links).bytes());
            counts[number(&text, "pieces") as usize - (usize::from(nodes) - 3)] += 1;
        }
        assert_eq!(counts, [38, 19, 6, 1]);
    }
}

/// A random plan in so many pieces: each has a node to start with, every other node is joined to a piece, and `more` links run
/// within pieces, loops among them or not.
fn in_pieces(random: &mut Random, nodes: u8, pieces: usize, more: usize, loops: bool) -> Plan {
    let mut order: Vec<u8> = (0..nodes).collect();
    random.shuffle(&mut order);
    let mut all: Vec<Vec<u8>> = order[..pieces].iter().map(|v| vec![*v]).collect();
    let mut ends = Vec::new();
    for v in &order[pieces..] {
        let piece = &mut all[random.below(pieces)];
        ends.push([piece[random.below(piece.len())], *v]);
        piece.push(*v);
    }
    let count = ends.len() + more;
    while ends.len() < count {
        let piece = &all[random.below(pieces)];
        let [a, b] = [0, 1].map(|_| piece[random.below(piece.len())]);
        if loops || a != b {
            ends.push([a, b]);
        }
    }
    let mut plan = Plan::random_of(random, nodes, ends.len());
    for (link, [a, b]) in plan.links.iter_mut().zip(ends) {
        link.ends = if random.below(2) == 0 { [a, b] } else { [b, a] };
    }
    random.shuffle(&mut plan.links);
    plan
}

/// Every number of pieces at every number of nodes; a fifth of the plans have no more links than they need. There is no chance
/// exactly where the links of value above 0 leave more than one piece.
#[test]
fn random_plans_in_known_numbers_of_pieces() {
    let mut random = Random::new(56);
    let (mut worthless, mut by_zeros) = (0, 0);
    for nodes in 1..=32 {
        for pieces in 1..=nodes {
            let more = usize::from(nodes + pieces) % 5;
            let mut plan = in_pieces(&mut random, nodes, pieces.into(), more, true);
            let figure = hold_pieces(&plan, pieces.into());
            plan.links.retain(|link| link.value > 0);
            let left = outside::pieces::pieces(&plan);
            assert_eq!(figure.starts_with("low 0 high 0 "), left > 1, "{plan:?}");
            worthless += usize::from(pieces == 1 && left > 1);
            by_zeros += usize::from(left > pieces.into());
        }
    }
    assert!(worthless > 10, "in one piece without a chance: {worthless}");
    assert!(by_zeros > 50, "joined by links of value 0: {by_zeros}");
}

/// 64 links in several pieces, without a loop and with loops.
#[test]
fn many_links_in_known_numbers_of_pieces() {
    let mut random = Random::new(58);
    for nodes in [3, 4, 5, 8, 13, 21, 31, 32] {
        for pieces in 2..nodes {
            let more = 64 - usize::from(nodes - pieces);
            for loops in [false, true] {
                let plan = in_pieces(&mut random, nodes, pieces.into(), more, loops);
                assert_eq!(plan.links.len(), 64);
                hold_pieces(&plan, pieces.into());
            }
        }
    }
}

/// Random plans of few links, all of one value above 0: the high is above 0 exactly in one piece, though the low may be 0 there.
/// With values of S, low and high are S in one piece.
#[test]
fn a_chance_exactly_in_one_piece() {
    let mut random = Random::new(57);
    let (mut met, mut small) = ([0; 3], 0);
    for _ in 0..120 {
        let (nodes, links) = (1 + random.below(8), random.below(12));
        let mut plan = Plan::random_of(&mut random, nodes as u8, links);
        for value in [1, S / 2, S] {
            for link in &mut plan.links {
                link.value = value;
            }
            let text = hold(&plan.bytes());
            let [pieces, low, high] = ["pieces", "low", "high"].map(|word| number(&text, word));
            assert_eq!(high > 0, pieces == 1, "{plan:?}");
            if value == S {
                let certain = if pieces == 1 { S } else { 0 };
                assert_eq!([low, high], [certain.into(); 2], "{plan:?}");
            }
            small += usize::from(low == 0 && high > 0);
            met[pieces.min(3) as usize - 1] += 1;
        }
    }
    assert!(met.iter().all(|count| *count > 30), "too few: {met:?}");
    assert!(small > 20, "too few with a low of 0: {small}");
}

/// Plans that are refused, with the number and the link that are said.
fn refused() -> Vec<(Vec<u8>, u64, usize)> {
    let good = Plan::alike(12, LENGTH + 511, &[[10, 11]; 64]);
    let bytes = good.bytes();
    let mut files: Vec<(Vec<u8>, u64, usize)> = (0..4).map(|n| (vec![1; n], 1, 0)).collect();
    for nodes in [0, 33, 256, 65_535] {
        let plan = Plan {
            nodes,
            ..good.clone()
        };
        files.push((plan.bytes(), 2, 0));
    }
    for count in [65, 66, 256, 4_096] {
        files.push((Plan::alike(32, S, &vec![[0, 1]; count]).bytes(), 3, 0));
    }
    files.push((bytes[..4].to_vec(), 4, 0));
    files.push((bytes[..387].to_vec(), 4, 0));
    files.push(([&bytes[..], &[0]].concat(), 4, 0));
    files.push((vec![1, 0, 0, 0, 0], 4, 0));
    for i in 0..64 {
        let mut plan = good.clone();
        plan.links[i].value = [S + 1, LENGTH - 1, LENGTH + 512, u32::MAX][i % 4];
        files.push((plan.bytes(), 6, i));
        plan.links[i].ends[i % 2] = 12;
        files.push((plan.bytes(), 5, i));
    }
    files
}

#[test]
fn refused_plans() {
    for (file, number, link) in refused() {
        assert_eq!(hold(&file), format!("refused {number} at {link}\n"));
    }
}

#[test]
fn damaged_plans() {
    let mut random = Random::new(53);
    let mut refused = 0;
    for _ in 0..4 {
        let good = Plan::random(&mut random, 6, 9).bytes();
        for file in damaged(&mut random, &good) {
            refused += usize::from(hold(&file).starts_with("refused "));
        }
    }
    assert!(refused > 100, "too few refused: {refused}");
}

/// Longer than any plan; the program need not read them to their end.
#[test]
fn inputs_longer_than_any_plan() {
    for length in [389, 390, 512, 4_096, 65_536, 65_537, 100_000, 1_000_000] {
        for (nodes, count, number) in [
            (32, 64, 4),
            (32, 0, 4),
            (0, 64, 2),
            (33, 64, 2),
            (32, 65, 3),
        ] {
            let mut file = vec![nodes, 0, count, 0];
            file.resize(length, 0);
            assert_eq!(hold(&file), format!("refused {number} at 0\n"), "{length}");
        }
    }
}

/// The file in parts, cut at these places.
fn in_parts<'a>(file: &'a [u8], cuts: &[usize]) -> Vec<&'a [u8]> {
    let ends = [&[0], cuts, &[file.len()]].concat();
    ends.windows(2)
        .map(|ends| &file[ends[0]..ends[1]])
        .collect()
}

#[test]
fn inputs_in_parts() {
    let (example, large) = (plan("example"), plan("two-crossings"));
    assert_eq!(example.len(), 16);
    let each: Vec<usize> = (1..16).collect();
    assert_eq!(written(&in_parts(&example, &each)), by_the_rule(&example));
    let text = by_the_rule(&large);
    for cuts in [&[0][..], &[1], &[3], &[4], &[147], &[148], &[2, 5, 60]] {
        assert_eq!(written(&in_parts(&large, cuts)), text, "{cuts:?}");
    }
    assert_eq!(written(&[&large, &[0]]), "refused 4 at 0\n");
    assert_eq!(written(&[&[0; 400], &[0; 400]]), "refused 2 at 0\n");
}
