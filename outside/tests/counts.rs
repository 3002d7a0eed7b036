//! How many sets of i links connect a plan: the library against two independent counts, against numbers that are known, and against
//! itself; every refusal, and every number of the row.

use outside::arithmetic::S;
use outside::calls::{held as held_call, Call, MOST_STEPS};
use outside::counting::{all_sets, by_links, by_sets, held, MOST_COUNTED};
use outside::desk::{counted, counts_into_nothing, counts_of_nothing, hold_counts, row_pattern};
use outside::pieces::pieces;
use outside::plans::{damaged, Plan, LENGTH};
use outside::random::Random;
use outside::repository::{plan, plans_with};
use outside::states::{widest, Exact};

const HALF: u32 = S / 2;

/// The row of an accepted plan, to which the library is held in a row of just enough numbers.
fn row(plan: &Plan) -> Vec<u64> {
    held(&plan.bytes(), plan.links.len() + 1).unwrap()
}

/// The row that the library writes.
fn written(plan: &Plan) -> Vec<u64> {
    let mut row = vec![u64::MAX; plan.links.len() + 1];
    assert_eq!(counted(&plan.bytes(), &mut row), 0, "{plan:?}");
    row
}

/// Holds the library to a row that is known.
fn hold_row(plan: &Plan, counts: &[u64]) {
    hold_counts(&plan.bytes(), counts.len(), &Ok(counts.to_vec()));
}

fn of(nodes: u16, ends: &[[u8; 2]]) -> Plan {
    Plan::alike(nodes, HALF, ends)
}

/// The paper's plan of four cabinets.
#[test]
fn four_nodes() {
    let known = [0, 0, 0, 16, 15, 6, 1];
    let ends = [[0, 1], [0, 2], [0, 3], [1, 2], [1, 3], [2, 3]];
    assert_eq!(row(&of(4, &ends)), known);
    hold_row(&of(4, &ends), &known);
    hold_counts(&plan("four-cabinets"), 7, &Ok(known.to_vec()));
}

/// How many plans there were of each kind.
#[derive(Debug, Default)]
struct Tried {
    connected: usize,
    apart: usize,
    looped: usize,
    side_by_side: usize,
    one_node: usize,
    many_nodes: usize,
    lengths: usize,
}

impl Tried {
    fn add(&mut self, plan: &Plan) {
        let joins =
            |ends: [u8; 2], others: [u8; 2]| ends == others || ends == [others[1], others[0]];
        let links = || plan.links.iter().map(|link| link.ends).enumerate();
        let pairs =
            || links().flat_map(|(i, a)| links().filter(move |(j, b)| i < *j && joins(a, *b)));
        let counts = [
            (&mut self.connected, pieces(plan) == 1),
            (&mut self.apart, pieces(plan) > 1),
            (&mut self.looped, links().any(|(_, [a, b])| a == b)),
            (&mut self.side_by_side, pairs().any(|(_, [a, b])| a != b)),
            (&mut self.one_node, plan.nodes == 1),
            (&mut self.many_nodes, plan.nodes > 16),
            (&mut self.lengths, plan.lengths() > 0),
        ];
        for (count, fits) in counts {
            *count += usize::from(fits);
        }
    }

    fn assert_all(&self, least: usize) {
        let all = [
            self.connected,
            self.apart,
            self.looped,
            self.side_by_side,
            self.one_node,
            self.many_nodes,
            self.lengths,
        ];
        assert!(all.iter().all(|count| *count >= least), "{self:?}");
    }
}

/// A plan of at most so many links and of any kind.
fn any_plan(random: &mut Random, most: usize) -> Plan {
    let nodes = 1 + random.below(32) as u8;
    let count = random.below(most + 1);
    match random.below(5) {
        0 => Plan::random_of(random, nodes, count),
        1 => Plan::random_of(random, 1 + nodes % 3, count),
        2 => Plan::random_of(random, 1 + (count as u8).min(31), count),
        _ => Plan::random(random, 32, most),
    }
}

/// Up to 14 links: the library against both counts, entry by entry.
#[test]
fn random_plans_by_all_sets() {
    let mut random = Random::new(181);
    let mut tried = Tried::default();
    for _ in 0..3_000 {
        let plan = any_plan(&mut random, 14);
        let counts = by_sets(&plan);
        assert_eq!(by_links(&plan), counts, "{plan:?}");
        assert_eq!(row(&plan), counts, "{plan:?}");
        assert_eq!(counts.iter().all(|count| *count == 0), pieces(&plan) > 1);
        tried.add(&plan);
    }
    tried.assert_all(200);
}

/// Up to 24 links, most of them connected.
#[test]
fn random_plans_of_more_links() {
    let mut random = Random::new(182);
    let mut tried = Tried::default();
    let mut largest = 0;
    for _ in 0..400 {
        let nodes = 3 + random.below(12) as u8;
        let count = 15 + random.below(10);
        let meshed = Plan::meshed(&mut random, nodes, count);
        for plan in [meshed, any_plan(&mut random, MOST_COUNTED)] {
            row(&plan);
            tried.add(&plan);
            largest += usize::from(plan.links.len() == MOST_COUNTED);
        }
    }
    tried.assert_all(20);
    assert!(largest > 40, "too few of 24 links: {largest}");
}

/// Some plans of 24 links by all 16,777,216 sets, the slowest found among them.
#[test]
fn all_sets_of_24_links() {
    let mut random = Random::new(183);
    let plans = [
        Plan::slowest_counted(),
        Plan::meshed(&mut random, 11, 24),
        Plan::random_of(&mut random, 8, 24),
        of(25, &path(25)),
    ];
    for plan in plans {
        assert_eq!(plan.links.len(), 24);
        let counts = by_sets(&plan);
        assert_eq!(by_links(&plan), counts, "{plan:?}");
        hold_row(&plan, &counts);
    }
}

fn path(nodes: u8) -> Vec<[u8; 2]> {
    (1..nodes).map(|v| [v - 1, v]).collect()
}

/// How many graphs of 4 to 7 nodes are connected, and how many of them are trees. Of seven nodes the number for each number of links
/// is known; no five of the 21 links are missed, and six only where they leave a node alone.
#[test]
fn complete_graphs() {
    for (nodes, trees, connected) in [
        (4, 16, 38),
        (5, 125, 728),
        (6, 1_296, 26_704),
        (7, 16_807, 1_866_256),
    ] {
        let plan = Plan::complete(nodes, HALF);
        let row = row(&plan);
        assert_eq!(row.iter().sum::<u64>(), connected);
        assert_eq!(row[usize::from(nodes) - 1], trees);
        if nodes < 7 {
            assert_eq!(row, by_sets(&plan));
        }
    }
    let known = [
        0, 0, 0, 0, 0, 0, 16_807, 68_295, 156_555, 258_125, 331_506, 343_140, 290_745, 202_755,
        116_175, 54_257, 20_349, 5_985, 1_330, 210, 21, 1,
    ];
    hold_row(&Plan::complete(7, HALF), &known);
    assert_eq!(known[16..], all_sets(21)[16..]);
    assert_eq!(known[15], all_sets(21)[15] - 7);
}

/// Any two of a ring's links cut it; one node's ring is a loop, and that of two nodes two links side by side.
#[test]
fn rings() {
    for nodes in 1..=24_u8 {
        let ends: Vec<[u8; 2]> = (0..nodes).map(|v| [v, (v + 1) % nodes]).collect();
        let count = usize::from(nodes);
        let mut known = vec![0; count + 1];
        known[count - 1] = count as u64;
        known[count] = 1;
        hold_row(&of(nodes.into(), &ends), &known);
    }
}

/// A tree takes all its links, and one link more for each node would be too few.
#[test]
fn trees() {
    let mut random = Random::new(184);
    for nodes in 1..=25_u8 {
        let mut ends: Vec<[u8; 2]> = (1..nodes)
            .map(|v| [random.below(v.into()) as u8, v])
            .collect();
        random.shuffle(&mut ends);
        let mut known = vec![0; ends.len() + 1];
        known[ends.len()] = 1;
        hold_row(&of(nodes.into(), &ends), &known);
        hold_row(&of(u16::from(nodes) + 1, &ends), &vec![0; ends.len() + 1]);
        ends.pop();
        hold_row(
            &of(nodes.into(), &ends),
            &vec![u64::from(nodes == 1); ends.len() + 1],
        );
    }
}

/// The product of two rows, as polynomials.
fn product(a: &[u64], b: &[u64]) -> Vec<u64> {
    let mut row = vec![0; a.len() + b.len() - 1];
    for (i, x) in a.iter().enumerate() {
        for (j, y) in b.iter().enumerate() {
            row[i + j] += x * y;
        }
    }
    row
}

fn sum(a: &[u64], b: &[u64]) -> Vec<u64> {
    let number = |row: &[u64], i: usize| row.get(i).copied().unwrap_or(0);
    (0..a.len().max(b.len()))
        .map(|i| number(a, i) + number(b, i))
        .collect()
}

/// The sets with at least one of so many links side by side.
fn some_of(count: usize) -> Vec<u64> {
    let mut row = all_sets(count);
    row[0] = 0;
    row
}

/// A ring whose sides have several links: all sides hold, or all but one.
fn known_of_multi_ring(sides: &[usize]) -> Vec<u64> {
    let holding = |broken: Option<usize>| {
        let held = sides.iter().enumerate().filter(|(i, _)| Some(*i) != broken);
        held.fold(vec![1], |row, (_, count)| product(&row, &some_of(*count)))
    };
    let broken = (0..sides.len()).map(|i| holding(Some(i)));
    broken.fold(holding(None), |row, more| sum(&row, &more))
}

#[test]
fn multi_rings() {
    let mut random = Random::new(185);
    let mut largest = 0;
    for _ in 0..300 {
        let nodes = 3 + random.below(6);
        let mut sides = vec![1; nodes];
        for _ in 0..random.below(MOST_COUNTED - nodes + 1) {
            sides[random.below(nodes)] += 1;
        }
        let side = |i: usize| vec![[i as u8, ((i + 1) % nodes) as u8]; sides[i]];
        let mut ends: Vec<[u8; 2]> = (0..nodes).flat_map(side).collect();
        random.shuffle(&mut ends);
        hold_row(&of(nodes as u16, &ends), &known_of_multi_ring(&sides));
        largest += usize::from(ends.len() == MOST_COUNTED);
    }
    assert!(largest > 5, "too few of 24 links: {largest}");
}

/// Three paths of so many links between two nodes.
fn theta(lengths: [u8; 3]) -> Plan {
    let mut ends = Vec::new();
    let mut nodes = 2;
    for length in lengths {
        let mut from = 0;
        for _ in 1..length {
            ends.push([from, nodes]);
            from = nodes;
            nodes += 1;
        }
        ends.push([from, 1]);
    }
    of(nodes.into(), &ends)
}

/// None missing, one, or two of different paths.
#[test]
fn thetas() {
    for a in 1..=8_u8 {
        for b in a..=8 {
            for c in [b, 8, 24 - a - b] {
                let count = usize::from(a + b + c);
                let mut known = vec![0; count + 1];
                let [x, y, z] = [a, b, c].map(u64::from);
                known[count] = 1;
                known[count - 1] = x + y + z;
                known[count - 2] = x * y + y * z + z * x;
                hold_row(&theta([a, b, c]), &known);
            }
        }
    }
}

/// A loop may be in a set or not: the row with one more is the row and the row moved by one.
#[test]
fn loops_count_as_links() {
    let mut random = Random::new(186);
    for count in 0..=MOST_COUNTED {
        hold_row(&of(1, &vec![[0, 0]; count]), &all_sets(count));
        hold_row(&of(2, &vec![[0, 0]; count]), &vec![0; count + 1]);
        hold_row(&of(2, &vec![[0, 1]; count]), &some_of(count));
    }
    for _ in 0..300 {
        let mut plan = any_plan(&mut random, MOST_COUNTED - 1);
        let before = written(&plan);
        let node = random.below(plan.nodes.into()) as u8;
        let place = random.below(plan.links.len() + 1);
        plan.links.insert(place, of(1, &[[node, node]]).links[0]);
        assert_eq!(row(&plan), product(&before, &[1, 1]), "{plan:?}");
    }
}

/// A second link beside one: the sets with neither, and twice those with it, and those with both.
#[test]
fn links_side_by_side_are_two() {
    let mut random = Random::new(187);
    for _ in 0..300 {
        let mut plan = any_plan(&mut random, MOST_COUNTED - 1);
        if plan.links.is_empty() {
            continue;
        }
        let place = random.below(plan.links.len());
        let link = plan.links[place];
        let with_it = written(&plan);
        plan.links.remove(place);
        let without = written(&plan);
        let also = |i: usize| without.get(i).copied().unwrap_or(0);
        let its: Vec<u64> = with_it
            .iter()
            .enumerate()
            .map(|(i, all)| all - also(i))
            .collect();
        plan.links.extend([link, link]);
        let known = sum(&without, &product(&its, &[2, 1]));
        assert_eq!(written(&plan), known, "{plan:?} {place}");
    }
}

/// Neither the order of the links nor the numbers of the nodes play a part, nor which end is first.
#[test]
fn order_and_names_play_no_part() {
    let mut random = Random::new(188);
    for _ in 0..300 {
        let plan = any_plan(&mut random, MOST_COUNTED);
        let before = written(&plan);
        let mut names: Vec<u8> = (0..plan.nodes as u8).collect();
        random.shuffle(&mut names);
        let mut other = plan.clone();
        random.shuffle(&mut other.links);
        for link in &mut other.links {
            let [a, b] = link.ends.map(|v| names[usize::from(v)]);
            link.ends = [b, a];
        }
        assert_eq!(written(&other), before, "{plan:?}");
    }
}

/// The same ends with other values, each kind alone and mixed.
#[test]
fn values_play_no_part() {
    let mut random = Random::new(189);
    let values = [0, 1, HALF, S - 1, S, LENGTH, LENGTH + 1, LENGTH + 511];
    for _ in 0..200 {
        let mut plan = any_plan(&mut random, 16);
        let before = row(&plan);
        for value in values {
            plan.links.iter_mut().for_each(|link| link.value = value);
            assert_eq!(written(&plan), before, "{plan:?}");
        }
        for link in &mut plan.links {
            link.value = values[random.below(values.len())];
        }
        assert_eq!(written(&plan), before, "{plan:?}");
    }
}

/// The sets without a link, and those with it: the plan with its ends made one, moved by one.
#[test]
fn with_a_link_and_without() {
    let mut random = Random::new(190);
    for _ in 0..300 {
        let nodes = 2 + random.below(20) as u8;
        let plan = Plan::random_of(&mut random, nodes, MOST_COUNTED);
        let joins = |place: &usize| plan.links[*place].ends[0] < plan.links[*place].ends[1];
        let Some(place) = (0..MOST_COUNTED).find(joins) else {
            continue;
        };
        let mut without = plan.clone();
        without.links.remove(place);
        let with_it = product(&written(&plan.contracted(place)), &[0, 1]);
        let known = sum(&written(&without), &with_it);
        assert_eq!(written(&plan), known, "{plan:?} {place}");
    }
}

/// The polynomial of these numbers, with one chance for all links, lies within the finished figure.
#[test]
fn the_polynomial_lies_within_the_figure() {
    let mut random = Random::new(191);
    let mut split = 0;
    for i in 0..400 {
        let nodes = 3 + random.below(9) as u8;
        let mut plan = match i % 2 {
            0 => any_plan(&mut random, MOST_COUNTED),
            _ => Plan::meshed(&mut random, nodes, MOST_COUNTED),
        };
        let counts = written(&plan);
        for chance in [
            0,
            1,
            HALF,
            S / 10 * 9,
            S - 1,
            S,
            random.below(S as usize) as u32,
        ] {
            plan.links.iter_mut().for_each(|link| link.value = chance);
            let file = &plan.bytes();
            let answer = held_call(&Call::figure(file, MOST_STEPS), 16)
                .unwrap()
                .unwrap();
            assert!(answer.finished && answer.high - answer.low <= widest(&plan));
            let exact = Exact::of_counts(&counts, chance);
            assert!(exact.is_enclosed_by(&answer), "{plan:?} {answer:?}");
            split += usize::from(answer.steps > 0);
        }
    }
    assert!(split > 500, "too few that take a split: {split}");
}

/// Rows of every length up to 40: below m + 1 refused and untouched, from there on written up to place m.
#[test]
fn rows_of_every_length() {
    let mut random = Random::new(192);
    for count in [0, 1, 2, 6, 13, 23, 24] {
        for _ in 0..3 {
            let nodes = 1 + random.below(10) as u8;
            let file = &Plan::random_of(&mut random, nodes, count).bytes();
            for room in 0..=40 {
                let refused = held(file, room).err();
                assert_eq!(refused, (room <= count).then_some(16), "{file:?} {room}");
            }
        }
    }
}

/// Rows of many numbers, whose count in 16 or 17 bits is too small or nothing.
#[test]
fn rows_of_many_numbers() {
    let file = &Plan::complete(4, HALF).bytes();
    for room in [1 << 13, 1 << 16, (1 << 16) + 6, (1 << 16) + 7, 1 << 17] {
        assert!(held(file, room).is_ok(), "{room}");
    }
}

/// No numbers at no address are too few, and no bytes at no address no plan; a file that is refused is refused all the same.
#[test]
fn nothing_at_no_address() {
    let mut random = Random::new(193);
    assert_eq!(counts_into_nothing(&Plan::new(1, &[]).bytes()), 16);
    assert_eq!(counts_into_nothing(&Plan::complete(4, HALF).bytes()), 16);
    assert_eq!(
        counts_into_nothing(&Plan::random_of(&mut random, 9, 25).bytes()),
        15
    );
    assert_eq!(counts_into_nothing(&[]), 1);
    let mut row = row_pattern(30);
    assert_eq!(counts_of_nothing(&mut row), 1);
    assert_eq!(row, row_pattern(30));
}

/// From 25 links on a plan is refused, whatever the row; at 24 it is not.
#[test]
fn more_than_24_links() {
    let mut random = Random::new(194);
    for count in 22..=64 {
        for nodes in [1, 2, 9, 32] {
            let file = &Plan::random_of(&mut random, nodes, count).bytes();
            for room in [0, 1, 24, 25, 26, count, count + 1, count + 2, 80] {
                let number = match count {
                    25.. => Some(15),
                    _ => (room <= count).then_some(16),
                };
                assert_eq!(held(file, room).err(), number, "{count} {room}");
            }
        }
    }
}

/// A plan that is refused itself is refused so, with too many links too and whatever the row.
#[test]
fn the_plans_own_refusals_come_first() {
    let mut random = Random::new(195);
    for count in [3, 24, 25, 40, 64] {
        let good = Plan::random_of(&mut random, 9, count);
        for room in [0, count, count + 1, 70] {
            let refused = |number: u64, spoil: &dyn Fn(&mut Plan)| {
                let mut plan = good.clone();
                spoil(&mut plan);
                assert_eq!(held(&plan.bytes(), room), Err(number));
            };
            refused(2, &|plan| plan.nodes = 0);
            refused(2, &|plan| plan.nodes = 33);
            refused(3, &|plan| plan.links.resize(65, good.links[0]));
            for i in [0, 1, count - 1] {
                let at = 256 * i as u64;
                refused(5 + at, &|plan| plan.links[i].ends[0] = 9);
                refused(5 + at, &|plan| plan.links[i].ends[1] = 255);
                refused(6 + at, &|plan| plan.links[i].value = S + 1);
                refused(6 + at, &|plan| plan.links[i].value = LENGTH + 512);
            }
            let file = good.bytes();
            assert_eq!(held(&file[..3], room), Err(1));
            assert_eq!(held(&file[..file.len() - 1], room), Err(4));
            assert_eq!(held(&[&file[..], &[0]].concat(), room), Err(4));
        }
    }
}

/// The sizes at their most: 32 nodes, 24 links, and many bytes behind a plan.
#[test]
fn the_largest_sizes() {
    let wide: Vec<[u8; 2]> = (8..32).map(|v| [v, v - 1]).collect();
    hold_row(&of(32, &wide), &[0; 25]);
    for value in [S, LENGTH + 511] {
        let plan = Plan::alike(25, value, &path(25));
        assert_eq!(row(&plan)[24], 1);
        for more in [1 << 16, 1 << 17, 3 << 16] {
            let longer = [plan.bytes(), vec![0; more]].concat();
            assert_eq!(held(&longer, 25), Err(4));
        }
    }
}

/// Plans at even and odd addresses.
#[test]
fn plans_at_any_address() {
    let mut random = Random::new(196);
    for _ in 0..20 {
        let file = any_plan(&mut random, 14).bytes();
        for first in 0..16 {
            let lent = [vec![0xee; first], file.clone()].concat();
            assert!(held(&lent[first..], 15).is_ok(), "{first}");
        }
    }
}

#[test]
fn damaged_files() {
    let mut random = Random::new(197);
    let (mut accepted, mut refused) = (0, [0; 17]);
    for (count, most) in [(40, 9), (6, 24), (6, 30)] {
        for _ in 0..count {
            let file = any_plan(&mut random, most).bytes();
            for file in damaged(&mut random, &file) {
                let room = random.below(8) * random.below(8);
                match held(&file, room) {
                    Ok(_) => accepted += 1,
                    Err(number) => refused[number as usize % 256] += 1,
                }
            }
        }
    }
    let met = |number: &usize| refused[*number] > 10;
    let all = [1, 2, 3, 4, 5, 6, 15, 16];
    assert!(
        accepted > 500 && all.iter().all(met),
        "{accepted} {refused:?}"
    );
}

/// Each sample plan of at most 24 links; the mesh has more.
#[test]
fn sample_plans() {
    let mut counted = 0;
    for name in plans_with("plan") {
        let file = plan(&name);
        match held(&file, 25) {
            Ok(_) => counted += 1,
            Err(number) => assert_eq!((&name[..], number), ("mesh", 15)),
        }
    }
    assert!(counted >= 7, "too few: {counted}");
}
