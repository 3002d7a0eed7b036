//! The link that is split on: by plans whose split is known by hand, and by others on which a wrong choice would be another. Which
//! link it is shows in the saved work.

use outside::arithmetic::S;
use outside::calls::{answer_of, held, Call};
use outside::plans::{Plan, LENGTH};
use outside::random::Random;
use outside::rule::{figure_by, needed, needed_by, Answer, Choice, Network, CHOICES};
use outside::sittings::{
    self, ends_left, places_chosen, Begun, Sat, Sitting, NOTHING, RUNNING, WORK,
};

const HALF: u32 = S / 2;

fn sat(plan: &[u8], limit: u64, saved: &[u8]) -> Sat {
    sittings::held(&Sitting { plan, limit, saved }).unwrap()
}

/// The places of the splits that are open after so many steps.
fn open(plan: &Plan, limit: u64) -> Vec<u32> {
    let sat = sat(&plan.bytes(), limit, &NOTHING);
    assert_eq!(sat.work[2], 0, "the work is begun: {plan:?}");
    Begun::of(&sat.work).places
}

/// Where the first split is of a plan that needs more than one.
fn first_split(plan: &Plan) -> u32 {
    open(plan, 1)[0]
}

fn answer(sat: &Sat) -> Answer {
    answer_of(sat.answer[..].try_into().unwrap())
}

/// The links of the complete graph on these nodes.
fn all_between(nodes: &[u8]) -> Vec<[u8; 2]> {
    let with = |i: usize| nodes[..i].iter().map(move |a| [*a, nodes[i]]);
    (0..nodes.len()).flat_map(with).collect()
}

/// A ring of so many nodes, from this one on.
fn ring(from: u8, count: u8) -> Vec<[u8; 2]> {
    (0..count)
        .map(|i| [from + i, from + (i + 1) % count])
        .collect()
}

fn count_at(ends: &[[u8; 2]], node: u8) -> usize {
    ends.iter().filter(|ends| ends.contains(&node)).count()
}

/// The sums of the two counts at each link.
fn sums(ends: &[[u8; 2]], count: impl Fn(u8) -> usize) -> Vec<usize> {
    ends.iter().map(|[a, b]| count(*a) + count(*b)).collect()
}

fn earliest_of_the_largest(sums: &[usize]) -> usize {
    let most = sums.iter().max().unwrap();
    sums.iter().position(|sum| sum == most).unwrap()
}

/// Five nodes, each two joined by a half: the fresh figure, and the one carried on from three steps by the first link. They differ.
#[test]
fn five_nodes() {
    let file = &Plan::complete(5, HALF).bytes();
    let whole = |low, high| Answer {
        low,
        high,
        steps: 5,
        finished: true,
    };
    let fresh = whole(710_937_498, 710_937_502);
    let call = Call::figure(file, 20_000);
    assert_eq!(held(&call, 24), Ok(Some(fresh)));
    assert_eq!(answer(&sat(file, 20_000, &NOTHING)), fresh);
    let first = Sitting {
        plan: file,
        limit: 3,
        saved: &NOTHING,
    };
    let old = first.outcome_by(Choice::FirstLink, 16, WORK).unwrap().work;
    assert_eq!(Begun::of(&old).places, [0, 0]);
    let carried = sat(file, 20_000, &old);
    assert_eq!(answer(&carried), whole(710_937_499, 710_937_502));
    let by_steps = sat(file, 2, &sat(file, 0, &old).work);
    assert_eq!(by_steps, carried);
}

/// Where all sums are equal it is the first link; where several are largest, the earliest of them, wherever the others stand.
#[test]
fn the_earliest_of_equal_sums() {
    for nodes in [5, 6, 7, 8] {
        assert_eq!(first_split(&Plan::complete(nodes, HALF)), 0);
    }
    // A ring of seven with node 0 joined to all but its neighbours, and node 3 to node 5: 0 to 3 and 0 to 5 have the largest sum.
    let mut ends = ring(0, 7);
    ends.extend([[0, 2], [0, 3], [3, 5], [5, 0], [0, 4]]);
    ends.extend([[2, 6], [1, 4], [1, 6]]);
    let plan = |ends: &[[u8; 2]]| Plan::alike(7, HALF, ends);
    let mut random = Random::new(121);
    let mut places = Vec::new();
    for _ in 0..200 {
        random.shuffle(&mut ends);
        let sums = sums(&ends, |v| count_at(&ends, v));
        let earliest = earliest_of_the_largest(&sums);
        let most = sums[earliest];
        assert!(sums.iter().filter(|sum| **sum == most).count() > 1);
        assert_eq!(first_split(&plan(&ends)), earliest as u32, "{ends:?}");
        places.push(earliest);
    }
    places.sort();
    places.dedup();
    assert!(places.len() > 5, "{places:?}");
}

/// A hub with eight spokes to nodes of three links, sum 11 and product 24, beside six nodes of five links, sum 10 and product 25.
fn hub_and_six() -> Vec<[u8; 2]> {
    let spokes = (0..10).filter(|v| v % 5 > 0).map(|v| [v, 10]);
    let six = all_between(&[11, 12, 13, 14, 15, 16]);
    let mut ends: Vec<[u8; 2]> = six.into_iter().filter(|ends| *ends != [11, 16]).collect();
    ends.extend(ring(0, 10));
    ends.extend([[0, 11], [16, 5]]);
    ends.extend(spokes);
    ends
}

#[test]
fn the_sum_and_not_the_product() {
    let mut ends = hub_and_six();
    let mut random = Random::new(122);
    for _ in 0..20 {
        let plan = Plan::alike(17, HALF, &ends);
        let spoke = ends.iter().position(|ends| ends.contains(&10));
        assert_eq!(first_split(&plan), spoke.unwrap() as u32);
        random.shuffle(&mut ends);
    }
}

/// The sum of both ends: a link between two nodes of five against the spokes of a hub with six, to nodes of three.
#[test]
fn the_sum_and_not_one_end() {
    let spokes = (0..8).filter(|v| v % 4 > 0).map(|v| [v, 8]);
    let six = all_between(&[9, 10, 11, 12, 13, 14]);
    let mut ends: Vec<[u8; 2]> = spokes.chain(ring(0, 8)).collect();
    ends.extend([[0, 9], [14, 4]]);
    let before = ends.len() as u32;
    ends.extend(six.into_iter().filter(|ends| *ends != [9, 14]));
    let plan = Plan::alike(15, HALF, &ends);
    assert_eq!(first_split(&plan), before);
}

/// The counts are those of the network then left. Links side by side, loops, ends and nodes with two links are gone by then; at the
/// second split so are those that the first one took.
#[test]
fn the_counts_of_the_network_left() {
    let five = || Plan::complete(5, HALF);
    let with = |nodes: u16, more: &[[u8; 2]]| {
        let mut plan = five();
        plan.nodes = nodes;
        plan.links.extend(Plan::alike(nodes, HALF, more).links);
        plan
    };
    let side_by_side = with(5, &[[3, 4], [4, 3], [3, 4]]);
    let loops = with(5, &[[4, 4], [3, 3], [4, 4]]);
    let ends = with(9, &[[4, 5], [3, 6], [4, 7], [7, 8]]);
    let twos = with(8, &[[3, 5], [5, 4], [3, 6], [6, 4], [4, 7], [7, 3]]);
    for plan in [five(), side_by_side, loops, ends, twos] {
        assert_eq!(first_split(&plan), 0, "{plan:?}");
        assert_eq!(open(&plan, 3), [0, 4], "{plan:?}");
        assert_eq!(open(&plan, 4), [0, 4, 4], "{plan:?}");
    }
}

/// Links of value 0 and lengths count as others do.
#[test]
fn values_play_no_part() {
    let mut random = Random::new(123);
    let ends = hub_and_six();
    let values = [0, 1, S, HALF, LENGTH, LENGTH + 511];
    for _ in 0..40 {
        let mut plan = Plan::alike(17, HALF, &ends);
        let places = open(&plan, 40);
        for link in &mut plan.links {
            link.value = values[random.below(values.len())];
        }
        assert_eq!(open(&plan, 40), places);
    }
}

/// Of random plans of many links the library's open splits are at the largest sums, at every depth, and few of them at the first link.
#[test]
fn every_open_split() {
    let mut random = Random::new(124);
    let (mut at_first, mut all) = (0, 0);
    for i in 0..150 {
        let file = Plan::meshed(&mut random, 8 + i % 25, 24 + i as usize % 41).bytes();
        let work = sat(&file, 1 + random.up_to(300), &NOTHING).work;
        if work[2] == 1 {
            continue;
        }
        let begun = Begun::of(&work);
        let chosen = places_chosen(&file, &begun);
        for (place, [first, largest]) in begun.places.iter().zip(chosen) {
            assert_eq!(*place, largest);
            at_first += usize::from(*place == first);
            all += 1;
        }
    }
    assert!(all > 1_000 && 4 * at_first < all, "{at_first} of {all}");
}

/// A ring with a hub joined to all its nodes, and a second hub joined to so many of them.
fn hubs(spokes: u8, second: u8) -> Vec<[u8; 2]> {
    let first = (0..spokes).map(|v| [v, spokes]);
    let second = (0..second).map(|v| [spokes + 1, v]);
    ring(0, spokes)
        .into_iter()
        .chain(first)
        .chain(second)
        .collect()
}

/// By the largest count at an open split: how many there were, at how many another link would be taken with counts in four bits, and
/// at how many with sums in five.
type Counts = [[usize; 3]; 32];

fn hold_counts(plan: &Plan, limit: u64, met: &mut Counts) {
    let file = plan.bytes();
    let work = sat(&file, limit, &NOTHING).work;
    sat(&file, 3, &work);
    if work[2] == 1 {
        return;
    }
    let begun = Begun::of(&work);
    for (place, ends) in begun.places.iter().zip(ends_left(&file, &begun)) {
        let count = |v| count_at(&ends, v);
        let right = sums(&ends, count);
        let four_bits = sums(&ends, |v| count(v) % 16);
        let five_bits: Vec<usize> = right.iter().map(|sum| sum % 32).collect();
        let [right, four, five] =
            [right, four_bits, five_bits].map(|s| earliest_of_the_largest(&s));
        assert_eq!(*place, right as u32, "{ends:?}");
        let met = &mut met[(0..32).map(count).max().unwrap()];
        met[0] += 1;
        met[1] += usize::from(four != right);
        met[2] += usize::from(five != right);
    }
}

/// Counts up to 31, of one hub and of two, in any order of the links. Those from 16 to 24 decide: in four bits another link would
/// have the largest sum. So do sums from 32 on in five bits.
#[test]
fn large_counts() {
    let mut random = Random::new(126);
    let mut met: Counts = [[0; 3]; 32];
    let one = (16..=31).map(|spokes| (spokes, 0));
    let two = (16..=26).flat_map(|spokes| [3, 7, 11].map(|second| (spokes, second)));
    let large = [(16, 15), (16, 16), (17, 16), (17, 17), (20, 17), (21, 21)];
    for (spokes, second) in one.chain(two).chain(large) {
        let mut ends = hubs(spokes, second);
        let nodes = u16::from(spokes) + 1 + u16::from(second > 0);
        for limit in [1, 5, 12, 20] {
            random.shuffle(&mut ends);
            hold_counts(&Plan::alike(nodes, HALF, &ends), limit, &mut met);
        }
    }
    assert!(met[16..].iter().all(|[all, ..]| *all > 1), "{met:?}");
    assert!(met[16..25].iter().all(|[_, four, _]| *four > 3), "{met:?}");
    assert!(met[29..].iter().all(|[.., five]| *five > 1), "{met:?}");
}

/// Both rules enclose: where both figures are finished, the one's low is not above the other's high.
#[test]
fn figures_by_either_choice() {
    let mut random = Random::new(125);
    let mut different = [0; 2];
    for i in 0..250 {
        let plan = Plan::meshed(&mut random, 8 + i % 5, 16 + i as usize % 9);
        let network = || Network::from(&plan);
        let [first, largest] = CHOICES.map(|choice| figure_by(choice, network(), 1_000_000));
        assert!(first.finished && largest.finished);
        assert!(first.low <= largest.high && largest.low <= first.high);
        let steps = [first.steps, largest.steps];
        assert_eq!(steps, CHOICES.map(|choice| needed_by(choice, network())));
        assert_eq!(largest.steps, needed(network()));
        different[0] += usize::from(first.steps < largest.steps);
        different[1] += usize::from(first.steps > largest.steps);
        let (plan, limit) = (&plan.bytes(), largest.steps);
        let whole = held(&Call::figure(plan, limit), 16).unwrap().unwrap();
        assert!(whole.finished && whole.steps == limit);
    }
    assert!(different.iter().all(|count| *count > 4), "{different:?}");
}

/// The places of open splits by either choice on the four-cabinet plan: its one split is at the first link by both.
#[test]
fn four_nodes() {
    let file = Plan::complete(4, HALF).bytes();
    for pair in [RUNNING, [S / 4 * 3; 2]] {
        let begun = |place| Begun {
            places: vec![place],
            pairs: vec![pair],
            steps: 1,
        };
        assert_eq!(places_chosen(&file, &begun(0)), [[0, 0]]);
        let end = answer(&sat(&file, 0, &begun(0).bytes()));
        let (low, high) = (593_749_999, 593_750_001);
        assert_eq!((end.low, end.high, end.steps), (low, high, 1));
        for place in 1..=64 {
            let (plan, limit, saved) = (&file, 0, &begun(place).bytes());
            let refused = sittings::held(&Sitting { plan, limit, saved });
            assert_eq!(refused, Err(11), "{place}");
        }
    }
}
