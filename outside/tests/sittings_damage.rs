//! Saved work damaged, cut, lengthened and made up: every outcome is the independent version's, and a refusal leaves both buffers
//! as they were.

use outside::arithmetic::S;
use outside::calls::MOST_STEPS;
use outside::plans::{damaged, Plan};
use outside::random::Random;
use outside::repository::plan;
use outside::rule::{needed, Network};
use outside::sittings::{
    held, held_into, most_open, most_splits, places_chosen, sizes, Begun, Sitting, MOST_OPEN,
    NOTHING, RUNNING, WORK,
};

/// How many outcomes there were of each kind.
#[derive(Debug, Default)]
struct Tried {
    accepted: usize,
    tens: usize,
    elevens: usize,
}

impl Tried {
    /// Makes the call with this saved work, and says what it returned.
    fn hold(&mut self, plan: &[u8], limit: u64, saved: &[u8]) -> u64 {
        let outcome = held(&Sitting { plan, limit, saved });
        let number = outcome.err().unwrap_or(0);
        match number {
            0 => self.accepted += 1,
            10 => self.tens += 1,
            11 => self.elevens += 1,
            other => panic!("returned {other}"),
        }
        number
    }

    fn least(&self) -> usize {
        self.accepted.min(self.tens).min(self.elevens)
    }
}

/// A plan and its work, saved after each of a few numbers of steps, the last time complete.
struct Worked {
    plan: Vec<u8>,
    saved: Vec<Vec<u8>>,
}

fn worked(plan: &Plan, count: u64) -> Worked {
    let splits = needed(Network::from(plan)).min(20_000);
    let plan = plan.bytes();
    let deepest = most_open(&plan, splits).1;
    let mut limits: Vec<u64> = (0..count).map(|i| i * splits / count).collect();
    limits.extend([1.min(splits), deepest, splits]);
    let saved = |limit: &u64| {
        let (plan, limit, saved) = (&plan[..], *limit, &NOTHING[..]);
        held(&Sitting { plan, limit, saved }).unwrap().work
    };
    let saved = limits.iter().map(saved).collect();
    Worked { plan, saved }
}

/// Dense plans of few and many open splits.
fn several(random: &mut Random) -> Vec<Worked> {
    let mut all = vec![
        worked(&Plan::complete(4, S / 2), 1),
        worked(&Plan::complete(7, S / 3), 4),
    ];
    while all.len() < 12 {
        let (nodes, count) = (5 + random.below(6) as u8, 14 + random.below(12));
        let plan = Plan::random_of(random, nodes, count);
        if needed(Network::from(&plan)) > 6 {
            all.push(worked(&plan, 4));
        }
    }
    all
}

fn limit(random: &mut Random) -> u64 {
    match random.below(4) {
        0 => 0,
        _ => random.of_any_size(300),
    }
}

/// Each byte with each bit turned, cleared, filled, and one more and one less.
#[test]
fn every_byte() {
    let mut random = Random::new(101);
    let mut tried = Tried::default();
    for Worked { plan, saved } in several(&mut random) {
        for saved in saved {
            for i in 0..saved.len() {
                let old = saved[i];
                let near = [0, 1, 0xff, old.wrapping_add(1), old.wrapping_sub(1)];
                for new in (0..8).map(|bit| old ^ 1 << bit).chain(near) {
                    let mut saved = saved.clone();
                    saved[i] = new;
                    tried.hold(&plan, limit(&mut random), &saved);
                }
            }
        }
    }
    assert!(tried.least() > 2_000, "{tried:?}");
}

/// Two bytes at once, and random bytes behind random sizes.
#[test]
fn several_bytes() {
    let mut random = Random::new(102);
    let mut tried = Tried::default();
    for Worked { plan, saved } in several(&mut random) {
        for saved in &saved {
            for _ in 0..400 {
                let mut saved = saved.clone();
                for _ in 0..2 + random.below(3) {
                    let i = random.below(saved.len());
                    saved[i] = match random.below(3) {
                        0 => 0,
                        1 => 1,
                        _ => random.next() as u8,
                    };
                }
                tried.hold(&plan, limit(&mut random), &saved);
            }
        }
        for _ in 0..300 {
            let count = random.of_any_size(70) as usize;
            let mut saved = sizes(
                count,
                random.below(3) as u16,
                random.next() as u32 % 1_000_002,
            );
            let length = random.below(2) * 12 * count + random.below(2) * 16;
            saved.extend((0..length).map(|_| random.next() as u8 & random.next() as u8));
            tried.hold(&plan, limit(&mut random), &saved);
        }
    }
    assert!(tried.least() > 200, "{tried:?}");
}

/// Lengths that a good one would be taken for, were it read in 10 to 17 bits.
fn longer_by_powers(good: usize) -> impl Iterator<Item = usize> {
    let lengths = [0, 8, 24, good - 1, good, good + 1];
    (10..=17).flat_map(move |bits| lengths.map(|length| (1 << bits) + length))
}

/// Nothing but the length itself is accepted: not one byte less or more, nor the whole buffer.
#[test]
fn every_length() {
    let mut random = Random::new(103);
    let mut tried = Tried::default();
    for Worked { plan, saved } in several(&mut random) {
        for saved in saved {
            assert_eq!(tried.hold(&plan, 5, &saved), 0);
            for cut in 0..saved.len() {
                assert_eq!(tried.hold(&plan, 5, &saved[..cut]), 10, "{cut}");
            }
            let lengths = saved.len() + 1..=WORK + 13;
            for length in lengths.chain(longer_by_powers(saved.len())) {
                let mut longer = saved.clone();
                let filled = random.next() as u8 * random.below(2) as u8;
                longer.resize(length, filled);
                assert_eq!(tried.hold(&plan, 5, &longer), 10, "{length}");
            }
        }
    }
    assert!(tried.accepted > 50 && tried.tens > 5_000, "{tried:?}");
}

/// Each size at its edges, with the bytes that the count asks for, and without.
#[test]
fn every_size() {
    let mut random = Random::new(104);
    let mut tried = Tried::default();
    for Worked { plan, saved } in several(&mut random) {
        for saved in saved {
            let steps = u32::from_le_bytes(saved[4..8].try_into().unwrap());
            for count in (0..=66).chain([255, 256, 257, 512, 65_535]) {
                for state in [0, 1, 2, 3, 255, 256, 65_535] {
                    let mut other = [&sizes(count, state, steps), &saved[8..]].concat();
                    tried.hold(&plan, 3, &other);
                    other.resize(8 + 12 * count.min(70), 0);
                    tried.hold(&plan, 3, &other);
                    other.resize(24, 0);
                    tried.hold(&plan, 3, &other);
                }
            }
            for steps in [
                0,
                1,
                65_536,
                999_999,
                1_000_000,
                1_000_001,
                1 << 31,
                u32::MAX,
            ] {
                let mut other = saved.clone();
                other[4..8].copy_from_slice(&steps.to_le_bytes());
                for limit in [0, 2, MOST_STEPS] {
                    let number = tried.hold(&plan, limit, &other);
                    assert_eq!(number == 10, steps > 1_000_000, "{steps}");
                }
            }
        }
    }
    assert!(tried.least() > 100, "{tried:?}");
}

/// 64 open splits are not too many for the saved work, but for any plan: 11. Of 65 it is 10. Of pairs the last is looked at too.
#[test]
fn sixty_four_open_splits_and_one_more() {
    let mesh = plan("mesh");
    let mut tried = Tried::default();
    for pair in [RUNNING, [0, S], [5, 5]] {
        let work = |count| Begun {
            places: vec![0; count],
            pairs: vec![pair; count],
            steps: 70,
        };
        assert_eq!(tried.hold(&mesh, 1, &work(MOST_OPEN).bytes()), 11);
        assert_eq!(tried.hold(&mesh, 1, &work(MOST_OPEN + 1).bytes()), 10);
        for i in 0..MOST_OPEN {
            let mut wrong = work(MOST_OPEN);
            wrong.pairs[i] = [2, 1];
            assert_eq!(tried.hold(&mesh, 1, &wrong.bytes()), 10, "pair {i}");
        }
    }
}

/// Saved work with open splits of both kinds, as many of each as one run of the plan gives.
fn with_open_splits(least: usize) -> Vec<(Vec<u8>, Begun)> {
    let mut random = Random::new(105);
    let mut all = Vec::new();
    while all.len() < 12 {
        let (nodes, count) = (8 + random.below(4) as u8, 24 + random.below(8));
        let plan = Plan::random_of(&mut random, nodes, count).bytes();
        let limit = random.up_to(900);
        let saved = &NOTHING;
        let (plan, saved) = (&plan[..], &saved[..]);
        let work = held(&Sitting { plan, limit, saved }).unwrap().work;
        if work[2] == 1 {
            continue;
        }
        let begun = Begun::of(&work);
        let known = begun.pairs.iter().filter(|pair| **pair != RUNNING).count();
        if begun.pairs.len() >= least && known > 0 && known < begun.pairs.len() {
            all.push((plan.to_vec(), begun));
        }
    }
    all
}

/// Saved work with the most open splits: 55, and the 32 of the plan with the deepest branch.
fn with_most_open_splits() -> [(Vec<u8>, Begun); 2] {
    let (plan, work) = most_splits();
    let deepest = Plan::deepest().bytes();
    let first = Sitting {
        plan: &deepest,
        limit: 26_894,
        saved: &NOTHING,
    };
    let begun = Begun::of(&held(&first).unwrap().work);
    assert_eq!([work.places.len(), begun.places.len()], [55, 32]);
    [(plan.bytes(), work), (deepest, begun)]
}

/// A place that no link has.
const NO_PLACE: u32 = 64;

const PLACES: [u32; 12] = [
    0,
    1,
    2,
    3,
    63,
    NO_PLACE,
    255,
    256,
    65_536,
    1 << 24,
    1 << 31,
    u32::MAX,
];

/// Each place with other numbers: 11, whichever open split it is, but for the two places that may be chosen there.
#[test]
fn every_place() {
    let mut tried = Tried::default();
    for (plan, work) in with_open_splits(4)
        .into_iter()
        .chain(with_most_open_splits())
    {
        assert_eq!(tried.hold(&plan, 7, &work.bytes()), 0);
        for (i, chosen) in places_chosen(&plan, &work).iter().enumerate() {
            for place in PLACES.into_iter().filter(|place| !chosen.contains(place)) {
                let mut other = work.clone();
                other.places[i] = place;
                assert_eq!(tried.hold(&plan, 7, &other.bytes()), 11, "{i}: {place}");
            }
        }
    }
    assert!(tried.elevens > 1_400, "{tried:?}");
}

/// Each pair with each two of some numbers: 10 where one is above S or low is above high, but for the running mark.
#[test]
fn every_pair() {
    let numbers = [0, 1, 2, S / 2, S - 1, S, S + 1, 1 << 31, u32::MAX];
    let mut tried = Tried::default();
    for (plan, work) in with_open_splits(3) {
        for i in 0..work.pairs.len() {
            for (low, high) in numbers.iter().flat_map(|a| numbers.map(|b| (*a, b))) {
                let mut other = work.clone();
                other.pairs[i] = [low, high];
                let number = tried.hold(&plan, 7, &other.bytes());
                let fine = low <= high && high <= S || (low, high) == (1, 0);
                assert_eq!(number == 10, !fine, "{i}: {low} {high}");
                let last = i + 1 == work.pairs.len();
                assert!(!(fine && last) || number == 0, "{i}: {low} {high}");
            }
        }
    }
    assert!(tried.least() > 100, "{tried:?}");
}

/// A wrong place and, at any open split, a wrong pair: 10 comes first. So it does where only the sizes are wrong.
#[test]
fn ten_before_eleven() {
    let mut tried = Tried::default();
    for (plan, work) in with_open_splits(3) {
        for i in 0..work.places.len() {
            for j in 0..work.pairs.len() {
                for pair in [[2, 1], [S + 1, S + 1], [1, S + 1], [S, 0]] {
                    let mut other = work.clone();
                    other.places[i] = NO_PLACE;
                    assert_eq!(tried.hold(&plan, 7, &other.bytes()), 11);
                    other.pairs[j] = pair;
                    assert_eq!(tried.hold(&plan, 7, &other.bytes()), 10);
                }
            }
            let mut other = work.clone();
            other.places[i] = NO_PLACE;
            other.steps = 1_000_001;
            assert_eq!(tried.hold(&plan, 7, &other.bytes()), 10);
            other.steps = 1_000_000;
            let mut longer = other.bytes();
            assert_eq!(tried.hold(&plan, 7, &longer), 11);
            longer.push(0);
            assert_eq!(tried.hold(&plan, 7, &longer), 10);
        }
    }
}

/// One open split less and more than the work has: the one more is refused where the rule comes to no split.
#[test]
fn open_splits_left_out_and_put_in() {
    let mut tried = Tried::default();
    for (plan, work) in with_open_splits(3) {
        for i in 0..work.places.len() {
            let mut less = work.clone();
            less.places.remove(i);
            less.pairs.remove(i);
            tried.hold(&plan, 20, &less.bytes());
            for pair in [RUNNING, [0, S], work.pairs[i]] {
                let mut more = work.clone();
                more.places.insert(i, 0);
                more.pairs.insert(i, pair);
                tried.hold(&plan, 20, &more.bytes());
            }
        }
        for pair in [RUNNING, [S / 2, S]] {
            let mut more = work.clone();
            let mut number = 0;
            while number == 0 {
                more.places.push(0);
                more.pairs.push(pair);
                number = tried.hold(&plan, 20, &more.bytes());
            }
            assert!(more.places.len() > work.places.len() + 1);
            assert_eq!(number, 11);
        }
    }
    assert!(tried.accepted.min(tried.elevens) > 20, "{tried:?}");
}

/// Running for known and known for running, at each open split.
#[test]
fn marks_exchanged() {
    let mut tried = Tried::default();
    for (plan, work) in with_open_splits(3) {
        for i in 0..work.pairs.len() {
            let mut other = work.clone();
            other.pairs[i] = match other.pairs[i] {
                RUNNING => [S / 3, S / 2],
                _ => RUNNING,
            };
            for limit in [0, 1, 30, 2_000] {
                tried.hold(&plan, limit, &other.bytes());
            }
        }
    }
    assert!(tried.accepted.min(tried.elevens) > 20, "{tried:?}");
}

/// Saved work of other plans.
#[test]
fn of_another_plan() {
    let mut random = Random::new(106);
    let all = several(&mut random);
    let mut tried = Tried::default();
    for Worked { plan, .. } in &all {
        for saved in all.iter().flat_map(|worked| &worked.saved) {
            tried.hold(plan, limit(&mut random), saved);
        }
    }
    assert!(tried.accepted.min(tried.elevens) > 200, "{tried:?}");
}

/// Plans that come to their end without a split have none that could be open.
#[test]
fn of_plans_without_a_split() {
    let parted = Plan::new(2, &[]);
    let tree = Plan::new(3, &[(0, 1, S), (1, 2, S / 2)]);
    let plans = [Plan::new(1, &[]), parted, tree, Plan::complete(3, S / 2)];
    let mut tried = Tried::default();
    for plan in plans.map(|plan| plan.bytes()) {
        for pair in [RUNNING, [0, S]] {
            let work = Begun {
                places: vec![0],
                pairs: vec![pair],
                steps: 1,
            };
            assert_eq!(tried.hold(&plan, 9, &work.bytes()), 11);
        }
        let steps = 123;
        let work = Begun {
            steps,
            ..Begun::default()
        };
        assert_eq!(tried.hold(&plan, 9, &work.bytes()), 0);
    }
}

/// Damaged plans with good saved work, and with damaged: the plan's own refusals come first.
#[test]
fn damaged_plans() {
    let mut random = Random::new(107);
    let (mut refused, mut accepted) = (0, 0);
    for (file, work) in with_open_splits(3) {
        let good = work.bytes();
        let mut wrong = work;
        wrong.pairs[0] = [9, 8];
        for plan in damaged(&mut random, &file) {
            for saved in [&good, &wrong.bytes()] {
                let limit = random.up_to(40);
                let sitting = Sitting {
                    plan: &plan,
                    limit,
                    saved,
                };
                match held_into(&sitting, 20, WORK + 9) {
                    Err(number) => refused += usize::from(number % 256 < 7),
                    Ok(_) => accepted += 1,
                }
            }
        }
    }
    assert!(refused > 2_000 && accepted > 500, "{refused} {accepted}");
}
