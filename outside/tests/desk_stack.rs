//! Whole calls at the largest sizes, on a stack of 512 KiB, and in eight threads at once.

use outside::arithmetic::S;
use outside::calls::{left, Call, Outcome, MOST_STEPS};
use outside::counting::{self, MOST_COUNTED};
use outside::desk::{
    counted, hold, hold_counts, hold_game, hold_sitting, made, pattern, played, row_left,
    row_pattern, sat,
};
use outside::game::{self, Winners, GAME};
use outside::plans::Plan;
use outside::random::Random;
use outside::repository::plan;
use outside::rule::{needed, Choice, Network};
use outside::sittings::{self, most_open_by, most_splits, Sat, Sitting, NOTHING, RUNNING, WORK};
use outside::tables::{Table, Under};
use std::thread;

const STACK: usize = 512 * 1024;

/// Makes the call on a thread with a stack of that size, where an overrun ends the whole test.
fn on_a_small_stack<'a>(call: impl Into<Under<'a, Call<'a>>>) {
    let call = call.into();
    let mut buffer = pattern(24);
    let before = buffer.clone();
    let returned = thread::scope(|scope| {
        let small = thread::Builder::new().stack_size(STACK);
        let run = small.spawn_scoped(scope, || made(call, &mut buffer));
        run.unwrap().join().unwrap()
    });
    assert_eq!((returned, buffer), left(&call.outcome(24), &before));
}

#[test]
fn the_worst_chain_of_splits() {
    assert_eq!(needed(Network::from(&Plan::deepest())), 27_368);
    let plan = &Plan::deepest().bytes();
    let limit = MOST_STEPS;
    on_a_small_stack(&Call::Check { plan });
    on_a_small_stack(&Call::figure(plan, limit));
    on_a_small_stack(&Call::Importance {
        plan,
        place: 63,
        limit,
    });
    on_a_small_stack(&Call::Difference {
        a: plan,
        b: plan,
        limit,
    });
}

/// The same with some nodes chosen: two of the ring, its ends and the path's, one behind the other, all but some.
#[test]
fn the_worst_chain_of_splits_with_chosen_nodes() {
    let plan = &Plan::deepest().bytes();
    let (ring, path): (u64, u64) = (0x3ff, 0xffff_fc00);
    for choice in [
        3,
        0x201,
        1 | 1 << 31,
        ring,
        path,
        !1 & ring,
        !0x100 & (ring | path),
    ] {
        for limit in [40, 4_000] {
            on_a_small_stack(&Call::Figure {
                plan,
                choice,
                limit,
            });
        }
    }
}

/// The same with each link a length, under a buyer's table; set aside and carried on too.
#[test]
fn the_worst_chain_of_splits_under_a_table() {
    let mut random = Random::new(72);
    let plan = Plan::deepest().with_lengths(&mut random, 10);
    let (plan, table) = (&plan.bytes(), &Table::telling().bytes());
    let (a, b, place, limit) = (plan, plan, 63, MOST_STEPS);
    on_a_small_stack(Call::figure(plan, limit).under(table));
    on_a_small_stack(Call::Importance { plan, place, limit }.under(table));
    on_a_small_stack(Call::Difference { a, b, limit }.under(table));
    let mut saved = NOTHING.to_vec();
    for limit in [26_894, 1, MOST_STEPS] {
        let sitting = Sitting {
            plan,
            limit,
            saved: &saved,
        };
        saved = sitting_on_a_small_stack(sitting.under(table)).work;
    }
    assert_eq!(saved[2], 1);
}

/// The most stack of the engine that a search has found.
#[test]
fn the_most_stack_found() {
    let plan = &Plan::most_stack().bytes();
    let limit = 3_000;
    on_a_small_stack(&Call::figure(plan, limit));
    on_a_small_stack(&Call::Importance {
        plan,
        place: 0,
        limit,
    });
    on_a_small_stack(&Call::Difference {
        a: plan,
        b: plan,
        limit,
    });
    let saved = &NOTHING;
    sitting_on_a_small_stack(&Sitting { plan, limit, saved });
}

#[test]
fn sixty_four_loops_and_parallels() {
    for ends in [[0, 0], [0, 1]] {
        let plan = &Plan::alike(2, S / 2, &[ends; 64]).bytes();
        let limit = 0;
        on_a_small_stack(&Call::figure(plan, limit));
        on_a_small_stack(&Call::Importance {
            plan,
            place: 9,
            limit,
        });
    }
}

/// The same of a sitting, and what it writes.
fn sitting_on_a_small_stack<'a>(sitting: impl Into<Under<'a, Sitting<'a>>>) -> Sat {
    let sitting = sitting.into();
    let [mut answer, mut work] = [24, WORK + 8].map(pattern);
    let before = [answer.clone(), work.clone()];
    let returned = thread::scope(|scope| {
        let small = thread::Builder::new().stack_size(STACK);
        let run = small.spawn_scoped(scope, || sat(sitting, &mut answer, &mut work));
        run.unwrap().join().unwrap()
    });
    let outcome = sitting.outcome(24, WORK + 8);
    let expected = sittings::left(&outcome, &before[0], &before[1]);
    assert_eq!((returned, answer, work), expected);
    outcome.unwrap()
}

/// Set aside where most splits are open, by either choice, carried on by a step, and then to the end.
#[test]
fn the_worst_chain_of_splits_carried_on() {
    for (choice, plan, open, after) in [
        (Choice::FirstLink, Plan::deepest(), 32, 27_250),
        (Choice::LargestSum, Plan::deepest(), 32, 26_894),
        (Choice::LargestSum, Plan::complete(10, S / 3), 37, 40_264),
    ] {
        let plan = &plan.bytes();
        assert_eq!(most_open_by(choice, plan, MOST_STEPS), (open, after));
        let (limit, saved) = (after, &NOTHING);
        let first = Sitting { plan, limit, saved };
        let mut saved = first.outcome_by(choice, 16, WORK).unwrap().work;
        if choice == Choice::LargestSum {
            assert_eq!(saved, sitting_on_a_small_stack(&first).work);
        }
        for (limit, state) in [(0, 0), (1, 0), (MOST_STEPS, 1)] {
            let sitting = Sitting {
                plan,
                limit,
                saved: &saved,
            };
            saved = sitting_on_a_small_stack(&sitting).work;
            assert_eq!(saved[2], state);
        }
    }
}

/// The most open splits that a search has found a plan for, made up by hand; and one more, which no plan of the search has.
#[test]
fn fifty_five_open_splits_carried_on() {
    let (plan, work) = most_splits();
    assert_eq!((plan.links.len(), work.pairs.len()), (64, 55));
    let plan = &plan.bytes();
    for limit in [0, 1, 5, MOST_STEPS] {
        let saved = &work.bytes();
        sitting_on_a_small_stack(&Sitting { plan, limit, saved });
    }
    for pair in [RUNNING, [S, S]] {
        let mut more = work.clone();
        more.places.push(0);
        more.pairs.push(pair);
        let (saved, limit) = (&more.bytes(), 5);
        let sitting = Sitting { plan, limit, saved };
        hold_sitting(&sitting, [16, WORK], &Err(11));
    }
}

/// The same of the counts.
fn counts_on_a_small_stack(plan: &Plan) {
    assert_eq!(plan.links.len(), MOST_COUNTED);
    let file = &plan.bytes();
    let mut row = row_pattern(30);
    let before = row.clone();
    let returned = thread::scope(|scope| {
        let small = thread::Builder::new().stack_size(STACK);
        let run = small.spawn_scoped(scope, || counted(file, &mut row));
        run.unwrap().join().unwrap()
    });
    let expected = row_left(&counting::outcome(file, 30), &before);
    assert_eq!((returned, row), expected, "{plan:?}");
}

/// Plans of 24 links: seven nodes each joined to each and a path of three links at one of them, the most links one behind the other,
/// the most at one node, and those that take longest.
#[test]
fn the_counts_of_24_links() {
    let mut complete = Plan::complete(7, S / 2);
    let path = Plan::alike(10, S / 2, &[[6, 7], [7, 8], [8, 9]]);
    complete.nodes = 10;
    complete.links.extend(path.links);
    let of = |nodes, ends: fn(u8) -> [u8; 2]| {
        let ends: Vec<[u8; 2]> = (0..24).map(ends).collect();
        Plan::alike(nodes, S / 2, &ends)
    };
    for plan in [
        complete,
        Plan::slowest_counted(),
        of(25, |i| [i, i + 1]),
        of(25, |i| [0, i + 1]),
        of(24, |i| [i, (i + 1) % 24]),
        of(13, |i| [i % 12, i % 12 + 1]),
        of(13, |i| [i / 12 * 12, i % 12]),
        of(2, |_| [0, 1]),
        of(1, |_| [0, 0]),
    ] {
        counts_on_a_small_stack(&plan);
    }
}

/// The same of the game.
fn game_on_a_small_stack(plan: &Plan) {
    let file = &plan.bytes();
    let mut buffer = pattern(GAME + 8);
    let before = buffer.clone();
    let returned = thread::scope(|scope| {
        let small = thread::Builder::new().stack_size(STACK);
        let run = small.spawn_scoped(scope, || played(file, &mut buffer));
        run.unwrap().join().unwrap()
    });
    let outcome = game::outcome(file, GAME);
    let left = game::check_left(file, &outcome, returned, [&before, &buffer]);
    assert_eq!(left, Ok(()), "{plan:?}");
}

/// Plans of 64 links: the most nodes one behind the other, twice and with two links over; meshed; a path that no opening saves, beside
/// two trees; few nodes; two trees for which links have to be moved far, with two links over and without.
#[test]
fn the_game_of_64_links() {
    let of = |nodes, ends: fn(u8) -> [u8; 2]| {
        let ends: Vec<[u8; 2]> = (0..64).map(ends).collect();
        Plan::alike(nodes, S / 2, &ends)
    };
    let mut random = Random::new(74);
    let mut far = Plan::moved_far();
    game_on_a_small_stack(&far);
    far.links.extend(Plan::between(&[S / 2; 2]).links);
    for plan in [
        far,
        Plan::hanging_path(&mut random),
        of(32, |i| [i % 31, i % 31 + 1]),
        of(32, |i| [0, i % 31 + 1]),
        of(32, |i| [i % 32, (i + 1) % 32]),
        of(2, |_| [0, 1]),
        of(1, |_| [0, 0]),
        of(32, |i| [i % 2, 0]),
        Plan::meshed(&mut random, 32, 64),
        Plan::random_of(&mut random, 32, 64),
        Plan::random_of(&mut random, 12, 64),
    ] {
        assert_eq!(plan.links.len(), 64);
        game_on_a_small_stack(&plan);
    }
}

const THREADS: usize = 8;

/// Plans, and a table for each: three have none.
fn plans_and_tables() -> (Vec<Vec<u8>>, Vec<Vec<u8>>) {
    let mut random = Random::new(71);
    let mut files = vec![plan("mesh"), plan("two-crossings"), Plan::deepest().bytes()];
    files.extend([9, 20, 32].map(|nodes| Plan::random_of(&mut random, nodes, 64).bytes()));
    let [a, b] = [(); 2].map(|()| Table::random(&mut random));
    let tables = [Table::BuiltIn, Table::telling(), a, Table::BuiltIn, b];
    let tables = tables.iter().cycle().map(Table::bytes);
    let tables = tables.take(files.len()).collect();
    (files, tables)
}

/// The calls of each plan under its table, with the next plan as the other of two.
fn calls<'a>(files: &'a [Vec<u8>], tables: &'a [Vec<u8>], limit: u64) -> Vec<Under<'a, Call<'a>>> {
    let others = files.iter().cycle().skip(1);
    let lent = files.iter().zip(others).zip(tables);
    let of_one = |((plan, b), table): ((&'a Vec<u8>, &'a Vec<u8>), &'a Vec<u8>)| {
        let (place, choice) = (20, 0b1000_0010);
        [
            Call::Check { plan },
            Call::figure(plan, limit),
            Call::Figure {
                plan,
                choice,
                limit,
            },
            Call::Importance { plan, place, limit },
            Call::Difference { a: plan, b, limit },
        ]
        .map(|call| call.under(table))
    };
    lent.flat_map(of_one).collect()
}

/// The work of each plan under its table, set aside after some steps.
fn works(files: &[Vec<u8>], tables: &[Vec<u8>]) -> Vec<Vec<u8>> {
    let saved = |(plan, table): (&Vec<u8>, &Vec<u8>)| {
        let (limit, saved) = (700, &NOTHING);
        let first = Sitting { plan, limit, saved }.under(table);
        first.outcome(16, WORK).unwrap().work
    };
    files.iter().zip(tables).map(saved).collect()
}

/// Calls of every kind, each with its outcome.
struct Everything<'a> {
    calls: Vec<(Under<'a, Call<'a>>, Outcome)>,
    sittings: Vec<(Under<'a, Sitting<'a>>, Result<Sat, u64>)>,
    counts: Vec<(Vec<u8>, Result<Vec<u64>, u64>)>,
    games: Vec<(&'a [u8], Result<Winners, u64>)>,
}

impl<'a> Everything<'a> {
    fn new(files: &'a [Vec<u8>], tables: &'a [Vec<u8>], works: &'a [Vec<u8>]) -> Everything<'a> {
        let limit = 3_000;
        let lent = files.iter().zip(works).zip(tables);
        let sittings =
            lent.map(|((plan, saved), table)| Sitting { plan, limit, saved }.under(table));
        let mut random = Random::new(73);
        let sparse = (0..9).map(|i| Plan::random_of(&mut random, 12, 16 + i).bytes());
        let calls = calls(files, tables, limit).into_iter();
        Everything {
            calls: calls.map(|call| (call, call.outcome(24))).collect(),
            sittings: sittings.map(|s| (s, s.outcome(24, WORK))).collect(),
            counts: sparse
                .map(|file| (file.clone(), counting::outcome(&file, 25)))
                .collect(),
            games: files
                .iter()
                .map(|file| (&file[..], game::outcome(file, GAME)))
                .collect(),
        }
    }

    /// Makes all of them four times, from one on.
    fn hold_from(&self, first: usize) {
        for i in 0..4 * self.calls.len() {
            let i = (i + first) % self.calls.len();
            let (call, outcome) = &self.calls[i];
            hold(*call, 24, outcome);
            let (file, row) = &self.counts[i % self.counts.len()];
            hold_counts(file, 25, row);
            let (sitting, sat) = &self.sittings[i % self.sittings.len()];
            hold_sitting(*sitting, [24, WORK], sat);
            let (file, winners) = &self.games[i % self.games.len()];
            hold_game(file, GAME, winners);
        }
    }
}

/// Each thread makes all the calls, each from another one on, so that different plans are worked at the same time, under different
/// tables.
#[test]
fn eight_threads_at_once() {
    let (files, tables) = plans_and_tables();
    let works = works(&files, &tables);
    let everything = &Everything::new(&files, &tables, &works);
    thread::scope(|scope| {
        for first in 0..THREADS {
            let small = thread::Builder::new().stack_size(STACK);
            let run = move || everything.hold_from(3 * first);
            small.spawn_scoped(scope, run).unwrap();
        }
    });
}
