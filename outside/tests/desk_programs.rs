//! Programs in C that link the library, run with plans under a memory checker.

use outside::arithmetic::S;
use outside::calls::{all_nodes_of, left, Call};
use outside::counting;
use outside::desk::{pattern, row_left, row_pattern};
use outside::game::{self, GAME};
use outside::plans::{damaged, Plan};
use outside::programs::{compiled, ran};
use outside::random::Random;
use outside::rule::{Choice, CHOICES};
use outside::sittings::{self, Sitting, NOTHING, WORK};
use outside::tables::{Table, Under};
use std::fs::{self, File};
use std::path::{Path, PathBuf};
use std::process::Command;

/// A file of this run.
fn written(name: &str) -> PathBuf {
    Path::new(env!("CARGO_TARGET_TMPDIR")).join(name)
}

/// A call as `c/calls.c` reads it: which one, limit, and place or choice, the answer buffer, two plans or a plan and saved work, the work
/// buffer, and the table.
fn record(numbers: [u64; 3], lent: [&[u8]; 5]) -> Vec<u8> {
    let lengths = lent.map(|bytes| bytes.len() as u64);
    let numbers = numbers.iter().chain(&lengths);
    let numbers: Vec<u8> = numbers.flat_map(|x| x.to_le_bytes()).collect();
    [numbers, lent.concat()].concat()
}

fn record_of_call(call: &Under<Call>, buffer: &[u8]) -> Vec<u8> {
    let none: &[u8] = &[];
    let (which, limit, place, a, b) = match call.asked {
        Call::Check { plan } => (0, 0, 0, plan, none),
        Call::Figure {
            plan,
            choice,
            limit,
        } => (1, limit, choice, plan, none),
        Call::Importance { plan, place, limit } => (2, limit, place, plan, none),
        Call::Difference { a, b, limit } => (3, limit, 0, a, b),
    };
    record([which, limit, place], [buffer, a, b, none, call.table])
}

fn any_call<'a>(random: &mut Random, plan: &'a [u8], good: &'a [u8]) -> Call<'a> {
    let limit = random.of_any_size(1_100_000);
    let place = random.up_to(10);
    let choice = random.of_any_size(u64::MAX);
    match random.below(6) {
        0 => Call::Check { plan },
        1 => Call::figure(plan, limit),
        5 => Call::Figure {
            plan,
            choice,
            limit,
        },
        2 => Call::Importance { plan, place, limit },
        3 => Call::Difference {
            a: plan,
            b: good,
            limit,
        },
        _ => Call::Difference {
            a: good,
            b: plan,
            limit,
        },
    }
}

/// What is handed to the program, and what it should write: these bytes, or of a game as many of which the check says so.
struct Trial {
    input: Vec<u8>,
    output: Vec<u8>,
    shown: String,
    game: Option<Vec<u8>>,
}

impl Trial {
    /// Asserts that these bytes, the number returned and the buffers, are what they should be.
    fn hold(&self, written: &[u8]) {
        let Some(file) = &self.game else {
            assert_eq!(written, self.output, "{}", self.shown);
            return;
        };
        let [(number, after), (_, before)] = [written, &self.output].map(|all| all.split_at(8));
        let returned = u64::from_le_bytes(number.try_into().unwrap());
        let outcome = game::outcome(file, before.len());
        let left = game::check_left(file, &outcome, returned, [before, after]);
        assert_eq!(left, Ok(()), "{}", self.shown);
    }
}

fn trial<'a>(call: impl Into<Under<'a, Call<'a>>>, room: usize) -> Trial {
    let call = call.into();
    let before = pattern(room);
    let (number, buffer) = left(&call.outcome(room), &before);
    let table = call.table.len();
    Trial {
        input: record_of_call(&call, &before),
        output: [&number.to_le_bytes(), &buffer[..]].concat(),
        shown: format!("{:?}, a table of {table} bytes, room {room}", call.asked),
        game: None,
    }
}

fn trial_of_sitting<'a>(sitting: impl Into<Under<'a, Sitting<'a>>>, rooms: [usize; 2]) -> Trial {
    let sitting = sitting.into();
    let [answer, work] = rooms.map(pattern);
    let outcome = sitting.outcome(rooms[0], rooms[1]);
    let (number, answer_left, work_left) = sittings::left(&outcome, &answer, &work);
    let Under { asked, table } = sitting;
    let Sitting { plan, limit, saved } = asked;
    let count = table.len();
    Trial {
        input: record([4, limit, 0], [&answer, plan, saved, &work, table]),
        output: [&number.to_le_bytes(), &answer_left[..], &work_left].concat(),
        shown: format!("{asked:?}, a table of {count} bytes, rooms {rooms:?}"),
        game: None,
    }
}

/// The bytes of a row, as the machine has its numbers.
fn row_bytes(row: &[u64]) -> Vec<u8> {
    row.iter().flat_map(|number| number.to_ne_bytes()).collect()
}

fn trial_of_counts(file: &[u8], room: usize) -> Trial {
    let before = row_pattern(room);
    let (number, row) = row_left(&counting::outcome(file, room), &before);
    let none: &[u8] = &[];
    Trial {
        input: record([5, 0, 0], [&row_bytes(&before), file, none, none, none]),
        output: [&number.to_le_bytes(), &row_bytes(&row)[..]].concat(),
        shown: format!("counts of {file:?}, room {room}"),
        game: None,
    }
}

/// Of a game the output is what the buffer held before, behind a number of any value.
fn trial_of_game(file: &[u8], room: usize) -> Trial {
    let before = pattern(room);
    let none: &[u8] = &[];
    Trial {
        input: record([6, 0, 0], [&before, file, none, none, none]),
        output: [&[0; 8], &before[..]].concat(),
        shown: format!("game of {file:?}, room {room}"),
        game: Some(file.to_vec()),
    }
}

/// Makes the calls in a program of its own under the memory checker, and compares every outcome.
fn checked(trials: &[Trial], name: &str) {
    let input: Vec<u8> = trials.iter().flat_map(|t| t.input.clone()).collect();
    let file = written(&format!("{name}.in"));
    fs::write(&file, input).unwrap();
    let mut valgrind = Command::new("valgrind");
    valgrind.args(["--quiet", "--error-exitcode=1"]);
    valgrind.arg(compiled("outside/c/calls.c", &written(name)));
    let output = ran(valgrind.stdin(File::open(file).unwrap())).stdout;
    let mut rest = &output[..];
    for trial in trials {
        let (ours, others) = rest.split_at(trial.output.len());
        trial.hold(ours);
        rest = others;
    }
    assert!(rest.is_empty());
}

#[test]
fn damaged_plans_under_a_memory_checker() {
    let mut random = Random::new(41);
    let good = Plan::random_of(&mut random, 4, 7).bytes();
    let mut files = Vec::new();
    for _ in 0..30 {
        let file = Plan::random(&mut random, 8, 10).bytes();
        files.extend(damaged(&mut random, &file));
        files.push(file);
    }
    let mut call = |file| {
        let room = 16 + random.below(3) * random.below(25) - random.below(2) * random.below(17);
        trial(&any_call(&mut random, file, &good), room)
    };
    let calls: Vec<Trial> = files.iter().map(|file| call(file)).collect();
    assert!(calls.len() > 5_000, "too few calls: {}", calls.len());
    checked(&calls, "damaged");
}

#[test]
fn the_largest_plans_under_a_memory_checker() {
    let mut random = Random::new(42);
    let mut files: Vec<Vec<u8>> = [1, 2, 9, 20, 32]
        .map(|nodes| Plan::random_of(&mut random, nodes, 64).bytes())
        .into();
    files.push(Plan::new(32, &[(31, 0, S)].repeat(64)).bytes());
    let limit = 25;
    let calls: Vec<Trial> = files
        .iter()
        .zip(files.iter().rev())
        .flat_map(|(plan, b)| {
            [
                (Call::Check { plan }, 0),
                (Call::figure(plan, limit), 16),
                (
                    Call::Figure {
                        plan,
                        choice: 1,
                        limit,
                    },
                    19,
                ),
                (
                    Call::Figure {
                        plan,
                        choice: all_nodes_of(plan) & !1 | 1 << (plan[0] - 1),
                        limit,
                    },
                    16,
                ),
                (
                    Call::Figure {
                        plan,
                        choice: 1 << plan[0],
                        limit,
                    },
                    16,
                ),
                (
                    Call::Importance {
                        plan,
                        place: 63,
                        limit,
                    },
                    17,
                ),
                (Call::Difference { a: plan, b, limit }, 40),
            ]
        })
        .map(|(call, room)| trial(&call, room))
        .collect();
    checked(&calls, "largest");
}

/// Tables that are right, and the same damaged: bytes changed, cut and lengthened. The plans are right, with lengths, and the files too
/// short for a plan.
#[test]
fn tables_under_a_memory_checker() {
    let mut random = Random::new(44);
    let mut trials = Vec::new();
    let mut plan = || Plan::small_of_lengths(&mut random, 10).bytes();
    let plans = [plan(), plan(), plan(), vec![2, 0]];
    for table in [Table::telling(), Table::random(&mut random)] {
        let mut tables = vec![table.bytes(); 20];
        let damaged = damaged(&mut random, &table.bytes());
        tables.extend(damaged.into_iter().step_by(11));
        for table in &tables {
            let [a, b] = [(); 2].map(|()| &plans[random.below(plans.len())]);
            let call = any_call(&mut random, a, b);
            let room = 16 - random.below(10) / 9;
            trials.push(trial(call.under(table), room));
            let (plan, limit, saved) = (a, random.up_to(12), &NOTHING);
            let sitting = Sitting { plan, limit, saved };
            let rooms = rooms(&mut random);
            trials.push(trial_of_sitting(sitting.under(table), rooms));
        }
    }
    assert!(trials.len() > 3_000, "too few: {}", trials.len());
    checked(&trials, "tables");
}

/// Plans of up to 24 links and a few more, and the same damaged, with rows that are too short, just enough and longer.
#[test]
fn counts_under_a_memory_checker() {
    let mut random = Random::new(45);
    let mut files: Vec<Vec<u8>> = [1, 2, 9, 12, 25, 32]
        .map(|nodes| Plan::random_of(&mut random, nodes, 24).bytes())
        .into();
    files.push(Plan::random_of(&mut random, 12, 25).bytes());
    for most in [6, 10, 14, 27] {
        for _ in 0..6 {
            let file = Plan::random(&mut random, 16, most).bytes();
            files.extend(damaged(&mut random, &file));
            files.push(file);
        }
    }
    let mut trials = Vec::new();
    for file in &files {
        let count = file.get(2).map_or(0, |count| usize::from(count % 64));
        let room = match random.below(3) {
            0 => random.below(count + 1),
            1 => count + 1,
            _ => count + 1 + random.below(20),
        };
        trials.push(trial_of_counts(file, room));
    }
    assert!(trials.len() > 3_000, "too few: {}", trials.len());
    checked(&trials, "counts");
}

/// Plans of every size and each outcome, and the same damaged, with buffers that are too short, just enough and longer.
#[test]
fn games_under_a_memory_checker() {
    let mut random = Random::new(46);
    let mut files: Vec<Vec<u8>> = [1, 2, 9, 20, 31, 32]
        .map(|nodes| Plan::random_of(&mut random, nodes, 64).bytes())
        .into();
    files.push(Plan::meshed(&mut random, 32, 62).bytes());
    files.push(Plan::meshed(&mut random, 32, 61).bytes());
    files.push(Plan::new(32, &[]).bytes());
    files.push(Plan::complete(11, S).bytes());
    for (most, count) in [(6, 6), (10, 6), (14, 6), (27, 2)] {
        for _ in 0..count {
            let file = Plan::random(&mut random, 16, most).bytes();
            files.extend(damaged(&mut random, &file));
            files.push(file);
        }
    }
    let mut trials = Vec::new();
    for file in &files {
        let room = match random.below(4) {
            0 => random.below(GAME),
            1 => GAME + random.below(40),
            _ => GAME,
        };
        trials.push(trial_of_game(file, room));
    }
    assert!(trials.len() > 3_000, "too few: {}", trials.len());
    checked(&trials, "games");
}

/// The work of a first sitting by either choice.
fn saved(choice: Choice, plan: &[u8], limit: u64) -> Vec<u8> {
    let saved = &NOTHING;
    let first = Sitting { plan, limit, saved };
    first.outcome_by(choice, 16, WORK).unwrap().work
}

/// Sizes of both buffers, most of them large enough.
fn rooms(random: &mut Random) -> [usize; 2] {
    match random.below(6) {
        0 => [random.below(17), WORK],
        1 => [16, random.below(WORK + 1)],
        2 => [16 + random.below(20), WORK + random.below(40)],
        _ => [16, WORK],
    }
}

/// Work carried on, and damaged in every byte, cut and lengthened; and damaged plans.
#[test]
fn sittings_under_a_memory_checker() {
    let mut random = Random::new(43);
    let mut trials = Vec::new();
    let plans = [
        Plan::complete(6, S / 3),
        Plan::random_of(&mut random, 8, 20),
        Plan::random_of(&mut random, 20, 64),
    ];
    for plan in plans.map(|plan| plan.bytes()) {
        let steps = [0, 1, 5, 17, 60].into_iter();
        for (steps, choice) in steps.flat_map(|steps| CHOICES.map(|choice| (steps, choice))) {
            let saved = saved(choice, &plan, steps);
            let damaged_work = damaged(&mut random, &saved);
            let mut sat = |plan: &[u8], saved: &[u8]| {
                let limit = random.up_to(12);
                let rooms = rooms(&mut random);
                trials.push(trial_of_sitting(&Sitting { plan, limit, saved }, rooms));
            };
            sat(&plan, &saved);
            damaged_work.iter().for_each(|saved| sat(&plan, saved));
            let whole = [&saved[..], &pattern(WORK - saved.len())].concat();
            sat(&plan, &whole);
        }
        let good = saved(Choice::LargestSum, &plan, 9);
        for plan in damaged(&mut random, &plan).iter().step_by(5) {
            let (limit, saved) = (random.up_to(12), &good);
            trials.push(trial_of_sitting(
                &Sitting { plan, limit, saved },
                [16, WORK],
            ));
        }
    }
    assert!(trials.len() > 4_000, "too few: {}", trials.len());
    checked(&trials, "sittings");
}
