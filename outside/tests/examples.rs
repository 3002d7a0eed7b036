//! The header and the examples in C: they compile without a warning, the header as C++ too; the comparison of two plans, the chosen
//! cabinets and the sittings print what the rule gives, the counted sets what the independent count gives.

use outside::arithmetic::S;
use outside::calls::{read, Call};
use outside::counting::{all_sets, outcome};
use outside::plans::Plan;
use outside::programs::{self, compiled, compiled_as_cpp, ran};
use outside::random::Random;
use outside::repository::{bytes, path, plan, plans_with};
use outside::sittings::{Begun, Sitting, NOTHING, WORK};
use outside::tables::Under;
use std::fs;
use std::path::{Path, PathBuf};
use std::process::Command;

/// A file of this run.
fn written(name: &str) -> PathBuf {
    Path::new(env!("CARGO_TARGET_TMPDIR")).join(name)
}

fn difference(name: &str) -> PathBuf {
    compiled("examples/difference.c", &written(name)).to_owned()
}

/// The exit status, and what was written to standard output and to standard error, with nothing on standard input.
fn run(program: &Path, words: &[&Path]) -> (i32, String, String) {
    programs::run(program, words, "")
}

/// The line that stands for what a call answers.
fn line<'a>(name: &str, call: impl Into<Under<'a, Call<'a>>>) -> String {
    match call.into().outcome(16) {
        Ok(answer) => format!("{name}: {}\n", answer.unwrap()),
        Err(number) => refusal(name, number),
    }
}

/// The line that stands for a refusal.
fn refusal(name: &str, number: u64) -> String {
    let (cause, link) = (number % 256, number / 256);
    match cause % 20 {
        5 | 6 => format!("{name}: refused {cause} at link {link}\n"),
        _ => format!("{name}: refused {number}\n"),
    }
}

fn lines(a: &[u8], b: &[u8], limit: u64) -> String {
    lines_under(&[], a, b, limit)
}

fn lines_under(table: &[u8], a: &[u8], b: &[u8], limit: u64) -> String {
    let figure = |plan| Call::figure(plan, limit).under(table);
    let difference = Call::Difference { a, b, limit }.under(table);
    [
        line("A", figure(a)),
        line("B", figure(b)),
        line("A - B", difference),
    ]
    .concat()
}

/// Each call is declared as it is defined, for both languages.
#[test]
fn the_header() {
    let source = "outside/c/header.c";
    ran(&mut Command::new(compiled(source, &written("header-c"))));
    let program = written("header-cpp");
    ran(&mut Command::new(compiled_as_cpp(source, &program)));
}

#[test]
fn the_calls() {
    compiled("examples/desk.c", &written("desk"));
}

/// Plan A with two crossings, plan B with one: no answer within a few steps, and then one.
#[test]
fn the_second_crossing() {
    let program = difference("crossings");
    let names = ["two-crossings", "one-crossing"];
    let [a, b] = names.map(|name| path(&format!("plans/{name}.plan")));
    let [first, second] = names.map(plan);
    for limit in [0, 5, 56, 57, 155, 156, 1_000_000, 1_000_001] {
        let word = limit.to_string();
        let (status, text, said) = run(&program, &[&a, &b, Path::new(&word)]);
        assert_eq!(text, lines(&first, &second, limit));
        assert_eq!((status, &said[..]), (i32::from(limit > 1_000_000), ""));
    }
    let without = run(&program, &[&a, &b]);
    assert_eq!(without, (0, lines(&first, &second, 20_000), String::new()));
    let limit = 5;
    let (a, b) = (&first, &second);
    let early = Call::Difference { a, b, limit }
        .outcome(16)
        .unwrap()
        .unwrap();
    assert!(early.low < 0 && 0 < early.high && !early.finished);
}

#[test]
fn refused_plans() {
    let program = difference("refusals");
    let good = Plan::alike(3, S, &[[0, 1], [1, 2], [0, 2]]);
    let mut end = good.clone();
    end.links[0].ends[1] = 3;
    let mut value = good.clone();
    value.links[2].value = S + 1;
    let long = [&good.bytes()[..], &[0; 400]].concat();
    let files = [good.bytes(), end.bytes(), value.bytes(), long, vec![]];
    let names: Vec<PathBuf> = (0..files.len())
        .map(|i| written(&format!("plan{i}")))
        .collect();
    for (file, name) in files.iter().zip(&names) {
        fs::write(name, file).unwrap();
    }
    for (a, first) in files.iter().zip(&names) {
        for (b, second) in files.iter().zip(&names) {
            let (status, text, said) = run(&program, &[first, second]);
            let fine = a == &files[0] && b == &files[0];
            assert_eq!(text, lines(a, b, 20_000));
            assert_eq!((status, &said[..]), (i32::from(!fine), ""));
        }
    }
}

/// All three answers are under the table, which is refused whole where it is longer.
#[test]
fn a_table_behind_the_limit() {
    let program = difference("table");
    let [a, b] = ["two-crossings", "one-crossing"].map(plan);
    let files = ["two-crossings", "one-crossing"].map(|name| path(&format!("plans/{name}.plan")));
    let armoured = bytes("plans/armoured.table");
    let longer = |count: usize| [&armoured[..], &vec![0; count]].concat();
    let rises = [&armoured[..2_044], &u32::MAX.to_le_bytes()].concat();
    let tables = [
        (armoured.clone(), 0),
        (armoured[..1].to_vec(), 12),
        (armoured[..2_047].to_vec(), 12),
        (longer(1), 12),
        (longer(5_000), 12),
        (rises, 13),
    ];
    for (table, number) in tables {
        let name = written("behind.table");
        fs::write(&name, &table).unwrap();
        for limit in ["5", "20000"] {
            let words: [&Path; 4] = [&files[0], &files[1], Path::new(limit), &name];
            let (status, text, said) = run(&program, &words);
            assert_eq!(text, lines_under(&table, &a, &b, limit.parse().unwrap()));
            assert_eq!((status, &said[..]), (i32::from(number != 0), ""));
            let refused = format!("refused {number}\n");
            assert_eq!(
                text.matches(&refused).count(),
                if number == 0 { 0 } else { 3 }
            );
        }
    }
}

#[test]
fn wrong_words() {
    let program = difference("words");
    let plan = path("plans/example.plan");
    let missing = written("no-such-plan");
    let (missing, folder) = (&missing, &path("plans"));
    let (limit, empty) = (Path::new("5"), &written("empty.table"));
    fs::write(empty, []).unwrap();
    let wrong: [&[&Path]; 11] = [
        &[],
        &[&plan],
        &[&plan, missing],
        &[missing, &plan],
        &[&plan, folder],
        &[&plan, &plan, Path::new("-1")],
        &[&plan, &plan, Path::new("99999999999999999999")],
        &[&plan, &plan, limit, missing],
        &[&plan, &plan, limit, folder],
        &[&plan, &plan, limit, empty],
        &[&plan, &plan, limit, &plan, limit],
    ];
    for words in wrong {
        let (status, text, said) = run(&program, words);
        assert_eq!((status, &text[..]), (2, ""), "{words:?}");
        assert_eq!(said.lines().count(), 1, "{words:?}");
    }
}

fn chosen(name: &str) -> PathBuf {
    compiled("examples/chosen.c", &written(name)).to_owned()
}

/// What the program prints of a plan and a choice: both figures, or what they are refused with.
fn lines_of_chosen(plan: &[u8], choice: u64) -> String {
    let limit = 20_000;
    let some = Call::Figure {
        plan,
        choice,
        limit,
    };
    let all = line("all cabinets", &Call::figure(plan, limit));
    [all, line("these alone", &some)].concat()
}

/// Cabinets of the valley on one bank, on both, the farm, one twice, one alone and all; and one that the plan does not have.
#[test]
fn some_cabinets() {
    let program = chosen("chosen");
    for name in ["two-crossings", "one-crossing", "no-crossing", "sample-000"] {
        let (file, plan) = (path(&format!("plans/{name}.plan")), plan(name));
        let all: Vec<u64> = (0..plan[0].into()).collect();
        let missing = plan[0].into();
        for nodes in [
            &[0, 3][..],
            &[0, 4, 2],
            &[4],
            &[1, 1, 2],
            &all,
            &[0, missing],
            &[63],
        ] {
            let choice = nodes.iter().fold(0, |choice, node| choice | 1 << node);
            let words: Vec<String> = nodes.iter().map(u64::to_string).collect();
            let words = words.iter().map(Path::new);
            let words: Vec<&Path> = [&file as &Path].into_iter().chain(words).collect();
            let refused = choice >= 1 << missing;
            let printed = lines_of_chosen(&plan, choice);
            assert_eq!(printed.contains("these alone: refused 14\n"), refused);
            let expected = (i32::from(refused), printed, String::new());
            assert_eq!(run(&program, &words), expected);
        }
    }
}

#[test]
fn refused_plans_of_chosen() {
    let program = chosen("chosen-refusals");
    let good = Plan::alike(3, S, &[[0, 1], [1, 2], [0, 2]]).bytes();
    let mut many = good.clone();
    many[1] = 1;
    let long = [&good[..], &[0; 400]].concat();
    let cut = good[..9].to_vec();
    for file in [many, long, cut, vec![], vec![3]] {
        let name = written("chosen.plan");
        fs::write(&name, &file).unwrap();
        let expected = (1, lines_of_chosen(&file, 1), String::new());
        assert_eq!(run(&program, &[&name, Path::new("0")]), expected);
    }
}

#[test]
fn wrong_words_of_chosen() {
    let program = chosen("chosen-words");
    let plan = path("plans/example.plan");
    let (missing, folder) = (written("no-such-plan"), path("plans"));
    let word = |word: &'static str| Path::new(word);
    let wrong: [&[&Path]; 10] = [
        &[],
        &[&plan],
        &[&missing, word("0")],
        &[&folder, word("0")],
        &[&plan, word("")],
        &[&plan, word("x")],
        &[&plan, word("-1")],
        &[&plan, word("64")],
        &[&plan, word("001")],
        &[&plan, word("0"), word("1 ")],
    ];
    for words in wrong {
        let (status, text, said) = run(&program, words);
        assert_eq!((status, &text[..]), (2, ""), "{words:?}");
        assert_eq!(said.lines().count(), 1, "{words:?}");
    }
}

fn counts(name: &str) -> PathBuf {
    compiled("examples/counts.c", &written(name)).to_owned()
}

/// What two sentences say of a row.
fn meaning(row: &[u64]) -> String {
    let (links, all) = (row.len() - 1, all_sets(row.len() - 1));
    let Some(least) = row.iter().position(|count| *count > 0) else {
        return "The plan is not connected, whichever links are sound.\n".into();
    };
    let most = links - least;
    let text = format!("At most {most} of {links} links can fail with the plan still connected.\n");
    let fewest = (0..=links).find(|failed| row[links - failed] < all[*failed]);
    let fewest = fewest.map_or("No failed links disconnect it.".to_owned(), |failed| {
        let all = all[failed];
        let cut = all - row[links - failed];
        format!("The fewest failed links that can disconnect it: {failed}, by {cut} of {all} sets.")
    });
    text + &fewest + "\n"
}

/// The exit status and what the program prints of a plan.
fn lines_of_counts(file: &[u8]) -> (i32, String) {
    let row = match outcome(file, 25) {
        Ok(row) => row,
        Err(15) => {
            let links = read(file).unwrap().links.len();
            let why = format!("the plan has {links} links, and sets are counted of 24 at most");
            return (1, format!("counts: refused 15\n{why}\n"));
        }
        Err(number) => return (1, refusal("counts", number)),
    };
    let broken = |i: usize| row.len() - 1 - i;
    let all = all_sets(row.len() - 1);
    let entry = |(i, count): (usize, &u64)| {
        let broken = broken(i);
        format!(
            "sound {i} broken {broken}: {count} of {} sets connect\n",
            all[i]
        )
    };
    let entries: String = row.iter().enumerate().map(entry).collect();
    (0, entries + &meaning(&row))
}

/// Runs the program on a file with these bytes.
fn hold_counts(program: &Path, name: &str, file: &[u8]) -> String {
    let named = written(name);
    fs::write(&named, file).unwrap();
    let (status, text) = lines_of_counts(file);
    let expected = (status, text.clone(), String::new());
    assert_eq!(run(program, &[&named]), expected, "{file:?}");
    text
}

/// Each sample plan, which with more than 24 links says how many it has; one node, and nodes apart; any plans.
#[test]
fn counted_sets() {
    let program = counts("counts");
    let hold = |file: &[u8]| hold_counts(&program, "counted.plan", file);
    for name in plans_with("plan") {
        let refused = hold(&plan(&name)).contains("refused 15");
        assert_eq!(refused, name == "mesh");
    }
    let loops = Plan::alike(1, S, &[[0, 0], [0, 0]]).bytes();
    assert!(hold(&loops).ends_with("\nNo failed links disconnect it.\n"));
    let apart = Plan::new(2, &[]).bytes();
    assert!(hold(&apart).ends_with("\nThe plan is not connected, whichever links are sound.\n"));
    let mut random = Random::new(151);
    for count in 0..=26 {
        for nodes in [1, 4, 9] {
            hold(&Plan::random_of(&mut random, nodes, count).bytes());
        }
    }
}

#[test]
fn refused_plans_of_counts() {
    let program = counts("counts-refusals");
    let good = Plan::alike(3, S, &[[0, 1], [1, 2], [0, 2]]);
    let mut end = good.clone();
    end.links[1].ends[0] = 3;
    let mut value = good.clone();
    value.links[2].value = S + 1;
    let mut many = good.bytes();
    many[1] = 1;
    let long = [&good.bytes()[..], &[0; 400]].concat();
    let cut = good.bytes()[..9].to_vec();
    for file in [end.bytes(), value.bytes(), many, long, cut, vec![], vec![3]] {
        let text = hold_counts(&program, "counts-refused.plan", &file);
        assert!(text.starts_with("counts: refused "), "{text}");
    }
}

#[test]
fn wrong_words_of_counts() {
    let program = counts("counts-words");
    let plan = path("plans/example.plan");
    let (missing, folder) = (written("no-such-plan"), path("plans"));
    let wrong: [&[&Path]; 4] = [&[], &[&missing], &[&folder], &[&plan, &plan]];
    for words in wrong {
        let (status, text, said) = run(&program, words);
        assert_eq!((status, &text[..]), (2, ""), "{words:?}");
        assert_eq!(said.lines().count(), 1, "{words:?}");
    }
}

fn sittings(name: &str) -> PathBuf {
    compiled("examples/sittings.c", &written(name)).to_owned()
}

/// A file that is not there yet.
fn fresh(name: &str) -> PathBuf {
    let file = written(name);
    let _ = fs::remove_file(&file);
    file
}

/// Runs of the program, each one sitting of 1,000 steps, against first sittings of the rule under their total: what is printed and
/// what the file holds. With the word compare, one run prints the same.
#[test]
fn the_mesh_in_sittings() {
    let program = sittings("mesh-in-sittings");
    for (name, finished) in [("mesh", false), ("two-crossings", true), ("example", true)] {
        let (file, saved) = (path(&format!("plans/{name}.plan")), fresh("mesh.saved"));
        let plan = &plan(name);
        for total in [1_000, 2_000, 3_000, 4_000] {
            let first = Sitting {
                plan,
                limit: total,
                saved: &NOTHING,
            };
            let sat = first.outcome(16, WORK).unwrap();
            let limit = total;
            let one = line("so far", &Call::figure(plan, limit));
            let words: [&Path; 3] = [&file, &saved, Path::new("compare")];
            let (words, both) = match total {
                4_000 => (&words[..], one.replace("so far", "in one run")),
                _ => (&words[..2], String::new()),
            };
            let printed = (0, [one, both].concat(), String::new());
            assert_eq!(run(&program, words), printed);
            assert_eq!(fs::read(&saved).unwrap(), sat.work);
            assert_eq!(sat.answer[12] == 1, finished);
        }
    }
}

/// Saved work that is refused stays in its file; a plan that is refused makes none.
#[test]
fn refused_sittings() {
    let program = sittings("refused-sittings");
    let (mesh, saved) = (path("plans/mesh.plan"), fresh("refused.saved"));
    let open = |place, pair| {
        let (places, pairs, steps) = (vec![place], vec![pair], 5);
        Begun {
            places,
            pairs,
            steps,
        }
    };
    let whole = vec![0; WORK];
    let long = vec![0; 5_000];
    for (work, number) in [
        (vec![], 10),
        (whole, 10),
        (long, 10),
        (open(0, [2, 1]).bytes(), 10),
        (open(1, [1, 0]).bytes(), 11),
    ] {
        fs::write(&saved, &work).unwrap();
        let refused = (1, format!("so far: refused {number}\n"), String::new());
        assert_eq!(run(&program, &[&mesh, &saved]), refused);
        assert_eq!(fs::read(&saved).unwrap(), work);
    }
    let (wrong, saved) = (written("wrong.plan"), fresh("wrong.saved"));
    fs::write(&wrong, Plan::new(3, &[(0, 1, S), (1, 3, S)]).bytes()).unwrap();
    let refused = "so far: refused 5 at link 1\n".to_owned();
    assert_eq!(
        run(&program, &[&wrong, &saved]),
        (1, refused, String::new())
    );
    assert!(!saved.exists());
}

/// Where the new work cannot be written, the file keeps the work before.
#[test]
fn sittings_that_cannot_be_written() {
    let program = sittings("unwritten-sittings");
    let (mesh, saved) = (path("plans/mesh.plan"), fresh("unwritten.saved"));
    let beside = written("unwritten.saved.new");
    let _ = fs::remove_dir(&beside);
    assert_eq!(run(&program, &[&mesh, &saved]).0, 0);
    let before = fs::read(&saved).unwrap();
    assert!(!beside.exists());
    fs::create_dir(&beside).unwrap();
    assert_eq!(run(&program, &[&mesh, &saved]).0, 2);
    assert_eq!(fs::read(&saved).unwrap(), before);
    fs::remove_dir(&beside).unwrap();
}

#[test]
fn wrong_words_of_sittings() {
    let program = sittings("words-of-sittings");
    let plan = path("plans/example.plan");
    let (missing, saved) = (written("no-such-plan"), fresh("words.saved"));
    let (folder, nowhere) = (path("plans"), missing.join("saved"));
    let wrong: [&[&Path]; 8] = [
        &[],
        &[&plan],
        &[&missing, &saved],
        &[&folder, &saved],
        &[&plan, &folder],
        &[&plan, &saved, Path::new("1000")],
        &[&plan, &saved, Path::new("compare"), Path::new("compare")],
        &[&folder, &nowhere],
    ];
    for words in wrong {
        let (status, text, said) = run(&program, words);
        assert_eq!((status, &text[..]), (2, ""), "{words:?}");
        assert_eq!(said.lines().count(), 1, "{words:?}");
        assert!(!saved.exists());
    }
}
