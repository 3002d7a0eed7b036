//! The sample plans and the table: each text and its bytes, and the script that makes the one of the other.

use outside::arithmetic::{product, Side, S};
use outside::calls::{held, read, Call};
use outside::plans::{Link, Plan, LENGTH};
use outside::repository::{bytes, path, plan, plans_with, table};
use outside::tables::{self, Table};
use std::fs;
use std::path::{Path, PathBuf};
use std::process::{Command, Output};

fn number(word: &str) -> u32 {
    word.parse().unwrap_or_else(|_| panic!("no number: {word}"))
}

/// The plan that a text means.
fn meant(text: &str) -> Plan {
    let mut plan = Plan::new(0, &[]);
    for line in text.lines() {
        let line = line.split('#').next().unwrap();
        let words: Vec<&str> = line.split_whitespace().collect();
        let (ends, value) = match words[..] {
            [] => continue,
            ["nodes", count] => {
                plan.nodes = number(count) as u16;
                continue;
            }
            ["link", a, b, units] => ([a, b], number(units)),
            ["link", a, b, "length", k] => ([a, b], LENGTH + number(k)),
            _ => panic!("neither nodes nor link: {line}"),
        };
        let ends = ends.map(|v| number(v) as u8);
        plan.links.push(Link { ends, value });
    }
    plan
}

/// The values of the table that a text means.
fn meant_values(text: &str) -> Vec<u32> {
    let lines = text.lines().map(|line| line.split('#').next().unwrap());
    let words = lines.flat_map(str::split_whitespace);
    words
        .filter(|word| *word != "ratings")
        .map(number)
        .collect()
}

/// The texts of plans and of tables, by the bytes that stand beside them.
fn names() -> [Vec<String>; 2] {
    ["plan", "table"].map(plans_with)
}

fn text_of(name: &str) -> String {
    String::from_utf8(bytes(&format!("plans/{name}.txt"))).unwrap()
}

/// An empty folder of this run.
fn folder(name: &str) -> PathBuf {
    let folder = Path::new(env!("CARGO_TARGET_TMPDIR")).join(name);
    let _ = fs::remove_dir_all(&folder);
    fs::create_dir_all(&folder).unwrap();
    folder
}

fn make(folder: &Path) -> Output {
    let mut script = Command::new(path("plans/make"));
    script.arg(folder).output().unwrap()
}

#[test]
fn each_text_has_its_bytes() {
    let [plans, tables] = names();
    let mut all = [&plans[..], &tables].concat();
    all.sort();
    assert_eq!(all, plans_with("txt"));
    assert!(plans.len() >= 8 && !tables.is_empty(), "too few: {all:?}");
    for name in plans {
        assert_eq!(plan(&name), meant(&text_of(&name)).bytes(), "{name}");
    }
    for name in tables {
        let values = meant_values(&text_of(&name));
        assert_eq!(table(&name), tables::bytes(&values), "{name}");
    }
}

/// As its text says: each hundred metres leaves 0.9999, and from 6,400 metres on each drum begun 0.9992.
#[test]
fn the_armoured_cable() {
    let mut values = vec![S];
    for k in 1..512 {
        let before = *values.last().unwrap();
        let left = match k {
            1..=63 => 999_900_000,
            _ if k % 8 == 0 => 999_200_000,
            _ => S,
        };
        values.push(product(Side::Low, before, left));
    }
    assert_eq!(table("armoured"), tables::bytes(&values));
    assert_eq!(Table::read(&table("armoured")), Ok(Table::of(&values)));
}

#[test]
fn each_is_accepted() {
    let [plans, tables] = names();
    for name in plans {
        let file = &plan(&name);
        assert_eq!(held(&Call::Check { plan: file }, 0), Ok(None), "{name}");
    }
    for name in tables {
        let (plan, table, limit) = (&plan("two-crossings"), &table(&name), 5);
        assert!(held(Call::figure(plan, limit).under(table), 16).is_ok());
    }
}

/// The plans of the valley are alike but for the crossings, which are the last two links.
#[test]
fn the_valley_with_and_without_crossings() {
    let both = read(&plan("two-crossings")).unwrap();
    let with = |values: &[u32]| {
        let mut valley = both.clone();
        valley.links.truncate(22 + values.len());
        for (link, value) in valley.links[22..].iter_mut().zip(values) {
            link.value = *value;
        }
        valley.bytes()
    };
    let first = both.links[22].value;
    assert_eq!(plan("one-crossing"), with(&[first]));
    assert_eq!(plan("no-crossing"), with(&[]));
    assert_eq!(plan("worthless-crossings"), with(&[0, 0]));
}

#[test]
fn the_script_makes_them() {
    let folder = folder("plans");
    for name in plans_with("txt") {
        let text = format!("{name}.txt");
        fs::copy(path("plans").join(&text), folder.join(&text)).unwrap();
    }
    let output = make(&folder);
    assert!(output.status.success() && output.stderr.is_empty());
    for (names, ending) in names().into_iter().zip(["plan", "table"]) {
        for file in names.iter().map(|name| format!("{name}.{ending}")) {
            let made = fs::read(folder.join(&file)).unwrap();
            assert_eq!(made, bytes(&format!("plans/{file}")), "{file}");
        }
    }
    let made = fs::read_dir(&folder).unwrap().count();
    assert_eq!(made, 2 * plans_with("txt").len());
}

/// The largest numbers of each kind, spaces, and a last line that does not end.
#[test]
fn the_script_takes_the_most_that_passes() {
    let folder = folder("most");
    let mut text = String::from("\n# nothing\n\t nodes  32 # of them\n");
    text.push_str(&"link 31 0 length 511\n".repeat(63));
    text.push_str(" link\t0 31 1000000000");
    fs::write(folder.join("most.txt"), &text).unwrap();
    assert!(make(&folder).status.success());
    let made = fs::read(folder.join("most.plan")).unwrap();
    assert_eq!(made, meant(&text).bytes());
    assert_eq!(held(&Call::Check { plan: &made }, 0), Ok(None));
}

/// All values on one line and each on its own, the first alone above 0, and a last line that does not end.
#[test]
fn the_script_takes_a_table_in_any_lines() {
    let folder = folder("lines");
    let zeros = " 0".repeat(511);
    let whole = format!("# nothing\n\t ratings  1000000000{zeros} # of them");
    let apart = format!("ratings 1000000000\n{}", "ratings 0\n\n".repeat(511));
    let equal = "ratings 1000000000 1000000000\n".repeat(256);
    for (name, text) in [("whole", &whole), ("apart", &apart), ("equal", &equal)] {
        fs::write(folder.join(format!("{name}.txt")), text).unwrap();
    }
    assert!(make(&folder).status.success());
    let made = |name| fs::read(folder.join(format!("{name}.table"))).unwrap();
    let [first, rest] = [vec![S], vec![0; 511]];
    let values = [first, rest].concat();
    assert_eq!(
        [made("whole"), made("apart")],
        [(); 2].map(|()| tables::bytes(&values))
    );
    assert_eq!(made("equal"), tables::bytes(&[S; 512]));
}

/// Tables that are wrong in their second line, and a part of what is said of each.
const WRONG_RATINGS: [(&str, &str); 13] = [
    ("ratings", "expected: ratings"),
    ("ratings # 5", "expected: ratings"),
    ("ratings 1000000001", "value 1 is not from 0"),
    ("ratings x", "value 1 is not a number"),
    ("ratings 0.95", "value 1 is not a number"),
    ("ratings -5", "value 1 is not a number"),
    ("ratings 07", "value 1 is not a number"),
    ("ratings 18446744073709551617", "value 1 is not a number"),
    (
        "ratings 7 7 8 9",
        "value 3 is above the one before: 8 after 7",
    ),
    ("ratings 0 1", "value 2 is above the one before: 1 after 0"),
    ("nodes 2", "a line of a plan in the text of a table"),
    ("link 0 1 5", "a line of a plan in the text of a table"),
    ("rating 5", "neither nodes, link nor ratings: 'rating'"),
];

/// Links that are wrong in a plan of two nodes, and a part of what is said of each.
const WRONG_LINKS: [(&str, &str); 18] = [
    ("", "expected: link"),
    ("0", "expected: link"),
    ("0 1", "expected: link"),
    ("0 1 5 5", "expected: link"),
    ("0 1 width 5", "expected: link"),
    ("0 1 length 5 5", "expected: link"),
    ("0 1 length", "the chance is not"),
    ("2 1 5", "the first end is not"),
    ("0 2 5", "the second end is not"),
    ("0 a 5", "the second end is not"),
    ("0 1 1000000001", "the chance is not"),
    ("0 1 0.95", "the chance is not"),
    ("0 1 -5", "the chance is not"),
    ("0 1 010", "the chance is not"),
    ("0 1 18446744073709551617", "the chance is not"),
    ("0 1 length 512", "the length is not"),
    ("0 1 length 1e2", "the length is not"),
    ("0 1 length *", "the length is not"),
];

/// Texts, the line of each that is wrong, and a part of what is said of it.
fn wrong_texts() -> Vec<(String, usize, &'static str)> {
    let many = format!("nodes 2\n{}", "link 0 1 5\n".repeat(65));
    let mut texts = vec![
        (String::new(), 0, "no line with nodes"),
        ("# nothing\n\n".into(), 2, "no line with nodes"),
        ("link 0 0 5\n".into(), 1, "before the line with nodes"),
        ("nodes 2\nnodes 2\n".into(), 2, "twice"),
        ("nodes\n".into(), 1, "expected: nodes N"),
        ("nodes 2 2\n".into(), 1, "expected: nodes N"),
        ("nodes 2\nlinks 0 1 5\n".into(), 2, "links"),
        (many, 66, "64 is the most"),
        (
            "nodes 2\nratings 1000000000\n".into(),
            2,
            "a line of a table in the text of a plan",
        ),
        (
            "\nratings 999999999\n".into(),
            2,
            "the first value is not 1000000000: 999999999",
        ),
        (
            "ratings 0 0\n".into(),
            1,
            "the first value is not 1000000000: 0",
        ),
        ("ratings 1000000000\n".into(), 1, "values missing: 1 of 512"),
    ];
    for (count, said) in [
        (255, "values missing: 511 of 512"),
        (256, "a value too many"),
    ] {
        let text = format!("ratings 1000000000\n{}", "ratings 5 5\n".repeat(count));
        texts.push((text, 1 + count, said));
    }
    for (line, said) in WRONG_RATINGS {
        texts.push((format!("ratings 1000000000\n{line}\n"), 2, said));
    }
    for count in ["0", "33", "-1", "x", "02", "2.0", "99999999999999999999"] {
        texts.push((format!("nodes {count}\n"), 1, "nodes is not"));
    }
    for (link, said) in WRONG_LINKS {
        texts.push((format!("nodes 2\n\nlink {link}\n"), 3, said));
    }
    texts
}

#[test]
fn the_script_refuses_wrong_texts() {
    for (text, line, said) in wrong_texts() {
        let folder = folder("wrong");
        fs::write(folder.join("wrong.txt"), &text).unwrap();
        let output = make(&folder);
        let message = String::from_utf8(output.stderr).unwrap();
        let expected = format!("wrong.txt:{line}: ");
        assert_eq!(output.status.code(), Some(1), "{text}");
        assert!(
            message.starts_with(&expected)
                && message.contains(said)
                && message.lines().count() == 1,
            "{text}: {message}"
        );
        assert_eq!(fs::read_dir(&folder).unwrap().count(), 1, "{text}");
    }
}

/// The texts that are right are made all the same.
#[test]
fn a_wrong_text_does_not_stop_the_others() {
    let folder = folder("mixed");
    fs::write(folder.join("a.txt"), "nodes 0\n").unwrap();
    fs::write(folder.join("b.txt"), "nodes 1\n").unwrap();
    assert_eq!(make(&folder).status.code(), Some(1));
    assert!(!folder.join("a.plan").exists());
    assert_eq!(fs::read(folder.join("b.plan")).unwrap(), [1, 0, 0, 0]);
}
