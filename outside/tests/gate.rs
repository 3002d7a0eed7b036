//! The gate, `.ci/run`, with scripts of the test in place of `rt`, `cargo` and `build`.

use outside::repository::path;
use outside::scripts;
use std::fs;
use std::io::{BufRead, BufReader, Write};
use std::path::{Path, PathBuf};
use std::process::{Command, Output, Stdio};
use std::sync::OnceLock;

/// Each prints the words that it is called with, and then does what a variable says. Each has to be called at the top, where all
/// that stood there still stands, and nothing else.
const SCRIPTS: [(&str, &str); 3] = [
    ("bin/rt", r#"echo "rt $*"; eval "$GATE_CI""#),
    ("bin/cargo", r#"echo "cargo $*"; eval "$GATE_TESTS""#),
    ("build", r#"echo ./build "$@"; eval "$GATE_BUILD""#),
];

/// What stands at the top besides: no source, since `rt ci` refuses one that stands in no crate.
const CRATE: &str = "crates/one/stdin";

/// What they print in a gate that passes, but for the verdict.
const WORDS: [&str; 3] = [
    "rt ci",
    "./build",
    "cargo test --release --offline --locked --manifest-path outside/Cargo.toml",
];

/// The line of `rt ci` that says how much was done, where nothing is wrong.
const OK: &str =
    "rt: ok; handles allowed: none; must-fail edits: 264 refused; every proof was done in this run";

/// The folder with the gate and the scripts.
fn folder() -> &'static Path {
    static FOLDER: OnceLock<PathBuf> = OnceLock::new();
    FOLDER.get_or_init(|| {
        let folder = Path::new(env!("CARGO_TARGET_TMPDIR")).join("gate");
        let _ = fs::remove_dir_all(&folder);
        scripts::put(&folder.join(CRATE), "");
        fs::create_dir_all(folder.join(".ci")).unwrap();
        fs::copy(path(".ci/run"), folder.join(".ci/run")).unwrap();
        let mut all: Vec<&str> = SCRIPTS.iter().map(|(name, _)| *name).collect();
        all.extend([CRATE, ".ci/run"]);
        all.sort();
        let (top, all) = (folder.display(), all.join(" "));
        for (name, body) in SCRIPTS {
            let stands = r#"$(echo $(find . -type f -printf '%P\n' | LC_ALL=C sort))"#;
            let body = format!("[ \"$PWD: {stands}\" = '{top}: {all}' ] || exit 1\n{body}");
            scripts::put(&folder.join(name), &body);
        }
        folder
    })
}

/// The gate, where `rt ci`, `build` and `cargo` do this.
fn gate(ci: &str, build: &str, tests: &str) -> Command {
    let mut gate = Command::new(folder().join(".ci/run"));
    scripts::before_others(&mut gate, &folder().join("bin"));
    gate.env("GATE_CI", ci)
        .env("GATE_BUILD", build)
        .env("GATE_TESTS", tests);
    gate
}

/// Each of them goes on when its words have been seen, and gives up after 20 seconds.
#[test]
fn a_line_is_seen_at_once_and_the_verdict_last() {
    let wait = "read -r -t 20";
    for verdict in ["1 passed, 0 failed", "274 passed, 0 failed"] {
        let mut gate = gate(
            &format!("{wait} && echo '{OK}' && echo {verdict}"),
            wait,
            wait,
        );
        let gate = gate.stdin(Stdio::piped()).stdout(Stdio::piped());
        let mut run = gate.spawn().unwrap();
        let mut input = run.stdin.take().unwrap();
        let mut lines = Vec::new();
        for line in BufReader::new(run.stdout.take().unwrap()).lines() {
            lines.push(line.unwrap());
            // It no longer listens where it has given up.
            let _ = input.write_all(b"seen\n");
        }
        let [ci, rest @ ..] = WORDS;
        assert_eq!(lines, [&[ci, OK], &rest[..], &[verdict]].concat());
        assert!(run.wait().unwrap().success());
    }
}

fn lines(output: &Output) -> Vec<&str> {
    let text = std::str::from_utf8(&output.stdout).unwrap();
    text.lines().collect()
}

#[test]
fn nothing_else_passes() {
    let (passed, good, wrong) = ("echo 3 passed, 0 failed", "true", "false");
    for (ci, build, tests) in [
        ("echo 3 passed, 0 failed; exit 1", good, good),
        ("echo 3 passed, 0 failed; echo more", good, good),
        ("echo 2 passed, 1 failed; exit 1", good, good),
        ("echo 2 passed, 1 failed", good, good),
        ("echo 0 passed, 0 failed", good, good),
        ("echo 3 passed, 0 failed, 1 skipped", good, good),
        ("echo all 3 passed, 0 failed", good, good),
        ("true", good, good),
        (passed, wrong, good),
        (passed, good, wrong),
    ] {
        let ci = &format!("echo '{OK}'; {ci}");
        let output = gate(ci, build, tests).output().unwrap();
        let lines = lines(&output);
        assert!(!output.status.success(), "{lines:?}");
        assert_eq!(lines.last(), Some(&".ci/run: failed"), "{lines:?}");
        assert!(!lines.contains(&"3 passed, 0 failed"), "{lines:?}");
        let count = "2 passed, 1 failed";
        assert_eq!(lines.contains(&count), ci.contains(count), "{lines:?}");
    }
}

/// The gate where `rt ci` passes and has this line about it, after another of its own.
fn gate_after(line: &str) -> Output {
    let ci = format!("echo 'rt: note, 7 bad'; echo '{line}'; echo 3 passed, 0 failed");
    gate(&ci, "true", "true").output().unwrap()
}

/// The line, where `rt ci` says this of the edits and of the other work.
fn line(edits: &str, done: &str) -> String {
    format!("rt: ok; handles allowed: none{edits}; {done}")
}

const DONE: [&str; 2] = [
    "every proof and must-fail edit was done in this run",
    "done in this run: 2 of the 45 proofs (of crates and of their tests) and 1 of the 264 must-fail edits; the others are kept from earlier runs of the same files on this machine",
];

/// `rt ci` itself passes where an edit could not be tried.
#[test]
fn bad_edits_fail() {
    let mut bad = vec![
        String::new(),
        "rt: good".into(),
        OK.replace("rt: ok", "rt:ok"),
    ];
    for edits in [
        "; must-fail edits: 264 refused, 1 bad",
        "; must-fail edits: 264 refused, 10 bad",
        "; must-fail edits: 264 refused, 3 of them only by a limit, 20 bad",
        "; must-fail edits: 0 refused, 264 bad",
    ] {
        bad.extend(DONE.map(|done| line(edits, done)));
    }
    for bad in &bad {
        let output = gate_after(bad);
        let lines = lines(&output);
        assert!(!output.status.success(), "{lines:?}");
        assert_eq!(lines.last(), Some(&".ci/run: failed"), "{lines:?}");
        assert!(!lines.contains(&"3 passed, 0 failed"), "{lines:?}");
    }
    let mut good = vec![OK.to_owned()];
    for edits in [
        "",
        "; must-fail edits: 264 refused",
        "; must-fail edits: 264 refused, 3 of them only by a limit",
        "; must-fail edits: 264 refused, 0 bad",
    ] {
        good.extend(DONE.map(|done| line(edits, done)));
    }
    for good in &good {
        let output = gate_after(good);
        let lines = lines(&output);
        assert!(output.status.success(), "{lines:?}");
        assert_eq!(lines.last(), Some(&"3 passed, 0 failed"), "{lines:?}");
    }
}
