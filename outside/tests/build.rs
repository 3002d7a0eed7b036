//! The script `build`, with one of the test in place of `rt`.

use outside::repository::path;
use outside::scripts;
use std::fs;
use std::path::{Path, PathBuf};
use std::process::{Command, Output};

/// Notes its words and the crate that it is called in, and makes there what the kit does, unless it is to fail.
const RT: &str = r#"name=${PWD##*/}
echo "$* in $name" >>../../log
[ "$name" != "$BUILD_FAILS" ] || exit 1
mkdir -p out
case $1 in lib) file=out/lib$name.a ;; run) file=out/$name ;; esac
echo "made for $name" >"$file"
echo "what a program writes""#;

/// A folder with the script and the crates that it builds.
fn folder(name: &str) -> PathBuf {
    let folder = Path::new(env!("CARGO_TARGET_TMPDIR"))
        .join("build")
        .join(name);
    let _ = fs::remove_dir_all(&folder);
    scripts::put(&folder.join("bin/rt"), RT);
    for name in ["build", "outside/libraries.txt"] {
        fs::create_dir_all(folder.join(name).parent().unwrap()).unwrap();
        fs::copy(path(name), folder.join(name)).unwrap();
    }
    for name in ["test_exports", "desk", "planlist"] {
        fs::create_dir_all(folder.join("crates").join(name)).unwrap();
    }
    folder
}

/// Runs the script there with these words, where the kit fails in this crate.
fn build(folder: &Path, words: &[&str], fails: &str) -> Output {
    let mut build = Command::new(folder.join("build"));
    scripts::before_others(&mut build, &folder.join("bin"));
    build.args(words).env("BUILD_FAILS", fails);
    build.output().unwrap()
}

fn lines(file: &Path) -> Vec<String> {
    let text = fs::read_to_string(file).unwrap_or_default();
    text.lines().map(str::to_owned).collect()
}

/// What is built, the words that the kit is called with, and where it has to stand.
const BUILT: [(&str, &str, &str); 3] = [
    (
        "test_exports",
        "lib in test_exports",
        "target/staticlib/libtest_exports.a",
    ),
    ("desk", "lib in desk", "target/staticlib/libdesk.a"),
    ("planlist", "run in planlist", "target/bin/planlist"),
];

/// Has each crate what the kit left there when it was last called.
fn built_before(folder: &Path) {
    for (name, _, file) in BUILT {
        let file = Path::new(file).file_name().unwrap();
        let out = folder.join("crates").join(name).join("out");
        fs::create_dir_all(&out).unwrap();
        fs::write(out.join(file), "made before").unwrap();
    }
}

#[test]
fn all_is_built_or_what_is_named() {
    let names: Vec<&str> = BUILT.iter().map(|(name, ..)| *name).collect();
    let alone = names.iter().map(std::slice::from_ref);
    for (i, words) in [&[][..], &["desk", "planlist"]]
        .into_iter()
        .chain(alone)
        .enumerate()
    {
        let folder = folder(&format!("good-{i}"));
        built_before(&folder);
        let output = build(&folder, words, "none");
        assert!(output.status.success(), "{output:?}");
        let named = |name: &&str| words.is_empty() || words.contains(name);
        let wanted = BUILT.iter().filter(|(name, ..)| named(name));
        let wanted: Vec<&str> = wanted.map(|(_, call, _)| *call).collect();
        assert_eq!(lines(&folder.join("log")), wanted);
        for (name, _, file) in BUILT {
            let held = lines(&folder.join(file));
            let made = [format!("made for {name}")];
            assert_eq!(held, if named(&name) { &made[..] } else { &[] }, "{file}");
        }
    }
}

#[test]
fn what_is_not_built_fails() {
    for (i, (words, fails)) in [
        (&[][..], "test_exports"),
        (&[], "desk"),
        (&[], "planlist"),
        (&["desk"], "desk"),
        (&["planlist"], "planlist"),
        (&["bits"], "none"),
        (&["des"], "none"),
        (&["desk", "outside"], "none"),
    ]
    .into_iter()
    .enumerate()
    {
        let folder = folder(&format!("wrong-{i}"));
        built_before(&folder);
        let output = build(&folder, words, fails);
        assert!(!output.status.success(), "{words:?} {output:?}");
        let said = String::from_utf8_lossy(&output.stderr);
        assert_eq!(said.contains(" is neither "), fails == "none", "{said}");
        for (name, _, file) in BUILT {
            assert!(name != fails || !folder.join(file).exists(), "{file}");
        }
    }
}
