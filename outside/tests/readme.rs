//! The documents: each command in them is run, and what it writes is what stands below it; each file in them exists, and each
//! name is declared where they say so.

use outside::citations::{is_a_file, parts, Names, Part, Place};
use outside::names::{declared_in_crate, edits, files, in_a_name, section_of_edits};
use outside::repository::{bytes, path};
use std::process::Command;

/// Documents with commands.
const DOCUMENTS: [&str; 2] = ["README.md", "docs/READING.md"];

/// The table of demands, whose form is strict.
const DEMANDS: &str = "docs/DEMANDS.md";

/// Words in backticks that are neither files nor declared: of the kit and its library.
const WORDS: [&str; 8] = [
    "rt", "io", "std", "itoa", "Option", "Result", "map_err", "find",
];

struct Example {
    line: usize,
    command: String,
    output: String,
}

/// The commands of the blocks indented by four spaces, each with the lines that follow it in its block.
fn examples(document: &str) -> Vec<Example> {
    let mut all: Vec<Example> = Vec::new();
    let mut open = false;
    for (i, line) in document.lines().enumerate() {
        let Some(shown) = line.strip_prefix("    ") else {
            open = false;
            continue;
        };
        if let Some(command) = shown.strip_prefix("$ ") {
            open = true;
            all.push(Example {
                line: i + 1,
                command: command.into(),
                output: String::new(),
            });
        } else if open {
            let output = &mut all.last_mut().unwrap().output;
            output.push_str(shown);
            output.push('\n');
        }
    }
    all
}

/// Runs them in order at the root of the repository. What is tested is built already, and not built again.
fn run(name: &str) {
    let document = String::from_utf8(bytes(name)).unwrap();
    let examples = examples(&document);
    let runs = |e: &&Example| !e.command.starts_with("./build ");
    assert!(examples.iter().any(|e| runs(&e)), "{name} has no example");
    for example in examples.iter().filter(runs) {
        let mut shell = Command::new("sh");
        shell.args(["-c", &example.command]).current_dir(path(""));
        let output = shell.output().unwrap();
        let at = format!("{name}:{}: {}", example.line, example.command);
        let said = String::from_utf8_lossy(&output.stderr);
        assert!(output.status.success() && said.is_empty(), "{at}: {said}");
        let written = String::from_utf8(output.stdout).unwrap();
        assert_eq!(written, example.output, "{at}");
    }
}

#[test]
fn commands_write_what_is_shown() {
    DOCUMENTS.into_iter().for_each(run);
}

fn text_of(document: &str) -> String {
    String::from_utf8(bytes(document)).unwrap()
}

/// Fails with all that is wrong.
fn none(wrong: Vec<String>) {
    assert!(wrong.is_empty(), "\n{}", wrong.join("\n"));
}

/// A path in backticks and not a name.
fn is_path(word: &str) -> bool {
    word.contains('/') || word.contains('.')
}

/// What is wrong with words in backticks that need no place: files have to exist, a phrase may be anything.
fn wrong_apart(word: &str, names: &Names) -> Option<String> {
    let free = word.contains("NAME") || word.contains(' ') || WORDS.contains(&word);
    if free || names.crates.iter().any(|name| name == word) {
        return None;
    }
    if is_path(word) {
        let missing = !is_a_file(word, &names.crates);
        return missing.then(|| format!("there is no file `{word}`"));
    }
    Some(format!("`{word}` has no crate behind it"))
}

/// Each name in the second column has its crate behind it, and its file where it is not of the source.
fn wrong_saying(cell: &str, names: &Names) -> Vec<String> {
    let mut wrong = Vec::new();
    let mut open: Vec<String> = Vec::new();
    for part in parts(cell, &names.crates) {
        match part {
            Part::Quoted(_, word) => open.push(word),
            Part::At(place) => {
                let held = open
                    .drain(..)
                    .filter(|word| !is_path(word) && !word.contains(' '));
                wrong.extend(held.filter_map(|word| names.wrong(&word, &place, false)));
            }
            Part::Text(_) => (),
        }
    }
    wrong.extend(open.iter().filter_map(|word| wrong_apart(word, names)));
    wrong
}

/// The third column is names of edits, each list with its crate behind it.
fn wrong_edits(cell: &str, names: &Names) -> Vec<String> {
    let mut wrong = Vec::new();
    let mut open: Vec<String> = Vec::new();
    for part in parts(cell, &names.crates) {
        match part {
            Part::Quoted(_, word) => open.push(word),
            Part::At(Place { crates, file: None }) => {
                for (name, of) in open.iter().flat_map(|e| crates.iter().map(move |c| (e, c))) {
                    if !names.is_edit(name, of) {
                        wrong.push(format!("there is no crates/{of}/must-fail/{name}.edit"));
                    }
                }
                open.clear();
            }
            Part::At(place) => wrong.push(format!("an edit has no file: {place:?}")),
            Part::Text(text) if ["", " ", ", "].contains(&text.as_str()) => (),
            Part::Text(text) => wrong.push(format!("neither an edit nor a crate: '{text}'")),
        }
    }
    wrong.extend(
        open.iter()
            .map(|name| format!("edit `{name}` has no crate")),
    );
    wrong
}

/// The cells of a row of a table.
fn cells(line: &str) -> Vec<String> {
    let line = line.replace("\\|", "\u{a6}");
    let inner = line.trim_matches('|').split('|');
    inner.map(|cell| cell.trim().to_owned()).collect()
}

#[test]
fn traits_and_their_members_are_declared() {
    let words = declared_in_crate("words");
    for name in ["Word", "size", "read_back", "read", "put"] {
        assert!(words.contains(name), "{name}");
    }
    // What a `ghost use` names is declared elsewhere.
    assert!(!words.contains("use") && !words.contains("Rattle"));
}

#[test]
fn demands_are_cited_where_they_are_declared() {
    let names = Names::read();
    let mut wrong = Vec::new();
    let mut rows = 0;
    for (i, line) in text_of(DEMANDS).lines().enumerate() {
        let cells = cells(line);
        let [sentence, said, edits] = &cells[..] else {
            continue;
        };
        rows += 1;
        if sentence == "Sentence" || sentence.starts_with("---") {
            continue;
        }
        let mut found = wrong_saying(said, &names);
        found.extend(wrong_edits(edits, &names));
        let row: String = sentence.chars().take(50).collect();
        let at = |what| format!("{DEMANDS}:{}, \"{row}..\": {what}", i + 1);
        wrong.extend(found.into_iter().map(at));
    }
    assert!(rows > 100, "too few rows: {rows}");
    none(wrong);
}

#[test]
fn all_edits_are_listed() {
    let names = Names::read();
    let text = text_of(DEMANDS);
    let mut wrong = Vec::new();
    let (_, section) = text.split_once("## All edits by crate\n").unwrap();
    let mut listed: Vec<(String, String)> = Vec::new();
    for line in section.lines().filter(|line| line.starts_with("| `")) {
        let cells = cells(line);
        let name = cells[0].trim_matches('`').to_owned();
        for edit in cells[1].split(", ").map(|edit| edit.trim_matches('`')) {
            if !names.is_edit(edit, &name) {
                wrong.push(format!(
                    "{DEMANDS}: there is no crates/{name}/must-fail/{edit}.edit"
                ));
            }
            listed.push((name.clone(), edit.to_owned()));
        }
    }
    for name in &names.crates {
        for edit in edits(name) {
            if !listed.contains(&(name.clone(), edit.clone())) {
                wrong.push(format!(
                    "{DEMANDS}: crates/{name}/must-fail/{edit}.edit is not listed"
                ));
            }
        }
    }
    none(wrong);
    assert!(section.ends_with(&section_of_edits()), "not in order");
}

/// The text without its blocks of code, character for character, and each line's end a space.
fn prose(text: &str) -> String {
    let mut block = true;
    let mut prose = String::new();
    for line in text.lines() {
        block = line.is_empty() || block && line.starts_with("    ");
        let code = block && !line.is_empty();
        prose.push_str(&if code {
            " ".repeat(line.len())
        } else {
            line.into()
        });
        prose.push(' ');
    }
    prose
}

/// The place that stands behind a list of names, in parentheses or as the file that they are in.
fn place_behind(parts: &[Part]) -> Option<Place> {
    match parts {
        [Part::Text(space), Part::At(place), ..] if space == " " => Some(place.clone()),
        [Part::Text(within), Part::Quoted(_, file), ..] if within == " in " => {
            let (name, file) = file.strip_prefix("crates/")?.split_once('/')?;
            Some(Place {
                crates: vec![name.into()],
                file: Some(file.into()),
            })
        }
        [Part::Text(comma), Part::Quoted(..), rest @ ..]
            if [", ", " and ", ", and "].contains(&comma.as_str()) =>
        {
            place_behind(rest)
        }
        _ => None,
    }
}

/// What is wrong with the names and files of a document: a place behind a name has to have it, any other name has to be
/// declared somewhere.
fn wrong_names(document: &str, names: &Names) -> Vec<String> {
    let text = text_of(document);
    let prose = prose(&text);
    let all = parts(&prose, &names.crates);
    let mut wrong = Vec::new();
    for (i, part) in all.iter().enumerate() {
        let Part::Quoted(at, word) = part else {
            continue;
        };
        let found = match place_behind(&all[i + 1..]) {
            _ if !word.chars().all(|c| in_a_name(c) || "/.:".contains(c)) => None,
            _ if is_path(word) => wrong_apart(word, names),
            Some(place) => names.wrong(word, &place, true),
            None if names.known(word) => None,
            None => wrong_apart(word, names).map(|_| format!("`{word}` is declared nowhere")),
        };
        let line = 1 + text[..*at].matches('\n').count();
        wrong.extend(found.map(|what| format!("{document}:{line}: {what}")));
    }
    wrong
}

#[test]
fn files_and_names_exist() {
    let names = Names::read();
    // What is built declares nothing.
    assert!(!names.known("libdesk"));
    let mut documents = ["README.md", "outside/README.md"]
        .map(str::to_owned)
        .to_vec();
    for file in files(&path("docs")) {
        let name = file.strip_prefix(path("")).unwrap().to_str().unwrap();
        documents.push(name.to_owned());
    }
    documents.retain(|name| name.ends_with(".md") && name != DEMANDS);
    assert!(documents.len() >= 3, "too few: {documents:?}");
    none(
        documents
            .iter()
            .flat_map(|name| wrong_names(name, &names))
            .collect(),
    );
}
