//! The names that the repository's files declare, and the edits that have to fail.

use crate::repository::path;
use std::collections::HashSet;
use std::fs;
use std::path::{Path, PathBuf};

/// The folder that stands beside the crates in what documents cite.
pub const OUTSIDE: &str = "outside";

/// The names in a folder, in order.
fn entries(folder: &Path) -> Vec<PathBuf> {
    let Ok(all) = fs::read_dir(folder) else {
        return Vec::new();
    };
    let mut paths: Vec<PathBuf> = all.map(|entry| entry.unwrap().path()).collect();
    paths.sort();
    paths
}

/// The file itself, or all files of a folder and of those in it, but for what cargo or the kit builds.
pub fn files(place: &Path) -> Vec<PathBuf> {
    if place.is_file() {
        return vec![place.to_owned()];
    }
    let inner = entries(place).into_iter();
    let inner = inner.filter(|inner| !inner.ends_with("target") && !inner.ends_with("out"));
    inner.flat_map(|inner| files(&inner)).collect()
}

fn stem(file: &Path) -> String {
    file.file_stem().unwrap().to_string_lossy().into_owned()
}

/// The crates, in order.
pub fn crates() -> Vec<String> {
    let folders = entries(&path("crates"));
    folders.iter().map(|folder| stem(folder)).collect()
}

/// The edits of a crate, in order.
pub fn edits(name: &str) -> Vec<String> {
    let folder = path("crates").join(name).join("must-fail");
    let files = entries(&folder);
    let edits = files.iter().filter(|file| ends_in(file, "edit"));
    edits.map(|file| stem(file)).collect()
}

fn ends_in(file: &Path, ending: &str) -> bool {
    file.extension().is_some_and(|e| e == ending)
}

/// Whether a character may stand in a name of the code or of the proofs.
pub fn in_a_name(c: char) -> bool {
    c.is_alphanumeric() || c == '_' || c == '-'
}

/// The name at the start of a text.
fn first_name(text: &str) -> &str {
    let end = text.find(|c| !in_a_name(c)).unwrap_or(text.len());
    &text[..end]
}

/// What may stand before the name that a line of a proof file declares.
const BEFORE: [&str; 5] = ["pub", "abbrev", "unfoldable", "record", "data"];

/// The name that a line of a proof file declares: `pub name : ..`.
fn declared_by_proof(line: &str) -> Option<&str> {
    let (before, _) = line.split_once(" :")?;
    let mut words = before.split(' ').skip_while(|word| word.is_empty());
    let name = words.find(|word| !BEFORE.contains(word))?;
    let of_a_record = before.contains("record ") || before.contains("data ");
    let alone = words.next().is_none() || of_a_record;
    (alone && name.chars().all(in_a_name)).then_some(name)
}

/// What stands before the name that a line of code declares; `ensures` has one where a crate above rests on it by name, `ghost` where
/// it is a member of a trait or a field.
const ITEMS: [&str; 12] = [
    "const fn ",
    "fn ",
    "struct ",
    "enum ",
    "trait ",
    "ghost ",
    "const ",
    "type ",
    "mod ",
    "ensures ",
    "#define ",
    "uint64_t ",
];

/// The name that a line of code declares: an item, or a member, a field or a variant of one.
fn declared_by_code(line: &str) -> Option<&str> {
    let mut rest = line.trim_start();
    for word in ["pub ", "static ", "extern \"C\" "] {
        rest = rest.strip_prefix(word).unwrap_or(rest);
    }
    if rest.starts_with("ghost use ") {
        return None;
    }
    for word in ITEMS {
        if let Some(named) = rest.strip_prefix(word) {
            return Some(first_name(named));
        }
    }
    let member = line.starts_with("    ") && !line.starts_with("     ");
    let name = first_name(rest);
    let behind = rest[name.len()..].chars().next();
    let variant = name.starts_with(char::is_uppercase) && matches!(behind, Some(',' | '('));
    let field = behind == Some(':') && !rest[name.len()..].starts_with("::");
    (member && (variant || field)).then_some(name)
}

/// The names that a file declares.
pub fn declared_in(file: &Path) -> HashSet<String> {
    let text = String::from_utf8_lossy(&fs::read(file).unwrap()).into_owned();
    let declared = if ends_in(file, "antt") {
        declared_by_proof
    } else {
        declared_by_code
    };
    let names = text.lines().filter_map(declared);
    names.map(str::to_owned).collect()
}

/// The names that the sources of a crate, or of `outside`, declare.
pub fn declared_in_crate(name: &str) -> HashSet<String> {
    let (folder, parts) = if name == OUTSIDE {
        (path(OUTSIDE), ["src", "tests", "c"])
    } else {
        (path("crates").join(name), ["src", "specs", "proofs"])
    };
    let all = parts.iter().flat_map(|part| files(&folder.join(part)));
    all.flat_map(|file| declared_in(&file)).collect()
}

/// The names that are declared anywhere; the names of crates, of edits and of files, and of folders of proofs.
pub fn all() -> HashSet<String> {
    let mut names: HashSet<String> = crates().into_iter().collect();
    for name in crates() {
        names.extend(declared_in_crate(&name));
        names.extend(edits(&name));
    }
    names.extend(declared_in_crate(OUTSIDE));
    names.extend(declared_in(&path("include/plandesk.h")));
    for place in [
        "crates", "outside", "include", "examples", "plans", "bench", "docs",
    ] {
        names.extend(files(&path(place)).iter().map(|file| stem(file)));
    }
    names
}

/// The section of docs/DEMANDS.md that lists all edits.
pub fn section_of_edits() -> String {
    let mut text = String::from("| Crate | Edits |\n|---|---|\n");
    for name in crates() {
        let edits: Vec<String> = edits(&name).iter().map(|e| format!("`{e}`")).collect();
        if !edits.is_empty() {
            text.push_str(&format!("| `{name}` | {} |\n", edits.join(", ")));
        }
    }
    text
}
