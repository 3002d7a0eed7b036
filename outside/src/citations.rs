//! What the documents cite: names in backticks, with the crate and the file that declare them in parentheses behind.

use crate::names::{self, OUTSIDE};
use crate::repository::path;
use std::collections::{HashMap, HashSet};
use std::path::{Path, PathBuf};

/// Where a name should be declared: in each of the crates, in this file of it or in any.
#[derive(Clone, Debug)]
pub struct Place {
    pub crates: Vec<String>,
    pub file: Option<String>,
}

/// A part of a document.
#[derive(Debug)]
pub enum Part {
    /// Words in backticks, and where they start.
    Quoted(usize, String),
    /// A place in parentheses.
    At(Place),
    /// All other text.
    Text(String),
}

fn unquoted(text: &str) -> Option<&str> {
    let inner = text.strip_prefix('`')?.strip_suffix('`')?;
    (!inner.contains('`')).then_some(inner)
}

/// What stands between the parentheses as a place: crates, or a crate and its file, or a file from the root.
fn place(inner: &str, crates: &[String]) -> Option<Place> {
    if let Some(file) = unquoted(inner).filter(|file| file.contains('/')) {
        let rest = file.strip_prefix("crates/")?;
        let (name, file) = rest.split_once('/')?;
        return Some(Place {
            crates: vec![name.into()],
            file: Some(file.into()),
        });
    }
    let (named, file) = match inner.split_once(", ") {
        Some((named, file)) => (named, Some(unquoted(file)?.to_owned())),
        None => (inner, None),
    };
    let named: Vec<String> = named.split(" and ").map(str::to_owned).collect();
    let known = |name: &String| name == OUTSIDE || crates.contains(name);
    (named.iter().all(known)).then_some(Place {
        crates: named,
        file,
    })
}

/// The parts of a text. Parentheses that hold no place are text, and what is quoted in them is a part of its own.
pub fn parts(text: &str, crates: &[String]) -> Vec<Part> {
    let mut all = Vec::new();
    let mut at = 0;
    let mut open = String::new();
    while let Some(c) = text[at..].chars().next() {
        let rest = &text[at + c.len_utf8()..];
        let (part, length) = match c {
            '`' if rest.contains('`') => {
                let end = rest.find('`').unwrap();
                let quoted = Part::Quoted(at, rest[..end].to_owned());
                (Some(quoted), end + 2)
            }
            '(' => {
                let end = rest.find(')').unwrap_or(0);
                let found = place(&rest[..end], crates);
                let length = if found.is_some() { end + 2 } else { 1 };
                (found.map(Part::At), length)
            }
            _ => (None, c.len_utf8()),
        };
        match part {
            Some(part) => {
                all.push(Part::Text(std::mem::take(&mut open)));
                all.push(part);
            }
            None => open.push(c),
        }
        at += length;
    }
    all.push(Part::Text(open));
    all
}

/// The repository's names, each file read once.
pub struct Names {
    pub crates: Vec<String>,
    all: HashSet<String>,
    by_crate: HashMap<String, HashSet<String>>,
    edits: HashMap<String, Vec<String>>,
}

impl Names {
    pub fn read() -> Names {
        let crates = names::crates();
        let mut cited = crates.clone();
        cited.push(OUTSIDE.into());
        let declared = |name: &String| (name.clone(), names::declared_in_crate(name));
        let edits = |name: &String| (name.clone(), names::edits(name));
        Names {
            all: names::all(),
            by_crate: cited.iter().map(declared).collect(),
            edits: crates.iter().map(edits).collect(),
            crates,
        }
    }

    /// Whether a name is declared anywhere. Of a path of names each one has to be.
    pub fn known(&self, name: &str) -> bool {
        name.split("::").all(|part| self.all.contains(part))
    }

    pub fn is_edit(&self, name: &str, of: &str) -> bool {
        let edits = self.edits.get(of);
        edits.is_some_and(|edits| edits.iter().any(|edit| edit == name))
    }

    fn declared(&self, name: &str, of: &str, file: Option<&str>) -> bool {
        let in_file = file.map(|file| {
            let file = folder(of).join(file);
            file.is_file() && names::declared_in(&file).contains(name)
        });
        in_file.unwrap_or_else(|| self.by_crate[of].contains(name))
    }

    /// What is wrong with a name that should be declared at this place, or be an edit there if edits may be cited.
    pub fn wrong(&self, name: &str, place: &Place, edits: bool) -> Option<String> {
        let file = place.file.as_deref();
        let missing = place.crates.iter().find(|of| {
            let declared = name.split("::").all(|part| self.declared(part, of, file));
            let edit = edits && file.is_none() && self.is_edit(name, of);
            !(declared || edit)
        })?;
        let place = folder_name(missing) + file.unwrap_or("");
        Some(format!("`{name}` is not declared in {place}"))
    }
}

fn folder_name(name: &str) -> String {
    if name == OUTSIDE {
        format!("{OUTSIDE}/")
    } else {
        format!("crates/{name}/")
    }
}

fn folder(name: &str) -> PathBuf {
    path(&folder_name(name))
}

/// Whether there is such a file, from the root, from `outside` or from a crate's folder; a name without a folder may be that of
/// any file of the crates, or of its ending alone.
pub fn is_a_file(name: &str, crates: &[String]) -> bool {
    let mut folders: Vec<PathBuf> = crates.iter().map(|name| folder(name)).collect();
    folders.extend([path(""), path(OUTSIDE)]);
    let found = folders.iter().any(|folder| folder.join(name).exists());
    let mut files = crates.iter().flat_map(|of| names::files(&folder(of)));
    found || !name.contains('/') && files.any(|file| has_name(&file, name))
}

fn has_name(file: &Path, name: &str) -> bool {
    let own = file.file_name().unwrap().to_string_lossy();
    own == name || name.starts_with('.') && own.ends_with(name)
}
