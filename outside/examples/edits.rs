//! Writes the list of all edits at the end of docs/DEMANDS.md anew, from the files in the crates:
//!
//!     cargo run --release --offline --locked --manifest-path outside/Cargo.toml --example edits

use outside::names::section_of_edits;
use outside::repository::{bytes, path};
use std::fs;

fn main() {
    let name = "docs/DEMANDS.md";
    let text = String::from_utf8(bytes(name)).unwrap();
    let (before, _) = text.split_once("| Crate | Edits |").unwrap();
    fs::write(path(name), before.to_owned() + &section_of_edits()).unwrap();
}
