//! Files of the repository.

use std::fs;
use std::path::{Path, PathBuf};

/// A file or a folder of the repository.
pub fn path(name: &str) -> PathBuf {
    Path::new(env!("CARGO_MANIFEST_DIR")).join("..").join(name)
}

/// A static library that the tests link.
pub fn library(name: &str) -> PathBuf {
    Path::new(env!("LIBRARIES")).join(format!("lib{name}.a"))
}

/// The bytes of a file of the repository.
pub fn bytes(name: &str) -> Vec<u8> {
    fs::read(path(name)).unwrap_or_else(|error| panic!("{name}: {error}"))
}

/// The bytes of a sample plan.
pub fn plan(name: &str) -> Vec<u8> {
    bytes(&format!("plans/{name}.plan"))
}

/// The bytes of a sample table.
pub fn table(name: &str) -> Vec<u8> {
    bytes(&format!("plans/{name}.table"))
}

/// The names of the sample plans and tables that have a file with this ending, in order.
pub fn plans_with(ending: &str) -> Vec<String> {
    let files = fs::read_dir(path("plans")).unwrap();
    let name = |file: PathBuf| {
        let fits = file.extension().is_some_and(|e| e == ending);
        fits.then(|| file.file_stem().unwrap().to_str().unwrap().to_owned())
    };
    let mut names: Vec<String> = files.filter_map(|f| name(f.unwrap().path())).collect();
    names.sort();
    names
}
