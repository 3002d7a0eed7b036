//! Programs in C that link the library.

use crate::repository::{library, path};
use std::ffi::OsStr;
use std::io::Write;
use std::path::Path;
use std::process::{Command, Output, Stdio};

/// What a command writes, which has to end well and to complain of nothing.
pub fn ran(command: &mut Command) -> Output {
    let output = command.output();
    let output = output.unwrap_or_else(|error| panic!("{command:?}: {error}"));
    let said = String::from_utf8_lossy(&output.stderr);
    assert!(
        output.status.success() && said.is_empty(),
        "{command:?}: {said}"
    );
    output
}

/// The exit status of a program, or -1, and what it writes to standard output and to standard error, with this on standard input.
pub fn run(program: &Path, words: &[impl AsRef<OsStr>], input: &str) -> (i32, String, String) {
    let mut command = Command::new(program);
    command.args(words).stdin(Stdio::piped());
    command.stdout(Stdio::piped()).stderr(Stdio::piped());
    let mut run = command.spawn().unwrap();
    let _ = run.stdin.take().unwrap().write_all(input.as_bytes());
    let output = run.wait_with_output().unwrap();
    let text = |bytes| String::from_utf8(bytes).unwrap();
    let status = output.status.code().unwrap_or(-1);
    (status, text(output.stdout), text(output.stderr))
}

const WARNINGS: &str = "-O1 -g -Wall -Wextra -Wpedantic -Werror";

/// Compiles a program of the repository with this compiler, every warning an error, and links the library.
fn compiled_by(compiler: &str, language: &str, source: &str, program: &Path) {
    let mut command = Command::new(compiler);
    command.args(language.split(' ')).args(WARNINGS.split(' '));
    command.arg("-I").arg(path("include"));
    command.arg("-o").arg(program).arg(path(source));
    ran(command.args(["-x", "none"]).arg(library("desk")));
}

/// Compiles a program in C, and returns where it stands.
pub fn compiled<'a>(source: &str, program: &'a Path) -> &'a Path {
    compiled_by("gcc", "-std=c11 -x c", source, program);
    program
}

/// The same as C++.
pub fn compiled_as_cpp<'a>(source: &str, program: &'a Path) -> &'a Path {
    compiled_by("g++", "-std=c++11 -x c++", source, program);
    program
}
