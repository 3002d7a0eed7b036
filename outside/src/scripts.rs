//! Scripts that stand in for commands.

use std::fs;
use std::os::unix::fs::PermissionsExt;
use std::path::Path;
use std::process::Command;

/// Writes a script, and the folder that it stands in.
pub fn put(script: &Path, body: &str) {
    fs::create_dir_all(script.parent().unwrap()).unwrap();
    fs::write(script, format!("#!/usr/bin/env bash\n{body}\n")).unwrap();
    fs::set_permissions(script, fs::Permissions::from_mode(0o755)).unwrap();
}

/// Has a command find the scripts of this folder before any other.
pub fn before_others(command: &mut Command, folder: &Path) {
    let others = std::env::var("PATH").unwrap();
    command.env("PATH", format!("{}:{others}", folder.display()));
}
