//! Links the static libraries of libraries.txt, which `build` has written to the repository's target folder, or those in
//! the folder that the variable LIBRARIES names; and compiles the rule in C and links it.

use std::env;
use std::path::PathBuf;
use std::process::Command;

const WARNINGS: [&str; 4] = ["-Wall", "-Wextra", "-Wpedantic", "-Werror"];

fn main() {
    link_the_libraries();
    link_the_rule_in_c();
}

fn link_the_libraries() {
    let root = PathBuf::from(env::var("CARGO_MANIFEST_DIR").unwrap()).join("..");
    let proved = root.join("target").join("staticlib");
    let folder = env::var_os("LIBRARIES").map_or(proved, PathBuf::from);
    println!("cargo:rerun-if-env-changed=LIBRARIES");
    println!("cargo:rustc-env=LIBRARIES={}", folder.display());
    println!("cargo:rerun-if-changed=libraries.txt");
    println!("cargo:rustc-link-search=native={}", folder.display());
    let lines = include_str!("libraries.txt").lines();
    for name in lines.filter(|line| !line.starts_with('#')) {
        let archive = folder.join(format!("lib{name}.a"));
        println!("cargo:rerun-if-changed={}", archive.display());
        let missing = format!("{} is missing: ./build {name} writes it", archive.display());
        assert!(archive.exists(), "{missing}");
        println!("cargo:rustc-link-lib=static={name}");
    }
}

/// With either choice of the link that is split on, and with chosen nodes.
fn link_the_rule_in_c() {
    let folder = PathBuf::from(env::var("OUT_DIR").unwrap());
    let mut archive = Command::new("ar");
    archive.arg("rcs").arg(folder.join("librule.a"));
    for (choice, source, object) in [
        ("LARGEST_SUM", "c/rule.c", "rule.o"),
        ("FIRST_LINK", "c/rule.c", "first_link.o"),
        ("LARGEST_SUM", "c/chosen.c", "chosen.o"),
    ] {
        let object = folder.join(object);
        let mut gcc = Command::new("gcc");
        gcc.args(["-std=c11", "-O3", "-march=native"])
            .args(WARNINGS);
        gcc.args(["-D", choice, "-c", source, "-o"]);
        ran(gcc.arg(&object));
        archive.arg(object);
        println!("cargo:rerun-if-changed={source}");
    }
    ran(&mut archive);
    println!("cargo:rustc-link-search=native={}", folder.display());
    println!("cargo:rustc-link-lib=static=rule");
}

fn ran(command: &mut Command) {
    let status = command.status();
    let status = status.unwrap_or_else(|error| panic!("{command:?}: {error}"));
    assert!(status.success(), "{command:?}: {status}");
}
