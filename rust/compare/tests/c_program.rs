//! C programs compiled against the header and the archive, and run.

use std::path::{Path, PathBuf};
use std::process::Command;
use std::{env, fs};

/// Compiles a program with every warning an error, runs it, and asks that it ends well.
fn runs(source: &Path, name: &str) {
    let (host, target) = (env!("COMPARE_HOST"), env!("COMPARE_TARGET"));
    let cross = host != target;
    let compiler = if cross { "x86_64-linux-gnu-gcc" } else { "cc" };
    let program = scratch(name);
    let compiled = Command::new(compiler)
        .args([
            "-Wall",
            "-Wextra",
            "-Wpedantic",
            "-Werror",
            "-std=c11",
            "-O2",
        ])
        .args(if cross { &["-static"][..] } else { &[] })
        .arg("-I")
        .arg(env!("COMPARE_INCLUDE"))
        .arg(source)
        .arg("-L")
        .arg(env!("COMPARE_LIB_DIR"))
        .arg("-lhinurapay")
        .arg("-o")
        .arg(&program)
        .status()
        .unwrap_or_else(|why| panic!("{compiler} is missing: {why}"));
    assert!(compiled.success(), "{compiler} turned the program down");

    let mut run = if cross {
        let mut runner = Command::new("qemu-x86_64");
        runner.arg(&program);
        runner
    } else {
        Command::new(&program)
    };
    let status = run.status().expect("the program can be run");
    assert!(status.success(), "the program found something wrong");
}

fn scratch(name: &str) -> PathBuf {
    Path::new(env!("CARGO_TARGET_TMPDIR")).join(name)
}

fn here() -> &'static Path {
    Path::new(env!("CARGO_MANIFEST_DIR"))
}

#[test]
fn every_function_of_the_header_answers_a_c_program() {
    let source = here().join("tests/c/all_functions.c");
    let program = fs::read_to_string(&source).expect("the program can be read");
    let header = Path::new(env!("COMPARE_INCLUDE")).join("hinurapay.h");
    let header = fs::read_to_string(header).expect("the header can be read");
    let declared = header.lines().filter(|line| line.starts_with("hp_"));
    let mut functions = 0;
    for line in declared {
        let (before, _) = line.split_once('(').expect("a function is declared");
        let (_, name) = before.split_once(' ').expect("with a name");
        assert!(program.contains(&format!("{name}(")), "{name} is called");
        functions += 1;
    }
    assert_eq!(functions, 30);
    runs(&source, "all_functions");
}

#[test]
fn the_readme_s_c_program_runs() {
    let readme =
        fs::read_to_string(here().join("../../README.md")).expect("the README can be read");
    let (_, rest) = readme
        .split_once("```c\n")
        .expect("the README has a C program");
    let (program, _) = rest.split_once("```").expect("which ends");
    let source = scratch("readme.c");
    fs::write(&source, program).expect("the program can be written");
    runs(&source, "readme");
}
