//! Finds the proved archive, or has it built, and links it.

use std::env;
use std::fs;
use std::path::{Path, PathBuf};
use std::process::{exit, Command};

fn main() {
    println!("cargo:rerun-if-changed=build.rs");
    println!("cargo:rerun-if-env-changed=HINURAPAY_LIB_DIR");
    let target = env::var("CARGO_CFG_TARGET_ARCH").unwrap_or_default();
    if target != "x86_64" {
        stop(&format!(
            "the archive is x86-64 only; build for x86_64-unknown-linux-gnu, not for {target}"
        ));
    }
    let folder = match env::var_os("HINURAPAY_LIB_DIR") {
        Some(folder) => PathBuf::from(folder),
        None => build(),
    };
    let archive = folder.join("libhinurapay.a");
    if !archive.is_file() {
        stop(&format!("there is no {}", archive.display()));
    }
    println!("cargo:rerun-if-changed={}", archive.display());
    println!("cargo:rustc-link-search=native={}", folder.display());
    println!("cargo:rustc-link-lib=static=hinurapay");
    // for build scripts of crates that depend on this one
    println!("cargo:lib_dir={}", folder.display());
    println!("cargo:include={}", root().join("include").display());
}

/// The repository's root: the folder above `rust`.
fn root() -> PathBuf {
    let here = PathBuf::from(env::var_os("CARGO_MANIFEST_DIR").unwrap_or_default());
    here.ancestors()
        .nth(2)
        .unwrap_or(Path::new("/"))
        .to_path_buf()
}

/// Builds the archive and says in which folder it lies.
fn build() -> PathBuf {
    let root = root();
    // of a room's folders that which `rt` writes, `out`, is none of its text
    let rooms = fs::read_dir(root.join("crates")).into_iter().flatten();
    for room in rooms.flatten() {
        for part in ["src", "specs", "proofs"] {
            let part = room.path().join(part);
            if part.is_dir() {
                println!("cargo:rerun-if-changed={}", part.display());
            }
        }
    }
    let listed = root.join("crates.txt");
    println!("cargo:rerun-if-changed={}", listed.display());
    match Command::new(root.join("rust/archive")).status() {
        Ok(status) if status.success() => root.join("target/staticlib"),
        _ => stop("`rust/archive` failed; or name the archive's folder in HINURAPAY_LIB_DIR"),
    }
}

/// Ends the build with one line that says what is missing.
fn stop(why: &str) -> ! {
    eprintln!("hinurapay: {why}");
    exit(1)
}
