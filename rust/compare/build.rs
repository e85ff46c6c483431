//! Tells the tests where the archive and the header lie, and whether they are built for another machine.

use std::env;

fn main() {
    println!("cargo:rerun-if-changed=build.rs");
    for (name, from) in [
        ("COMPARE_LIB_DIR", "DEP_HINURAPAY_LIB_DIR"),
        ("COMPARE_INCLUDE", "DEP_HINURAPAY_INCLUDE"),
        ("COMPARE_HOST", "HOST"),
        ("COMPARE_TARGET", "TARGET"),
    ] {
        println!("cargo:rerun-if-env-changed={from}");
        println!(
            "cargo:rustc-env={name}={}",
            env::var(from).unwrap_or_default()
        );
    }
}
