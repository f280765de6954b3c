//! Finds libsighting.a: in the folder that SIGHTING_LIB_DIR names, else where tests/build writes it. The archive needs
//! no library beside it but C's own, which Rust links anyway.

use std::env;
use std::path::{Path, PathBuf};

fn folder() -> PathBuf {
    let made_here = || Path::new(env!("CARGO_MANIFEST_DIR")).join("../../target/staticlib");
    env::var_os("SIGHTING_LIB_DIR").map_or_else(made_here, PathBuf::from)
}

fn main() {
    let folder = folder();
    let archive = folder.join("libsighting.a");
    println!("cargo:rerun-if-env-changed=SIGHTING_LIB_DIR");
    println!("cargo:rerun-if-changed={}", archive.display());
    if !archive.exists() {
        panic!("no {}: run tests/build, or name its folder in SIGHTING_LIB_DIR", archive.display());
    }
    println!("cargo:rustc-link-search=native={}", folder.display());
    println!("cargo:rustc-link-lib=static=sighting");
}
