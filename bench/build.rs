//! Compiles the Gecode column where Debian's libgecode-dev is installed; without it the column is left out.

use std::env;
use std::path::{Path, PathBuf};
use std::process::Command;

fn ran(command: &mut Command) -> bool {
    command.status().is_ok_and(|status| status.success())
}

fn main() {
    println!("cargo:rerun-if-changed=src/gecode.cpp");
    if !Path::new("/usr/include/gecode/int.hh").exists() {
        return;
    }
    let folder = PathBuf::from(env::var_os("OUT_DIR").expect("cargo names it"));
    let (object, archive) = (folder.join("gecode.o"), folder.join("libbenchgecode.a"));
    let compiled = ran(Command::new("g++").args(["-O3", "-std=c++17", "-c", "src/gecode.cpp", "-o"]).arg(&object));
    if !compiled || !ran(Command::new("ar").arg("crs").arg(&archive).arg(&object)) {
        panic!("libgecode-dev is installed, but src/gecode.cpp does not compile");
    }
    println!("cargo:rustc-cfg=gecode");
    println!("cargo:rustc-link-search=native={}", folder.display());
    println!("cargo:rustc-link-lib=static=benchgecode");
    for library in ["gecodeint", "gecodekernel", "gecodesupport", "stdc++"] {
        println!("cargo:rustc-link-lib=dylib={library}");
    }
}
