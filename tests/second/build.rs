//! Builds the engine that was written by hand in C (tests/bench/cengine.c), to be measured beside the proved one.
use std::path::Path;
use std::process::Command;

fn run(command: &mut Command) {
    let done = command.status().unwrap_or_else(|e| panic!("{command:?}: {e}"));
    assert!(done.success(), "{command:?} failed");
}

fn main() {
    let package = std::env::var_os("CARGO_MANIFEST_DIR").expect("cargo sets CARGO_MANIFEST_DIR");
    let folder = Path::new(&package).join("../bench");
    let out = std::env::var("OUT_DIR").expect("cargo sets OUT_DIR");
    let (object, archive) = (format!("{out}/cengine.o"), format!("{out}/libcengine.a"));
    println!("cargo:rerun-if-changed={}", folder.join("cengine.c").display());
    println!("cargo:rerun-if-changed={}", folder.join("cengine.h").display());
    run(Command::new("gcc").args(["-std=c99", "-O3", "-c", "-o", &object]).arg(folder.join("cengine.c")));
    run(Command::new("ar").args(["rcs", &archive, &object]));
    println!("cargo:rustc-link-search=native={out}");
    println!("cargo:rustc-link-lib=static=cengine");
}
