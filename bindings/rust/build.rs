//! Links the archive that ./release writes: the one in the folder that ENGINE_LIB_DIR names, or the one for this target
//! of the release that this crate stands in or beside. Where there is none there, checking and documenting go on, with
//! a warning, and linking fails.
use std::path::{Path, PathBuf};

/// The release's archives, from this package's folder on: of a crate in a release, and of the repository's.
const LIBS: [&str; 2] = ["../../lib", "../../target/release/lib"];

/// Calls that are declared.
const CALLS: [&str; 26] = [
    "version",
    "compile",
    "circle",
    "agree",
    "agree_for",
    "pair",
    "leak",
    "formula",
    "assemble",
    "describe",
    "join",
    "event_count",
    "behaviour_count",
    "event_rank",
    "start",
    "arrive",
    "deliver",
    "taken",
    "step",
    "frame",
    "told",
    "board",
    "forecast",
    "preview",
    "mend",
    "replay",
];

/// The folder that ./release has for a Rust target. Rust's x86_64-apple-ios is the simulator: no device has that
/// processor.
const FOLDERS: [(&str, &str); 9] = [
    ("x86_64-unknown-linux-gnu", "x86_64-linux"),
    ("aarch64-unknown-linux-gnu", "aarch64-linux"),
    ("x86_64-linux-android", "x86_64-android"),
    ("aarch64-linux-android", "aarch64-android"),
    ("aarch64-apple-ios", "arm64-ios"),
    ("aarch64-apple-ios-sim", "arm64-ios-simulator"),
    ("x86_64-apple-ios", "x86_64-ios-simulator"),
    ("aarch64-apple-darwin", "arm64-macos"),
    ("x86_64-apple-darwin", "x86_64-macos"),
];

fn fail(what: &str) -> ! {
    eprintln!("poqashem: {what}");
    std::process::exit(1)
}

/// The folder of the archive, as it is named and from the root on. That of a release is named from this package's
/// folder on, where a build script runs: checkouts that share a target folder share the compiled script and what cargo
/// keeps of its run, and a path from the root on would be that of the checkout that was built first.
fn folder() -> (PathBuf, PathBuf) {
    println!("cargo:rerun-if-env-changed=ENGINE_LIB_DIR");
    if let Some(named) = std::env::var_os("ENGINE_LIB_DIR") {
        let named = PathBuf::from(named);
        if named.is_relative() {
            fail("ENGINE_LIB_DIR is a relative path, and a build runs in several folders: name it from the root on");
        }
        return (named.clone(), named);
    }
    let target = std::env::var("TARGET").expect("cargo sets TARGET");
    let known = FOLDERS.iter().find(|(name, _)| *name == target);
    let Some((_, own)) = known else {
        fail(&format!("no archive is released for {target}; ENGINE_LIB_DIR names the folder of another libengine.a"));
    };
    let package = std::env::var_os("CARGO_MANIFEST_DIR").expect("cargo sets CARGO_MANIFEST_DIR");
    let all = LIBS.map(|lib| Path::new(lib).join(own)).map(|own| (own.clone(), Path::new(&package).join(own)));
    for (named, _) in &all {
        println!("cargo:rerun-if-changed={}", named.join("libengine.a").display());
    }
    let [_, ref last] = all;
    all.iter().find(|(_, at)| at.join("libengine.a").exists()).unwrap_or(last).clone()
}

/// Whether the archive has this call: its name ends at a zero byte in a symbol table, and begins there, behind an
/// underscore where the format asks for one, or behind the dot of its section's name.
fn has(archive: &[u8], call: &str) -> bool {
    let name = format!("engine_{call}\0");
    let begins = |at: usize| at > 0 && !archive[at - 1].is_ascii_alphanumeric();
    archive.windows(name.len()).enumerate().any(|(at, w)| w == name.as_bytes() && begins(at))
}

fn main() {
    let (named, folder) = folder();
    println!("cargo:rerun-if-changed={}", named.join("libengine.a").display());
    let file = folder.join("libengine.a");
    match std::fs::read(&file) {
        Ok(archive) => {
            if let Some(call) = CALLS.iter().find(|call| !has(&archive, call)) {
                let told = "it is not one that this ./release wrote";
                fail(&format!("{} does not have engine_{call}: {told}", file.display()));
            }
        }
        Err(e) => {
            let told = "./release in the repository's root writes it; ENGINE_LIB_DIR names the folder of another one";
            let told = format!("{}: {e}. {told}", file.display());
            if std::env::var_os("ENGINE_LIB_DIR").is_some() {
                fail(&told);
            }
            println!("cargo:warning=poqashem: {told}. Without it nothing can be linked");
        }
    }
    println!("cargo:rustc-link-search=native={}", folder.display());
    println!("cargo:rustc-link-lib=static=engine");
}
