//! Links the proved library where the feature `ours` asks for it: the one in the folder FINURAHO_LIBRARY,
//! or the one that `examples/library` makes.

use std::path::{Path, PathBuf};

fn main() {
    println!("cargo::rerun-if-changed=build.rs");
    if std::env::var_os("CARGO_FEATURE_OURS").is_none() {
        return;
    }
    println!("cargo::rerun-if-env-changed=FINURAHO_LIBRARY");
    let here = std::env::var("CARGO_MANIFEST_DIR").expect("cargo names the crate's folder");
    let made = Path::new(&here).join("../target/staticlib");
    let folder = std::env::var("FINURAHO_LIBRARY").map_or(made, PathBuf::from);
    let archive = folder.join("libfinuraho.a");
    assert!(archive.exists(), "{} is missing: run `examples/library`", archive.display());
    println!("cargo::rerun-if-changed={}", archive.display());
    println!("cargo::rustc-link-search=native={}", folder.display());
    println!("cargo::rustc-link-lib=static=finuraho");
}
