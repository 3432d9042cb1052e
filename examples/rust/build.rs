//! Links the proved library.

use std::path::Path;

fn main() {
    let here = std::env::var("CARGO_MANIFEST_DIR").expect("cargo names the crate's folder");
    let folder = Path::new(&here).join("../../target/staticlib");
    let archive = folder.join("libfinuraho.a");
    assert!(archive.exists(), "{} is missing: run `examples/library`", archive.display());
    println!("cargo::rerun-if-changed=build.rs");
    println!("cargo::rerun-if-changed={}", archive.display());
    println!("cargo::rustc-link-search=native={}", folder.display());
    println!("cargo::rustc-link-lib=static=finuraho");
}
