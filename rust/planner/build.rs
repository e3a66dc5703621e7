//! Links target/staticlib/libvialbluff.a, which `rust/library` writes, unless the feature `stand-in` is asked for.

use std::path::Path;

const LIBRARY: &str = "vialbluff";

fn main() {
    println!("cargo:rerun-if-changed=build.rs");
    if std::env::var_os("CARGO_FEATURE_STAND_IN").is_some() {
        return;
    }
    let folder = Path::new(env!("CARGO_MANIFEST_DIR")).join("../../target/staticlib");
    let archive = folder.join(format!("lib{LIBRARY}.a"));
    println!("cargo:rerun-if-changed={}", archive.display());
    assert!(archive.is_file(), "{} is not there: run `rust/library` first", archive.display());
    println!("cargo:rustc-link-search=native={}", folder.display());
    println!("cargo:rustc-link-lib=static={LIBRARY}");
}
