//! Links libmaztubel.a: from the folder that MAZTUBEL_LIBRARY names, else from target/staticlib/ of the repository, where
//! `tools/archive maztubel` writes it.

use std::env;
use std::path::{Path, PathBuf};
use std::process::exit;

const VARIABLE: &str = "MAZTUBEL_LIBRARY";

fn main() {
    let folder = env::var_os(VARIABLE).map_or_else(
        || Path::new(env!("CARGO_MANIFEST_DIR")).join("../../target/staticlib"),
        PathBuf::from,
    );
    let archive = folder.join("libmaztubel.a");
    println!("cargo::rerun-if-env-changed={VARIABLE}");
    println!("cargo::rerun-if-changed={}", archive.display());
    if !archive.is_file() {
        println!(
            "cargo::error={} is missing: run `tools/archive maztubel` in the repository's root, or set {VARIABLE} to its folder",
            archive.display()
        );
        exit(1);
    }
    println!("cargo::rustc-link-search=native={}", folder.display());
    println!("cargo::rustc-link-lib=static=maztubel");
}
