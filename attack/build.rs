//! Links the proved card's static library, which `tools/archive` writes.

use std::env;
use std::path::PathBuf;
use std::process::exit;

const FOLDER: &str = "../target/staticlib";
const LIBRARY: &str = "ports";

fn main() {
    // Cargo always gives a build program its manifest folder.
    let manifest = env::var_os("CARGO_MANIFEST_DIR").map_or_else(PathBuf::new, PathBuf::from);
    let folder = manifest.join(FOLDER);
    let archive = folder.join(format!("lib{LIBRARY}.a"));
    println!("cargo:rerun-if-changed={}", archive.display());
    if !archive.is_file() {
        eprintln!("{FOLDER}/lib{LIBRARY}.a is missing: run `tools/archive` first");
        exit(1);
    }
    println!("cargo:rustc-link-search=native={}", folder.display());
    println!("cargo:rustc-link-lib=static={LIBRARY}");
}
