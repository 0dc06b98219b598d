//! Finds the proved archive, which `tools/archive` makes.

use std::env;
use std::path::PathBuf;

fn main() {
    let here = PathBuf::from(env::var("CARGO_MANIFEST_DIR").unwrap());
    let folder = here.join("../target/staticlib");
    let archive = folder.join("libcperiod.a");
    println!("cargo:rerun-if-changed={}", archive.display());
    assert!(
        archive.exists(),
        "no libcperiod.a in target/staticlib: run tools/archive at the repository's root"
    );
    println!("cargo:rustc-link-search=native={}", folder.display());
    println!("cargo:rustc-link-lib=static=cperiod");
}
