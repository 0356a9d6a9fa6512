//! Says where the static library is: in the folder SCHEME_ANALYSIS_LIB, or where `rt lib` writes it in this repository.
//! Only linking needs it, so where it is missing this warns and does not fail: `cargo check`, `clippy` and `doc` go through.

use std::env;
use std::path::{Path, PathBuf};

fn folder() -> PathBuf {
    match env::var_os("SCHEME_ANALYSIS_LIB") {
        Some(folder) => PathBuf::from(folder),
        None => Path::new(&env::var_os("CARGO_MANIFEST_DIR").expect("cargo sets it")).join("../../crates/scheme_analysis/out"),
    }
}

fn main() {
    let folder = folder();
    // what links the crate may stand in another folder
    let folder = folder.canonicalize().unwrap_or(folder);
    let archive = folder.join("libscheme_analysis.a");
    println!("cargo:rerun-if-env-changed=SCHEME_ANALYSIS_LIB");
    println!("cargo:rerun-if-changed={}", archive.display());
    if !archive.is_file() {
        println!("cargo:warning=nothing can be linked yet: there is no {}", archive.display());
        println!(
            "cargo:warning=make it by `rt lib` in crates/scheme_analysis, or set SCHEME_ANALYSIS_LIB to the folder that has it"
        );
    }
    println!("cargo:rustc-link-search=native={}", folder.display());
    // not bundled: the crate is built without the library, and what links the crate looks for it
    println!("cargo:rustc-link-lib=static:-bundle=scheme_analysis");
}
