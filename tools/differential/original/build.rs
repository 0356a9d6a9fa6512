//! Takes the pass out of the original files, which stand in the folder that SCHEME_ANALYSIS_ORIGINAL names.
//!
//! A line that is kept is kept byte for byte and at its own number, the others become empty lines: so a panic
//! tells the line of the original.

use std::path::{Path, PathBuf};
use std::{env, fs, process};

const FOLDER: &str = "SCHEME_ANALYSIS_ORIGINAL";

struct Source {
    /// In the original's repository.
    path: &'static str,
    /// FNV-1a, 64 bits, of the whole file.
    hash: u64,
    /// First and last line, from 1.
    kept: &'static [(usize, usize)],
    /// In OUT_DIR.
    into: &'static str,
}

const SOURCES: [Source; 2] = [
    Source {
        path: "crates/steel-core/src/compiler/passes/analysis.rs",
        hash: 0xac82_f1cf_b709_3010,
        // The facts, `Analysis`, `ScopeInfo` and `AnalysisPass`; what a define's body is; `IdentifierFinder`, which
        // a method of `Analysis` names.
        kept: &[(56, 2053), (2786, 2814), (3038, 3050)],
        into: "analysis.rs",
    },
    Source {
        path: "crates/quickscope/src/map.rs",
        hash: 0x5036_28c2_5a41_f31b,
        kept: &[(1, usize::MAX)],
        into: "map.rs",
    },
];

fn fnv1a(bytes: &[u8]) -> u64 {
    bytes.iter().fold(0xcbf2_9ce4_8422_2325, |hash, byte| {
        (hash ^ u64::from(*byte)).wrapping_mul(0x0000_0100_0000_01b3)
    })
}

fn fail(message: String) -> ! {
    eprintln!("{message}");
    process::exit(1)
}

fn read(folder: &Path, source: &Source) -> Vec<u8> {
    let path = folder.join(source.path);
    println!("cargo:rerun-if-changed={}", path.display());
    let bytes = fs::read(&path).unwrap_or_else(|e| fail(format!("{}: {e}", path.display())));
    let hash = fnv1a(&bytes);
    if hash != source.hash {
        fail(format!(
            "{}: not the file of mattwparas/steel at commit addcf6dd98 (hash {hash:#018x}, expected {:#018x})",
            path.display(),
            source.hash
        ));
    }
    bytes
}

fn kept(source: &Source, bytes: &[u8]) -> Vec<u8> {
    let lines = bytes.split_inclusive(|byte| *byte == b'\n').zip(1..);
    lines.fold(Vec::new(), |mut out, (line, number)| {
        let keep = source.kept.iter().any(|(first, last)| (*first..=*last).contains(&number));
        out.extend_from_slice(if keep { line } else { b"\n" });
        out
    })
}

fn main() {
    println!("cargo:rerun-if-changed=build.rs");
    println!("cargo:rerun-if-env-changed={FOLDER}");
    let folder = env::var_os(FOLDER).map(PathBuf::from);
    let folder = folder.unwrap_or_else(|| fail(format!("{FOLDER} must name the folder of the originals")));
    let out = PathBuf::from(env::var_os("OUT_DIR").expect("cargo sets OUT_DIR"));
    for source in &SOURCES {
        let text = kept(source, &read(&folder, source));
        let path = out.join(source.into);
        fs::write(&path, text).unwrap_or_else(|e| fail(format!("{}: {e}", path.display())));
    }
}
