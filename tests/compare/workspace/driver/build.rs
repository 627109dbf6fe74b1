//! Links the ported code if the environment names a folder that has it. The
//! driver also builds without it: the oracle and its samples need only the
//! Rust.

use std::env;
use std::path::Path;

fn main() {
    println!("cargo::rerun-if-changed=build.rs");
    link("VRF_STATICLIB", "vrf_replay", "has_replay");
    link("VRF_BENCHLIB", "bench_loops", "has_bench");
}

/// Links `lib{library}.a` from the folder that `variable` names, and sets the
/// cfg `flag` for the sources.
fn link(variable: &str, library: &str, flag: &str) {
    println!("cargo::rustc-check-cfg=cfg({flag})");
    println!("cargo::rerun-if-env-changed={variable}");
    let Some(folder) = env::var_os(variable).filter(|folder| !folder.is_empty()) else {
        return;
    };
    let folder = Path::new(&folder);
    let archive = folder.join(format!("lib{library}.a"));
    assert!(
        archive.is_file(),
        "{variable} names a folder without lib{library}.a"
    );
    println!("cargo::rerun-if-changed={}", archive.display());
    println!("cargo::rustc-link-search=native={}", folder.display());
    println!("cargo::rustc-link-lib=static={library}");
    println!("cargo::rustc-cfg={flag}");
}
