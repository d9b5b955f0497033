//! Links the archives of proved functions into the programs that measure them. That of `bench` is LLMNR_ARCHIVE, or the
//! place where `rt lib` in crates/llmnr_c puts it; that of `names` is NAMES_ARCHIVE, which `names.sh` makes.

use std::path::{Path, PathBuf};

/// The archive that a variable names.
fn named(variable: &str) -> Option<PathBuf> {
    println!("cargo:rerun-if-env-changed={variable}");
    std::env::var_os(variable).map(PathBuf::from)
}

fn link(program: &str, archive: &Path) {
    println!("cargo:rerun-if-changed={}", archive.display());
    println!("cargo:rustc-link-arg-bin={program}={}", archive.display());
}

fn main() {
    let usual = PathBuf::from(env!("CARGO_MANIFEST_DIR")).join("../crates/llmnr_c/out/libllmnr_c.a");
    let archive = named("LLMNR_ARCHIVE").unwrap_or(usual);
    link("bench", &archive);
    if !archive.exists() {
        println!("cargo:warning=no archive at {}: `rt lib` in crates/llmnr_c writes it", archive.display());
    }
    if let Some(archive) = named("NAMES_ARCHIVE") {
        link("names", &archive);
    }
}
