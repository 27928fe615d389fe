//! Links the proved archive.

use std::env;
use std::path::{Path, PathBuf};
use std::process::exit;

const VARIABLE: &str = "SME_MOVE_LIB_DIR";

/// The archive is where `bash archive.sh` writes it, unless the variable names another place.
fn main() {
    println!("cargo:rerun-if-env-changed={VARIABLE}");
    let directory = env::var_os(VARIABLE)
        .map(PathBuf::from)
        .unwrap_or_else(|| Path::new(env!("CARGO_MANIFEST_DIR")).join("../../target/staticlib"));
    let archive = directory.join("libsme_move.a");
    if !archive.is_file() {
        eprintln!(
            "sme_move: there is no {}: run `bash archive.sh`, or set {VARIABLE} to its directory",
            archive.display()
        );
        exit(1)
    }
    println!("cargo:rerun-if-changed={}", archive.display());
    println!("cargo:rustc-link-search=native={}", directory.display());
    println!("cargo:rustc-link-lib=static=sme_move");
}
