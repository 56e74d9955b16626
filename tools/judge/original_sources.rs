// Shared by the two build scripts: where the original Rust lies, and how one of its files becomes a module here.
// Nothing is edited. The copies go to cargo's output folder, which is never committed.

use std::path::{Path, PathBuf};

/// The folder that holds `crates/ragnordb-sql` and `crates/ragnordb-catalog`.
fn original_root() -> PathBuf {
    println!("cargo:rerun-if-env-changed=SIRKLEMET_RUST");
    match std::env::var_os("SIRKLEMET_RUST") {
        Some(place) => PathBuf::from(place),
        None => manifest_folder().join("../../../../shared/docs/src"),
    }
}

fn manifest_folder() -> PathBuf {
    PathBuf::from(std::env::var_os("CARGO_MANIFEST_DIR").expect("cargo sets CARGO_MANIFEST_DIR"))
}

fn output_folder() -> PathBuf {
    PathBuf::from(std::env::var_os("OUT_DIR").expect("cargo sets OUT_DIR"))
}

/// Copies a file as it is, and builds again when it changes.
fn copy_unchanged(from: &Path, to: &Path) {
    println!("cargo:rerun-if-changed={}", from.display());
    if let Err(error) = std::fs::copy(from, to) {
        eprintln!("cannot read {}: {error}", from.display());
        eprintln!("The Rust sources belong in ../shared/docs/src beside the repository, or where SIRKLEMET_RUST says.");
        std::process::exit(1);
    }
}

/// A line that makes the file at `path` the module `name`.
fn module_line(name: &str, path: &Path) -> String {
    format!("#[allow(dead_code)]\n#[path = {:?}]\npub mod {name};\n", path.display().to_string())
}

fn write_original(text: &str) {
    std::fs::write(output_folder().join("original.rs"), text).expect("cargo's output folder can be written");
}
