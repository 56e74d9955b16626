//! Links the static library of the crate `sirklemet`: the file that SIRKLEMET_STATICLIB names, or the one that `rt lib`
//! writes in the folder of the crate.

use std::path::{Path, PathBuf};

fn main() {
    println!("cargo:rerun-if-env-changed=SIRKLEMET_STATICLIB");
    let library = std::env::var_os("SIRKLEMET_STATICLIB").map_or_else(written, PathBuf::from);
    println!("cargo:rerun-if-changed={}", library.display());
    if !library.is_file() {
        stop(&format!("{} is not there; `rt lib` in crates/sirklemet writes it", library.display()));
    }
    let stem = library.file_stem().and_then(|stem| stem.to_str()).and_then(|stem| stem.strip_prefix("lib"));
    let (Some(folder), Some(name)) = (library.parent(), stem) else {
        return stop(&format!("{} is no path of a file libNAME.a", library.display()));
    };
    println!("cargo:rustc-link-search=native={}", folder.display());
    println!("cargo:rustc-link-lib=static={name}");
}

fn written() -> PathBuf {
    Path::new(env!("CARGO_MANIFEST_DIR")).join("../out/libsirklemet.a")
}

fn stop(message: &str) {
    eprintln!("{message}");
    std::process::exit(1);
}
