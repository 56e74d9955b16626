// Shared by build scripts: links the static library that is compared with.

/// With the feature `linked`, the static library that SIRKLEMET_STATICLIB names is the other side.
fn link_other_side() {
    println!("cargo:rerun-if-env-changed=SIRKLEMET_STATICLIB");
    if std::env::var_os("CARGO_FEATURE_LINKED").is_none() {
        return;
    }
    let Some(library) = std::env::var_os("SIRKLEMET_STATICLIB").map(std::path::PathBuf::from) else {
        eprintln!("the feature linked needs SIRKLEMET_STATICLIB, the path of a file libNAME.a");
        std::process::exit(1);
    };
    let file = library.file_stem().and_then(|stem| stem.to_str()).and_then(|stem| stem.strip_prefix("lib"));
    let (Some(folder), Some(name)) = (library.parent(), file) else {
        eprintln!("{} is no path of a file libNAME.a", library.display());
        std::process::exit(1);
    };
    println!("cargo:rerun-if-changed={}", library.display());
    println!("cargo:rustc-link-search=native={}", folder.display());
    println!("cargo:rustc-link-lib=static={name}");
}
