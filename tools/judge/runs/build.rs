include!("../static_library.rs");

fn main() {
    println!("cargo:rerun-if-changed=build.rs");
    println!("cargo:rustc-check-cfg=cfg(sqlite)");
    if sqlite_links() {
        println!("cargo:rustc-cfg=sqlite");
        println!("cargo:rustc-link-lib=sqlite3");
    } else {
        // Cargo looks again at each build for a file that is not there: the library may have come since.
        println!("cargo:rerun-if-changed=no-such-file");
    }
    link_other_side();
}

/// Whether the C compiler, which Rust links with as well, finds libsqlite3. Where it does not, the comparison leaves
/// SQLite out and says so.
fn sqlite_links() -> bool {
    let folder = std::path::PathBuf::from(std::env::var_os("OUT_DIR").expect("cargo sets OUT_DIR"));
    let source = folder.join("probe.c");
    let text = "int sqlite3_libversion_number(void);\nint main(void) { return sqlite3_libversion_number() == 0; }\n";
    std::fs::write(&source, text).expect("cargo's output folder can be written");
    let linked =
        std::process::Command::new("cc").arg(&source).arg("-lsqlite3").arg("-o").arg(folder.join("probe")).output();
    linked.is_ok_and(|output| output.status.success())
}
