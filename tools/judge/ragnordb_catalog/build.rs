include!("../original_sources.rs");

fn main() {
    let folder = output_folder();
    let source = original_root().join("crates/ragnordb-catalog/src/lib.rs");
    copy_unchanged(&source, &folder.join("lib.rs"));
    for stand_in in ["durable.rs", "metadata.rs"] {
        copy_unchanged(&manifest_folder().join("stand_in").join(stand_in), &folder.join(stand_in));
    }
    write_original(&module_line("original", &folder.join("lib.rs")));
}
