include!("../original_sources.rs");
include!("../static_library.rs");

fn main() {
    let folder = output_folder();
    let sources = original_root().join("crates/ragnordb-sql/src");
    let mut modules = String::new();
    for name in ["analyzer", "bound", "parser"] {
        let copy = folder.join(format!("{name}.rs"));
        copy_unchanged(&sources.join(format!("{name}.rs")), &copy);
        modules.push_str(&module_line(name, &copy));
    }
    write_original(&modules);
    link_other_side();
}
