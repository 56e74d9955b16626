//! The worked examples of docs/IMAGES.md are the images of the files in examples/.

use images::bytes::Written;
use images::show::hex;
use images::{catalogue, row, text};

fn read(path: &str) -> String {
    let root = concat!(env!("CARGO_MANIFEST_DIR"), "/../../../");
    std::fs::read_to_string(format!("{root}{path}")).unwrap_or_else(|error| panic!("{path}: {error}"))
}

/// The page holds the image's hex, whatever the lines it is cut into.
fn is_on_the_page(image: Written) {
    let page: String = read("docs/IMAGES.md").split_whitespace().collect();
    assert!(page.contains(&hex(&image.unwrap())));
}

#[test]
fn the_page_shows_the_examples() {
    let table = text::catalogue::catalogue(&read("examples/runs.catalogue.txt")).unwrap();
    is_on_the_page(table.encode());
    is_on_the_page(text::sql::statement(&read("examples/update.sql.txt")).unwrap().encode());
    for file in ["examples/before.row.txt", "examples/after.row.txt"] {
        let row = text::row::row(&read(file)).unwrap();
        let image = row.encode().unwrap();
        assert_eq!(row::decode_of(&image, &table.tables[0]), Ok(row));
        is_on_the_page(Ok(image));
    }
    assert_eq!(catalogue::decode(&table.encode().unwrap()), Ok(table));
}
