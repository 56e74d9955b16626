//! The binding rows of paper 01's runs table, its "errors a translator is drawn to", and the bound image that
//! docs/IMAGES.md shows, all answered by the Rust.

use images::show::hex;
use images::text;
use judge::judge::{Answer, judge};

fn read(path: &str) -> String {
    let root = concat!(env!("CARGO_MANIFEST_DIR"), "/../../../");
    std::fs::read_to_string(format!("{root}{path}")).unwrap_or_else(|error| panic!("{path}: {error}"))
}

fn answer(sql: &str) -> Answer {
    let catalogue = text::catalogue::catalogue(&read("examples/runs.catalogue.txt")).unwrap();
    let statement = text::sql::statement(sql).unwrap_or_else(|error| panic!("{}", error.in_text(sql)));
    judge(&statement.encode().unwrap(), &catalogue.encode().unwrap(), 65_536)
}

fn number(sql: &str) -> u8 {
    answer(sql).number()
}

#[test]
fn the_runs_table() {
    let update = |rest: &str| number(&format!("UPDATE runs SET {rest}"));
    assert_eq!(update("minutes = minutes + 1 WHERE ok"), 0);
    assert_eq!(update("minutes = temp + 1 WHERE ok"), 2);
    assert_eq!(update("temp = NULL WHERE temp IS NOT NULL"), 0);
    assert_eq!(update("minutes = NULL WHERE ok"), 2);
    assert_eq!(update("temp = 'a' WHERE ok"), 1);
    assert_eq!(update("temp = 1 WHERE temp = NULL"), 3);
    assert_eq!(update("temp = 1 WHERE NULL"), 1);
    assert_eq!(update("temp = 1 WHERE ok < TRUE"), 1);
    assert_eq!(update("temp = 1 WHERE NULL = nosuch"), 1);
    assert_eq!(update("temp = -9223372036854775808 WHERE ok"), 0);
    assert_eq!(update("temp = -(9223372036854775808) WHERE ok"), 1);
    assert_eq!(update("serial = 'x' WHERE ok"), 2);
    assert_eq!(update("temp = temp % 0 WHERE ok"), 0);
    assert_eq!(update("temp = temp % -1 WHERE ok"), 0);
}

#[test]
fn errors_a_translator_is_drawn_to() {
    assert_eq!(number("CREATE TABLE t (a INT NULL, PRIMARY KEY (a))"), 0);
    assert_eq!(number("CREATE TABLE t (a INT NULL PRIMARY KEY)"), 2);
    assert_eq!(number("CREATE TABLE t (a INT PRIMARY KEY PRIMARY KEY)"), 0);
    assert_eq!(number("UPDATE runs SET ok = FALSE AND temp > 1 WHERE ok"), 2);
    assert_eq!(number("UPDATE runs SET Temp = 1, temp = 2 WHERE ok"), 2);
    assert_eq!(number("UPDATE runs SET temp = 1, \"Temp\" = 2 WHERE ok"), 1);
    assert_eq!(number("CREATE TABLE t (a INT PRIMARY KEY, b DATE PRIMARY KEY)"), 2);
}

#[test]
fn the_page_shows_the_bound_update() {
    let Answer::Bound(image) = answer(&read("examples/update.sql.txt")) else { panic!("it binds") };
    let page: String = read("docs/IMAGES.md").split_whitespace().collect();
    assert!(page.contains(&hex(&image)));
}
