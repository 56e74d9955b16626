//! The rows of paper 01's runs table that are run, and the worked example of docs/IMAGES.md.

use images::row::{self, Row};
use images::text;
use images::value::Value;
use runs::judge_run::{Answer, judge_run};

fn read(path: &str) -> String {
    let root = concat!(env!("CARGO_MANIFEST_DIR"), "/../../../");
    std::fs::read_to_string(format!("{root}{path}")).unwrap_or_else(|error| panic!("{path}: {error}"))
}

fn row_image(values: &str) -> Vec<u8> {
    text::row::row(values).unwrap().encode().unwrap()
}

fn answer_in(sql: &str, before: &[u8], room: usize) -> Answer {
    let catalogue = text::catalogue::catalogue(&read("examples/runs.catalogue.txt")).unwrap();
    let statement = text::sql::statement(sql).unwrap_or_else(|error| panic!("{}", error.in_text(sql)));
    judge_run(&statement.encode().unwrap(), &catalogue.encode().unwrap(), before, room)
}

/// Runs `UPDATE runs SET ..` on a row.
fn answer(rest: &str, before: &str) -> Answer {
    answer_in(&format!("UPDATE runs SET {rest}"), &row_image(before), 65_536)
}

fn after(rest: &str, before: &str) -> Row {
    match answer(rest, before) {
        Answer::Row(image) => row::decode(&image).unwrap(),
        Answer::Refused(number) => panic!("{rest}: refused {number}"),
    }
}

fn temp(rest: &str, before: &str) -> Value {
    after(rest, before).values[2].clone()
}

const LEAST: &str = "'A', 1, -9223372036854775808, TRUE";

#[test]
fn the_runs_table() {
    assert_eq!(temp("temp = temp % 0 WHERE ok", "'A', 1, NULL, TRUE"), Value::Null);
    assert_eq!(answer("temp = temp % 0 WHERE ok", "'A', 1, 5, TRUE"), Answer::Refused(11));
    assert_eq!(temp("temp = temp % -1 WHERE ok", LEAST), Value::Int(0));
    assert_eq!(answer("temp = temp / -1 WHERE ok", LEAST), Answer::Refused(11));
    assert_eq!(temp("temp = -9223372036854775808 WHERE ok", "'A', 1, 5, TRUE"), Value::Int(i64::MIN));
    assert_eq!(answer("temp = -temp WHERE ok", LEAST), Answer::Refused(11));
}

#[test]
fn the_page_shows_the_row_after() {
    let before = row_image(&read("examples/before.row.txt"));
    let after = row_image(&read("examples/after.row.txt"));
    assert_eq!(answer_in(&read("examples/update.sql.txt"), &before, after.len()), Answer::Row(after.clone()));
    assert_eq!(answer_in(&read("examples/update.sql.txt"), &before, after.len() - 1), Answer::Refused(9));
}

#[test]
fn where_is_not_true_and_the_row_stays_unworked() {
    let before = "'A', 1, NULL, FALSE";
    for condition in ["ok", "temp = 1", "FALSE AND temp = 1", "TRUE AND temp = 1"] {
        assert_eq!(after(&format!("minutes = 1 / 0 WHERE {condition}"), before), text::row::row(before).unwrap());
    }
    // A fault of the condition is one also where its other side is FALSE.
    assert_eq!(answer("minutes = 2 WHERE FALSE AND 1 / 0 = 1", before), Answer::Refused(11));
}

#[test]
fn all_values_come_from_the_old_row() {
    let new = after("minutes = 7, temp = minutes, ok = temp IS NULL WHERE ok", "'A', 1, NULL, TRUE");
    assert_eq!(new, text::row::row("'A', 7, 1, TRUE").unwrap());
}

#[test]
fn the_order_of_the_refusals() {
    let fault = "UPDATE runs SET minutes = 1 / 0 WHERE TRUE";
    let (good, bad) = (row_image("'A', 1, NULL, TRUE"), row_image("'A', NULL, NULL, TRUE"));
    assert_eq!(answer_in("UPDATE runs SET serial = 'x' WHERE ok", &bad, 0), Answer::Refused(2));
    assert_eq!(answer_in("DELETE FROM runs WHERE ok", &bad, 0), Answer::Refused(12));
    assert_eq!(answer_in("SELECT * FROM runs", &good, 0), Answer::Refused(12));
    assert_eq!(answer_in("BEGIN", &[], 0), Answer::Refused(12));
    assert_eq!(answer_in(fault, &bad, 0), Answer::Refused(10));
    assert_eq!(answer_in(fault, &[], 0), Answer::Refused(10));
    assert_eq!(answer_in(fault, &good, 0), Answer::Refused(11));
    assert_eq!(answer_in("UPDATE runs SET minutes = 1 WHERE ok", &good, 0), Answer::Refused(9));
}
