//! The text forms: what is printed reads back, and SQL reads as the real parser would read it.

use images::random::{Rng, any_catalogue, any_statement};
use images::statement::{Node, Statement, Tree};
use images::text::catalogue::{catalogue, catalogue_to_text};
use images::text::print::{expression_to_sql, tree_to_sql};
use images::text::row::row;
use images::text::sql::statement;

#[test]
fn printed_statements_read_back() {
    for index in 0..30_000 {
        let value = any_statement(&mut Rng::of_case(6, index));
        let text = tree_to_sql(&value.tree);
        match statement(&text) {
            Ok(read) => assert_eq!(read.tree, value.tree, "{text}"),
            Err(error) => panic!("{text}: {}", error.in_text(&text)),
        }
    }
}

#[test]
fn printed_catalogues_read_back() {
    for index in 0..10_000 {
        let value = any_catalogue(&mut Rng::of_case(7, index));
        let text = catalogue_to_text(&value);
        match catalogue(&text) {
            Ok(read) => assert_eq!(read, value, "{text}"),
            Err(error) => panic!("{text}: {}", error.in_text(&text)),
        }
    }
}

/// The condition of a DELETE, printed with brackets where the tree has no parentheses of its own.
fn condition(text: &str) -> String {
    let Tree::Delete(delete) = statement(&format!("DELETE FROM t WHERE {text}")).unwrap().tree else {
        panic!("{text}");
    };
    let condition = delete.condition.unwrap();
    format!("{} = {} nodes", expression_to_sql(&condition), condition.nodes.len())
}

#[test]
fn operators_bind_in_the_usual_order() {
    assert_eq!(condition("a + b * c = d OR NOT e AND f"), "a + b * c = d OR NOT e AND f = 12 nodes");
    assert_eq!(condition("NOT a IS NULL"), "NOT a IS NULL = 3 nodes");
    assert_eq!(condition("a = b IS NOT NULL"), "a = b IS NOT NULL = 4 nodes");
    assert_eq!(condition("- a * b"), "- a * b = 4 nodes");
    assert_eq!(condition("a - b - c"), "a - b - c = 5 nodes");
    assert_eq!(condition("a - (b - c)"), "a - (b - c) = 6 nodes");
    assert_eq!(condition("a BETWEEN 1 AND 2 AND b"), "other() AND b = 3 nodes");
    assert_eq!(condition("a IN (1, 2) OR f(x, y) > t.c"), "other() OR other() > other() = 5 nodes");
}

fn kind(text: &str) -> u8 {
    statement(text).unwrap().tree.kind()
}

#[test]
fn statements_have_their_kinds() {
    assert_eq!(kind("start transaction"), 5);
    assert_eq!(kind("END WORK"), 6);
    assert_eq!(kind("SHOW TRANSACTIONS;;"), 9);
    assert_eq!(kind("DROP TABLE runs"), 9);
    assert_eq!(kind("CREATE INDEX i ON runs (temp)"), 9);
    assert_eq!(kind("(SELECT 1) UNION SELECT 2"), 2);
}

#[test]
fn the_raw_text_is_trimmed() {
    let Statement { raw, .. } = statement(" \n show\u{3000}tables ; \u{2028}").unwrap();
    assert_eq!(raw, "show\u{3000}tables ;");
}

#[test]
fn errors_name_a_place() {
    let text = "UPDATE runs\nSET minutes + 1";
    assert_eq!(statement(text).unwrap_err().in_text(text), "line 2, column 13: = is expected, and + stands here");
    assert!(statement("SELECT 1; SELECT 2").is_err());
    assert!(statement("  ").is_err());
    assert!(row("1, 9223372036854775808").is_err());
    assert!(row("-9223372036854775808").is_ok());
}

#[test]
fn numbers_are_kept_as_written() {
    let Tree::Query(query) = statement("SELECT 1.50e+3, .5, 007 FROM t WHERE 1e3 = 1.5").unwrap().tree else {
        panic!()
    };
    let nodes = query.select.unwrap().condition.unwrap().nodes;
    assert_eq!(nodes[0], Node::Number("1e3".to_string()));
}
