//! Images at each limit and one past it, and names beyond ASCII, at every place that can hold them.

use images::catalogue::{Catalogue, Column, Table};
use images::limits::{DEPTH, IMAGE_BYTES, INSERT_ROWS, LIST_ENTRIES, NAME_BYTES, TABLES};
use images::statement::{Statement, Tree};
use images::text::sql;
use images::value::ColumnType;

use crate::sides::Asked;

pub fn edges() -> Vec<(Asked, Vec<u8>)> {
    let statements = statements().into_iter().map(|image| (Asked::Statement, image));
    let catalogues = catalogues().into_iter().map(|image| (Asked::Catalogue, image));
    statements.chain(catalogues).collect()
}

fn at_and_past(limit: usize) -> [usize; 2] {
    [limit, limit + 1]
}

fn statements() -> Vec<Vec<u8>> {
    let mut texts = Vec::new();
    for name in names() {
        texts.extend(NAMED.iter().map(|text| text.replace('@', &name)));
    }
    for entries in at_and_past(LIST_ENTRIES) {
        texts.extend(
            LISTED.iter().map(|(text, entry, between)| text.replace('@', &vec![*entry; entries].join(between))),
        );
    }
    for rows in at_and_past(INSERT_ROWS) {
        texts.push(format!("INSERT INTO t (a) VALUES {}", vec!["(1)"; rows].join(",")));
    }
    for depth in at_and_past(DEPTH) {
        let expression = format!("{}b{}", "(".repeat(depth - 1), ")".repeat(depth - 1));
        texts.extend(VALUED.iter().map(|text| text.replace('@', &expression)));
    }
    let written = texts.iter().map(|text| sql::statement(text).expect("the text is SQL").encode());
    let long =
        at_and_past(IMAGE_BYTES).map(|bytes| Statement { raw: "a".repeat(bytes - 7), tree: Tree::Other }.encode());
    written.chain(long).map(|image| image.expect("it has an image")).collect()
}

/// Within the limit and past it, quoted and not; beyond ASCII, quoted and not.
fn names() -> Vec<String> {
    let long = at_and_past(NAME_BYTES).map(|bytes| "x".repeat(bytes));
    let plain = long.iter().flat_map(|name| [name.clone(), format!("\"{name}\"")]);
    let letters = ["\u{7f}", "é", "aé", &"é".repeat(NAME_BYTES / 2), &"é".repeat(NAME_BYTES / 2 + 1)]
        .map(|name| [format!("unquoted\"{name}\""), format!("\"{name}\"")]);
    plain.chain(letters.into_iter().flatten()).collect()
}

const NAMED: [&str; 18] = [
    "CREATE TABLE @ (a INT)",
    "CREATE TABLE t (a INT, @ INT, b INT)",
    "CREATE TABLE t (a INT, PRIMARY KEY (a, @, b))",
    "INSERT INTO @ (a) VALUES (1)",
    "INSERT INTO t (a, @, b) VALUES (1)",
    "INSERT INTO t (a) VALUES (1, @), (2)",
    "INSERT INTO t (a) VALUES (1), (2, 3, @)",
    "SELECT * FROM @",
    "SELECT a, @, * FROM t",
    "SELECT * FROM t WHERE a = @",
    "UPDATE @ SET a = 1 WHERE b",
    "UPDATE t SET a = 1, @ = 2, b = 3 WHERE b",
    "UPDATE t SET a = 1, b = c + @ WHERE b",
    "UPDATE t SET a = 1 WHERE NOT @",
    "DELETE FROM @ WHERE b",
    "DELETE FROM t WHERE @ IS NULL",
    "DELETE FROM t WHERE @ OR a",
    "DELETE FROM t WHERE a AND (b OR @)",
];

/// A list, its entry, and what stands between two.
const LISTED: [(&str, &str, &str); 8] = [
    ("CREATE TABLE t (@)", "a INT", ","),
    ("CREATE TABLE t (a INT @, b INT)", "NULL", " "),
    ("CREATE TABLE t (a INT, @)", "PRIMARY KEY (a)", ","),
    ("CREATE TABLE t (a INT, PRIMARY KEY (@))", "a", ","),
    ("INSERT INTO t (@) VALUES (1)", "a", ","),
    ("INSERT INTO t (a) VALUES (1), (@)", "1", ","),
    ("SELECT @ FROM t", "a", ","),
    ("UPDATE t SET @ WHERE b", "a = 1", ","),
];

const VALUED: [&str; 6] = [
    "INSERT INTO t (a) VALUES (1, @)",
    "SELECT * FROM t WHERE @",
    "UPDATE t SET a = 1, b = @ WHERE b",
    "UPDATE t SET a = 1 WHERE @",
    "DELETE FROM t WHERE @",
    "DELETE FROM t WHERE a OR (@)",
];

fn column(number: usize, name: String) -> Column {
    Column { id: number as u64 + 1, data_type: ColumnType::Int, nullable: false, name }
}

/// Of so many columns, all of them in the key.
fn table(number: usize, name: String, columns: usize) -> Table {
    let columns: Vec<Column> = (0..columns).map(|number| column(number, format!("c{number}"))).collect();
    let key = columns.iter().map(|column| column.id).collect();
    Table { id: number as u64, version: 1, tablets: 1, name, columns, key }
}

fn tables(count: usize) -> Vec<Table> {
    (0..count).map(|number| table(number, format!("t{number}"), 1)).collect()
}

fn catalogues() -> Vec<Vec<u8>> {
    let mut made = Vec::new();
    made.extend(at_and_past(TABLES).map(tables));
    made.extend(at_and_past(LIST_ENTRIES).map(|columns| vec![table(0, "t".to_string(), columns)]));
    // a column that is not in the key
    made.extend(at_and_past(LIST_ENTRIES).map(|columns| {
        let mut wide = table(0, "t".to_string(), columns);
        wide.key.pop();
        vec![wide]
    }));
    for bytes in at_and_past(NAME_BYTES) {
        made.push(vec![table(0, "x".repeat(bytes), 1)]);
        let mut named = tables(2);
        named[1].columns.push(column(9, "x".repeat(bytes)));
        made.push(named);
    }
    made.extend(at_and_past(IMAGE_BYTES).map(of_bytes));
    made.into_iter().map(|tables| Catalogue { tables }.encode().expect("it has an image")).collect()
}

/// So many bytes in all: names are made longer as long as there is room.
fn of_bytes(bytes: usize) -> Vec<Table> {
    let mut made = tables(TABLES);
    let size = |tables: &[Table]| Catalogue { tables: tables.to_vec() }.encode().expect("it has an image").len();
    let mut room = bytes - size(&made);
    for table in &mut made {
        for name in [&mut table.name, &mut table.columns[0].name] {
            let more = room.min(NAME_BYTES - name.len());
            name.push_str(&"x".repeat(more));
            room -= more;
        }
    }
    made
}
