//! What is measured of the readers: cases of growing size, and a plain pass over the same bytes.

use std::hint::black_box;
use std::sync::OnceLock;

use images::catalogue::{Catalogue, Column, Table};
use images::row::Row;
use images::statement::{
    Delete, DeleteFrom, Expression, Insert, Name, Node, ObjectName, Source, Statement, Tree, Values,
};
use images::value::{ColumnType, Operator, Value};

/// A function that is measured, and its symbol, by which a profiler knows it.
#[derive(Clone, Copy)]
pub struct Measured {
    pub symbol: &'static str,
    pub call: fn(&[u8]),
}

pub const IS_STATEMENT: Measured = Measured {
    symbol: "sirklemet_is_statement",
    call: |bytes| {
        black_box(sirklemet::is_statement(bytes));
    },
};
pub const READ_STATEMENT: Measured = Measured {
    symbol: "sirklemet_read_statement",
    call: |bytes| {
        black_box(sirklemet::read_statement(bytes));
    },
};
pub const READ_CATALOGUE: Measured = Measured {
    symbol: "sirklemet_read_catalogue",
    call: |bytes| {
        black_box(sirklemet::read_catalogue(bytes));
    },
};
pub const IS_ROW: Measured = Measured {
    symbol: "sirklemet_is_row",
    call: |bytes| {
        black_box(sirklemet::is_row(bytes));
    },
};
/// Of a catalogue and a row, one behind the other: whether the row obeys the first table.
pub const OBEYS: Measured = Measured {
    symbol: "sirklemet_obeys",
    call: |bytes| {
        let (tables, row) = bytes.split_at(one_table().len());
        black_box(sirklemet::obeys(row, tables, 0));
    },
};
pub const PASS: Measured = Measured {
    symbol: "plain_pass",
    call: |bytes| {
        black_box(plain_pass(bytes));
    },
};
pub const ALL: [Measured; 6] = [IS_STATEMENT, READ_STATEMENT, READ_CATALOGUE, IS_ROW, OBEYS, PASS];

/// The sum of all bytes.
#[unsafe(no_mangle)]
#[inline(never)]
fn plain_pass(bytes: &[u8]) -> u64 {
    bytes.iter().map(|byte| u64::from(*byte)).sum()
}

/// Bytes and the reader that takes them.
pub struct Case {
    pub name: String,
    pub bytes: Vec<u8>,
    pub reader: Measured,
}

pub fn cases() -> Vec<Case> {
    let tables = [1, 16, 256];
    let columns = [1, 16, 64];
    let grown = tables.iter().flat_map(|tables| columns.iter().map(|columns| grown_catalogue(*tables, *columns)));
    let rows = [4, 64, 1_024].into_iter().map(row);
    let sizes = [100, 1_000, 10_000, 65_536];
    let statements = [IS_STATEMENT, READ_STATEMENT].into_iter().flat_map(|reader| {
        let inserts = sizes.map(|size| statement(reader, "INSERT", size, insert));
        let runs = sizes.map(|size| statement(reader, "DELETE, one run", size, long_condition));
        let texts = sizes.map(|size| statement(reader, "raw text, ASCII", size, |length| text("a", length)));
        let others = sizes.map(|size| statement(reader, "raw text, 2 bytes", size, |length| text("é", length)));
        [inserts, runs, texts, others].into_iter().flatten()
    });
    let names = [long_names("their end", |number| format!("{}{number:03}", "n".repeat(125)))]
        .into_iter()
        .chain([long_names("their front", |number| format!("{number:03}{}", "n".repeat(125)))]);
    grown.chain(names).chain(rows).chain([obeying()]).chain(statements).collect()
}

fn column(number: usize) -> Column {
    let data_type = ColumnType::ALL[number % 3];
    Column { id: number as u64 + 1, data_type, nullable: number > 0, name: format!("column_{number}") }
}

fn table(number: usize, name: String, columns: usize) -> Table {
    Table { id: number as u64, version: 1, tablets: 1, name, columns: (0..columns).map(column).collect(), key: vec![1] }
}

fn catalogue_case(name: String, tables: Vec<Table>) -> Case {
    let bytes = Catalogue { tables }.encode().expect("a sound catalogue of this size has an image");
    Case { name, bytes, reader: READ_CATALOGUE }
}

fn grown_catalogue(tables: usize, columns: usize) -> Case {
    let name = format!("read_catalogue, {tables} x {columns}");
    catalogue_case(name, (0..tables).map(|number| table(number, format!("table_{number}"), columns)).collect())
}

/// The longest names that the limits allow, alike but for one end. Names are compared from their end, so those that
/// differ at their front are the dearest for the search for repeats.
fn long_names(differ_at: &str, name: impl Fn(usize) -> String) -> Case {
    let tables = (0..256).map(|number| table(number, name(number), 1)).collect();
    catalogue_case(format!("read_catalogue, 256 x 1, {differ_at}"), tables)
}

/// A table of as many columns as it may have.
fn one_table() -> &'static [u8] {
    static IMAGE: OnceLock<Vec<u8>> = OnceLock::new();
    let table = || Catalogue { tables: vec![table(1, "runs".to_string(), 64)] };
    IMAGE.get_or_init(|| table().encode().expect("a table of 64 columns has an image"))
}

/// A row of that table.
fn obeying() -> Case {
    let value = |number: usize| match column(number).data_type {
        ColumnType::Int => Value::Int(41),
        ColumnType::Text => Value::Text("A-100".to_string()),
        ColumnType::Bool => Value::Bool(true),
    };
    let row = Row { values: (0..64).map(value).collect() };
    let image = row.encode().expect("a row of this size has an image");
    let bytes = [one_table(), &image].concat();
    assert!(sirklemet::obeys(&image, one_table(), 0), "a row that does not obey its table is not measured");
    Case { name: "obeys, 64 columns".to_string(), bytes, reader: OBEYS }
}

/// A row of INT, TEXT, BOOL and NULL in turn.
fn row(values: usize) -> Case {
    let kinds = [Value::Int(41), Value::Text("A-100".to_string()), Value::Bool(true), Value::Null];
    let row = Row { values: kinds.into_iter().cycle().take(values).collect() };
    let bytes = row.encode().expect("a row of this size has an image");
    Case { name: format!("is_row, {values} values"), bytes, reader: IS_ROW }
}

/// The largest statement that `make` makes within so many bytes.
fn statement(reader: Measured, name: &str, size: usize, make: impl Fn(usize) -> Statement) -> Case {
    let image = |parts: usize| make(parts).encode().ok().filter(|image| image.len() <= size);
    let (mut least, mut past) = (1, size);
    while past - least > 1 {
        let middle = (least + past) / 2;
        if image(middle).is_some() { least = middle } else { past = middle }
    }
    let bytes = image(least).expect("one part has room");
    let short = reader.symbol.trim_start_matches("sirklemet_");
    Case { name: format!("{short}, {name}"), bytes, reader }
}

fn named(name: &str) -> ObjectName {
    ObjectName::One(Name::unquoted(name))
}

fn insert(rows: usize) -> Statement {
    let number = |text: &str| Expression::leaf(Node::Number(text.to_string()));
    let row = vec![
        number("1"),
        number("23"),
        Expression::leaf(Node::Text("as long as it may well be".to_string())),
        Expression::leaf(Node::True),
    ];
    let values = Values { explicit_row: false, rows: vec![row; rows] };
    let source = Some(Source { clauses: false, values: Some(values) });
    let tree = Tree::Insert(Insert { features: false, table: named("runs"), columns: Vec::new(), source });
    Statement { raw: String::new(), tree }
}

/// As flat as can be, so that its depth is within the limit.
fn long_condition(leaves: usize) -> Statement {
    let delete = Delete {
        tables: false,
        using: false,
        returning: false,
        order_by: false,
        limit: false,
        from: DeleteFrom::NotOne,
        condition: Some(flat(leaves)),
    };
    Statement { raw: String::new(), tree: Tree::Delete(delete) }
}

fn flat(leaves: usize) -> Expression {
    if leaves == 1 {
        return Expression::leaf(Node::Name(Name::unquoted("ok")));
    }
    Expression::binary(Node::Binary(Operator::And), flat(leaves / 2), flat(leaves - leaves / 2))
}

fn text(character: &str, times: usize) -> Statement {
    Statement { raw: character.repeat(times), tree: Tree::Other }
}
