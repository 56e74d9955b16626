//! Images as the generator makes them.

use images::catalogue::{self, Column};
use images::random::{Rng, any_catalogue, any_row, any_statement, any_text, any_u64, any_value};
use images::row::Row;
use images::value::{ColumnType, Value};
use judge::generate::planted;

use crate::sides::{Asked, Kind, Table, rust};

/// An image of at most so many bytes, that is taken: one that makes sense, or one of any shape.
pub fn image(rng: &mut Rng, kind: Kind, most: usize) -> (Asked, Vec<u8>) {
    loop {
        let (asked, image) = made(rng, kind);
        if image.len() <= most && rust(&asked, &image).number != kind.none() {
            return (asked, image);
        }
    }
}

/// An image, or bytes that are nearly one.
pub fn made(rng: &mut Rng, kind: Kind) -> (Asked, Vec<u8>) {
    let any = rng.once_in(3);
    match kind {
        Kind::Statement if any => (Asked::Statement, any_statement(rng).encode().unwrap_or_default()),
        Kind::Statement => (Asked::Statement, planted(rng.draw(), 0).case.statement),
        Kind::Catalogue if any => (Asked::Catalogue, any_catalogue(rng).encode().unwrap_or_default()),
        Kind::Catalogue => (Asked::Catalogue, planted(rng.draw(), 0).case.catalogue),
        Kind::Row => (Asked::Row, any_row(rng).encode().unwrap_or_default()),
        Kind::RowOf => row_of_some_table(rng, any),
    }
}

fn row_of_some_table(rng: &mut Rng, any: bool) -> (Asked, Vec<u8>) {
    let (_, tables) = made(rng, Kind::Catalogue);
    let catalogue = catalogue::decode(&tables).unwrap_or_default();
    // one more than there are, once in a while
    let number = rng.below(catalogue.tables.len() + 1);
    let number = if rng.once_in(10) { number } else { number.min(catalogue.tables.len().saturating_sub(1)) };
    let row = match catalogue.tables.get(number) {
        Some(table) if !any => row_of(rng, &table.columns),
        _ => any_row(rng),
    };
    (Asked::RowOf(Table { tables, number }), row.encode().unwrap_or_default())
}

/// A row that obeys, but for a value too few or too many, or one that need not fit.
fn row_of(rng: &mut Rng, columns: &[Column]) -> Row {
    let mut values: Vec<Value> = columns.iter().map(|column| value_of(rng, column)).collect();
    let place = rng.below(values.len().max(1));
    match rng.below(12) {
        0 => drop(values.pop()),
        1 => values.push(any_value(rng)),
        2 | 3 if !values.is_empty() => values[place] = any_value(rng),
        _ => {}
    }
    Row { values }
}

fn value_of(rng: &mut Rng, column: &Column) -> Value {
    match column.data_type {
        _ if column.nullable && rng.once_in(3) => Value::Null,
        ColumnType::Int => Value::Int(any_u64(rng) as i64),
        ColumnType::Text => Value::Text(any_text(rng)),
        ColumnType::Bool => Value::Bool(rng.once_in(2)),
    }
}
