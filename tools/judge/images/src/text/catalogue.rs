//! A catalogue from text, and as text:
//!
//! ```text
//! table runs id 7 version 3 tablets 1
//!   column serial id 4 TEXT not null
//!   column temp id 2 INT null
//!   key serial
//! ```
//!
//! Names are the catalogue's own, so they are taken as written; in double quotes they may hold anything. A key column
//! is named by its id or its name. `#` or `--` starts a comment.

use super::tokens::{Cursor, Kind};
use super::{Parsed, error};
use crate::catalogue::{Catalogue, Column, Table};
use crate::value::ColumnType;

pub fn catalogue(text: &str) -> Parsed<Catalogue> {
    let mut cursor = Cursor::new(&without_hash_comments(text))?;
    let mut tables = Vec::new();
    while cursor.eat_word("table") {
        tables.push(table(&mut cursor)?);
    }
    if !cursor.at_end() {
        return cursor.fail(if tables.is_empty() { "table" } else { "table, column or key" });
    }
    Ok(Catalogue { tables })
}

/// Blanks out comments that start with `#`, and keeps every place.
fn without_hash_comments(text: &str) -> String {
    let mut quoted = false;
    let mut comment = false;
    let mut out = String::new();
    for letter in text.chars() {
        match letter {
            '\n' => comment = false,
            '"' if !comment => quoted = !quoted,
            '#' if !quoted => comment = true,
            _ => {}
        }
        if comment { (0..letter.len_utf8()).for_each(|_| out.push(' ')) } else { out.push(letter) }
    }
    out
}

fn table(cursor: &mut Cursor) -> Parsed<Table> {
    let mut table = Table { id: 0, version: 1, tablets: 1, name: name(cursor)?, columns: Vec::new(), key: Vec::new() };
    cursor.expect_word("id")?;
    table.id = number(cursor)?;
    if cursor.eat_word("version") {
        table.version = number(cursor)?;
    }
    if cursor.eat_word("tablets") {
        let at = cursor.at();
        let tablets = number(cursor)?;
        table.tablets = match u32::try_from(tablets) {
            Ok(tablets) => tablets,
            Err(_) => return error(at, format!("{tablets} tablets do not fit 4 bytes")),
        };
    }
    while cursor.eat_word("column") {
        table.columns.push(column(cursor)?);
    }
    cursor.expect_word("key")?;
    table.key.push(key_column(cursor, &table)?);
    while cursor.eat_sign(",") {
        table.key.push(key_column(cursor, &table)?);
    }
    Ok(table)
}

fn column(cursor: &mut Cursor) -> Parsed<Column> {
    let name = name(cursor)?;
    cursor.expect_word("id")?;
    let id = number(cursor)?;
    let data_type = match ColumnType::ALL.into_iter().find(|data_type| cursor.eat_word(data_type.name())) {
        Some(data_type) => data_type,
        None => return cursor.fail("INT, TEXT or BOOL"),
    };
    let nullable = !cursor.eat_word("not");
    if nullable {
        cursor.eat_word("null");
    } else {
        cursor.expect_word("null")?;
    }
    Ok(Column { id, data_type, nullable, name })
}

fn key_column(cursor: &mut Cursor, table: &Table) -> Parsed<u64> {
    if matches!(cursor.kind(), Kind::Number(_)) {
        return number(cursor);
    }
    let at = cursor.at();
    let name = name(cursor)?;
    match table.column(&name) {
        Some(column) => Ok(column.id),
        None => error(at, format!("no column has the name {name:?}")),
    }
}

fn name(cursor: &mut Cursor) -> Parsed<String> {
    let name = match cursor.kind() {
        Kind::Word(word) => word.clone(),
        Kind::QuotedName(name) => name.clone(),
        _ => return cursor.fail("a name"),
    };
    cursor.step();
    Ok(name)
}

fn number(cursor: &mut Cursor) -> Parsed<u64> {
    let number = match cursor.kind() {
        Kind::Number(digits) => match digits.parse() {
            Ok(number) => number,
            Err(_) => return error(cursor.at(), format!("{digits} is no number of 64 bits")),
        },
        _ => return cursor.fail("a number"),
    };
    cursor.step();
    Ok(number)
}

pub fn catalogue_to_text(catalogue: &Catalogue) -> String {
    catalogue.tables.iter().map(table_to_text).collect()
}

fn table_to_text(table: &Table) -> String {
    let Table { id, version, tablets, .. } = table;
    let mut text = format!("table {} id {id} version {version} tablets {tablets}\n", name_to_text(&table.name));
    for column in &table.columns {
        let Column { id, data_type, nullable, name } = column;
        let null = if *nullable { "null" } else { "not null" };
        text.push_str(&format!("  column {} id {id} {} {null}\n", name_to_text(name), data_type.name()));
    }
    let key: Vec<String> = table.key.iter().map(u64::to_string).collect();
    text.push_str(&format!("  key {}\n", key.join(", ")));
    text
}

fn name_to_text(name: &str) -> String {
    let plain = name.starts_with(|letter: char| letter.is_ascii_alphabetic())
        && name.chars().all(|letter| letter.is_ascii_alphanumeric() || letter == '_');
    if plain { name.to_string() } else { format!("\"{}\"", name.replace('"', "\"\"")) }
}
