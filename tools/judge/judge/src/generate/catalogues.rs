//! Sound catalogues, small ones mostly.

use images::catalogue::{Catalogue, Column, Table};
use images::random::{Rng, any_u64};
use images::value::ColumnType;

use super::names;

pub fn catalogue(rng: &mut Rng) -> Catalogue {
    let mut catalogue = Catalogue::default();
    let tables = [0, 1, 1, 1, 2, 2, 3, 4][rng.below(8)];
    for _ in 0..tables {
        let columns = if rng.once_in(60) { 64 } else { rng.between(1, 6) };
        add_table(rng, &mut catalogue, columns);
    }
    catalogue
}

pub fn add_table(rng: &mut Rng, catalogue: &mut Catalogue, columns: usize) {
    let taken: Vec<&str> = catalogue.tables.iter().map(|table| table.name.as_str()).collect();
    let name = names::fresh(rng, &taken);
    let id = fresh_id(rng, &catalogue.tables.iter().map(|table| table.id).collect::<Vec<_>>());
    let mut table =
        Table { id, version: any_u64(rng), tablets: any_u64(rng) as u32, name, columns: Vec::new(), key: Vec::new() };
    for _ in 0..columns {
        add_column(rng, &mut table);
    }
    choose_key(rng, &mut table);
    catalogue.tables.push(table);
}

fn fresh_id(rng: &mut Rng, taken: &[u64]) -> u64 {
    loop {
        let id = any_u64(rng);
        if !taken.contains(&id) {
            return id;
        }
    }
}

pub fn add_column(rng: &mut Rng, table: &mut Table) {
    let taken: Vec<&str> = table.columns.iter().map(|column| column.name.as_str()).collect();
    let name = names::fresh(rng, &taken);
    let mut ids: Vec<u64> = table.columns.iter().map(|column| column.id).collect();
    ids.push(0);
    table.columns.push(Column {
        id: fresh_id(rng, &ids),
        data_type: *rng.pick(&ColumnType::ALL),
        nullable: rng.once_in(2),
        name,
    });
}

/// One column, or some, in any order, made not nullable.
fn choose_key(rng: &mut Rng, table: &mut Table) {
    let mut places: Vec<usize> = (0..table.columns.len()).collect();
    rng.shuffle(&mut places);
    let most = places.len().min(3);
    places.truncate(if rng.once_in(2) { 1 } else { rng.between(1, most) });
    for place in places {
        table.columns[place].nullable = false;
        table.key.push(table.columns[place].id);
    }
}

/// A table of few bytes.
pub fn tiny_table(number: u64) -> Table {
    let column = Column { id: 1, data_type: ColumnType::Int, nullable: false, name: "a".to_string() };
    Table {
        id: 1_000_000 + number,
        version: 1,
        tablets: 1,
        name: format!("t{number}"),
        columns: vec![column],
        key: vec![1],
    }
}

/// Adds tables and columns until the image has exactly `target` bytes.
pub fn fill_to(catalogue: &mut Catalogue, target: usize) {
    let mut length = image_bytes(catalogue);
    let mut number = 0;
    while length + 9_000 < target {
        let mut table = tiny_table(number);
        for column in 0..60 {
            table.columns.push(wide_column(column, 100));
        }
        length += table_bytes(&table);
        catalogue.tables.push(table);
        number += 1;
    }
    let mut last = tiny_table(number);
    last.name = "pad".to_string();
    length += table_bytes(&last);
    // The last column takes what is left, its name between 1 and 118 bytes.
    loop {
        let gap = target.saturating_sub(length);
        let column = last.columns.len() as u64;
        if gap >= COLUMN_BYTES + 100 + COLUMN_BYTES + 4 {
            last.columns.push(wide_column(column, 100));
            length += COLUMN_BYTES + 100;
        } else if gap > COLUMN_BYTES + 4 {
            last.columns.push(wide_column(column, gap - COLUMN_BYTES));
            break;
        } else {
            break;
        }
    }
    catalogue.tables.push(last);
}

/// What a column takes beside its name.
const COLUMN_BYTES: usize = 18;

fn image_bytes(catalogue: &Catalogue) -> usize {
    catalogue.encode_unjudged().map_or(usize::MAX, |image| image.len())
}

/// What a table adds to the image of a catalogue.
fn table_bytes(table: &Table) -> usize {
    image_bytes(&Catalogue { tables: vec![table.clone()] }) - image_bytes(&Catalogue::default())
}

fn wide_column(number: u64, name_bytes: usize) -> Column {
    let name = format!("{number:03}{}", "w".repeat(name_bytes.saturating_sub(3)));
    Column { id: number + 2, data_type: ColumnType::Text, nullable: true, name }
}
