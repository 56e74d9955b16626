//! The row image: one value for each column of its table.

use crate::bytes::{Field, Log, Read, Reader, Width, Written, damage, list};
use crate::catalogue::Table;
use crate::value::Value;

const WIDTH: Width = Width::Four;

#[derive(Debug, Clone, PartialEq, Eq)]
pub struct Row {
    pub values: Vec<Value>,
}

impl Row {
    pub fn encode(&self) -> Written {
        list(WIDTH, "row", &self.values, |value| Ok(value.encode()))
    }
}

pub fn decode(image: &[u8]) -> Read<Row> {
    let log = Log::off();
    decode_part(Reader::new(image, &log), None)
}

/// A row that obeys the table; any other bytes are refused.
pub fn decode_of(image: &[u8], table: &Table) -> Read<Row> {
    let log = Log::off();
    decode_part(Reader::new(image, &log), Some(table))
}

/// The value, and every field up to its end or to the damage.
pub fn explain(image: &[u8], table: Option<&Table>) -> (Vec<Field>, Read<Row>) {
    let log = Log::on();
    let value = decode_part(Reader::new(image, &log), table);
    (log.into_fields(), value)
}

fn decode_part(reader: Reader, table: Option<&Table>) -> Read<Row> {
    let start = reader.at();
    let mut place = 0;
    let values = reader.list(WIDTH, "row", "value", |part| {
        let value = Value::decode(part)?;
        let column = table.and_then(|table| table.columns.get(place));
        place += 1;
        match column {
            Some(column) if !value.fits(column.data_type, column.nullable) => {
                let null = if column.nullable { " or NULL" } else { "" };
                let wanted = column.data_type.name();
                damage(part.at(), format!("the column {:?} takes {wanted}{null}, not {}", column.name, value.to_sql()))
            }
            _ => Ok(value),
        }
    })?;
    match table {
        Some(table) if table.columns.len() != values.len() => {
            let (have, want) = (values.len(), table.columns.len());
            damage(start, format!("the row has {have} values and the table {want} columns"))
        }
        _ => Ok(Row { values }),
    }
}
