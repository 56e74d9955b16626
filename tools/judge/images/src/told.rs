//! What is told of bytes: the number of a refusal of paper 01 that they alone decide, or 0.

use crate::bytes::Written;
use crate::{catalogue, limits, row, statement};

#[derive(Debug, Clone, PartialEq, Eq)]
pub struct Told {
    /// 0 where nothing is refused.
    pub number: u8,
    /// Why it is refused, for people.
    pub reason: String,
}

impl Told {
    fn taken() -> Self {
        Told { number: 0, reason: String::new() }
    }

    fn refused(number: u8, reason: String) -> Self {
        Told { number, reason }
    }
}

/// 5, then 7, then 8.
pub fn of_statement(bytes: &[u8]) -> Told {
    let value = match statement::decode(bytes) {
        Ok(value) => value,
        Err(damage) => return Told::refused(5, damage.to_string()),
    };
    hold_to_bytes(value.encode(), bytes);
    if let Some(limit) = limits::statement_passes(&value, bytes.len()) {
        return Told::refused(7, limit);
    }
    match limits::unquoted_beyond_ascii(&value) {
        Some(name) => Told::refused(8, format!("unquoted name {:?}", name.text)),
        None => Told::taken(),
    }
}

/// 6, then 7.
pub fn of_catalogue(bytes: &[u8]) -> Told {
    let value = match catalogue::decode(bytes) {
        Ok(value) => value,
        Err(damage) => return Told::refused(6, damage.to_string()),
    };
    hold_to_bytes(value.encode_unjudged(), bytes);
    match limits::catalogue_passes(&value, bytes.len()) {
        Some(limit) => Told::refused(7, limit),
        None => Told::taken(),
    }
}

/// 10: no row, of whatever table.
pub fn of_any_row(bytes: &[u8]) -> Told {
    let value = match row::decode(bytes) {
        Ok(value) => value,
        Err(damage) => return Told::refused(10, damage.to_string()),
    };
    hold_to_bytes(value.encode(), bytes);
    Told::taken()
}

/// 10: no row that obeys the table of this number, from 0, or there is no such table.
pub fn of_row(bytes: &[u8], tables: &[u8], number: usize) -> Told {
    let catalogue = match catalogue::decode(tables) {
        Ok(catalogue) => catalogue,
        Err(damage) => return Told::refused(10, format!("no catalogue: {damage}")),
    };
    let Some(table) = catalogue.tables.get(number) else {
        return Told::refused(10, format!("there are only {} tables", catalogue.tables.len()));
    };
    match row::decode_of(bytes, table) {
        Ok(_) => Told::taken(),
        Err(damage) => Told::refused(10, damage.to_string()),
    }
}

/// The decoder is strict: what it takes is the one image of the value.
fn hold_to_bytes(image: Written, bytes: &[u8]) {
    assert!(image.as_deref() == Ok(bytes), "the decoder takes bytes that are not the value's image: {bytes:?}");
}
