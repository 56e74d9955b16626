//! The Rust decoder as C calls it, for tools/fuzz. The answers are those of crates/sirklemet/sirklemet.h.

use std::sync::OnceLock;

use images::catalogue::{self, Table};
use images::{row, told};

/// # Safety
/// The pointer is not null, and `length` bytes can be read there.
#[unsafe(no_mangle)]
pub unsafe extern "C" fn oracle_read_statement(bytes: *const u8, length: usize) -> u8 {
    // SAFETY: the caller says so.
    told::of_statement(unsafe { std::slice::from_raw_parts(bytes, length) }).number
}

/// # Safety
/// As above.
#[unsafe(no_mangle)]
pub unsafe extern "C" fn oracle_read_catalogue(bytes: *const u8, length: usize) -> u8 {
    // SAFETY: the caller says so.
    told::of_catalogue(unsafe { std::slice::from_raw_parts(bytes, length) }).number
}

/// # Safety
/// As above.
#[unsafe(no_mangle)]
pub unsafe extern "C" fn oracle_is_row(bytes: *const u8, length: usize) -> bool {
    // SAFETY: the caller says so.
    told::of_any_row(unsafe { std::slice::from_raw_parts(bytes, length) }).number == 0
}

static TABLE: OnceLock<Table> = OnceLock::new();

/// Keeps the first table of a catalogue, for `oracle_obeys`, so that it is not decoded for each row.
///
/// # Safety
/// As above.
#[unsafe(no_mangle)]
pub unsafe extern "C" fn oracle_keep_table(tables: *const u8, length: usize) {
    // SAFETY: the caller says so.
    let decoded = catalogue::decode(unsafe { std::slice::from_raw_parts(tables, length) });
    let table =
        decoded.ok().and_then(|catalogue| catalogue.tables.into_iter().next()).expect("a catalogue with a table");
    TABLE.set(table).expect("one table is kept");
}

/// Whether bytes are a row that obeys the table that was kept.
///
/// # Safety
/// As above.
#[unsafe(no_mangle)]
pub unsafe extern "C" fn oracle_obeys(bytes: *const u8, length: usize) -> bool {
    let table = TABLE.get().expect("a table was kept");
    // SAFETY: the caller says so.
    row::decode_of(unsafe { std::slice::from_raw_parts(bytes, length) }, table).is_ok()
}
