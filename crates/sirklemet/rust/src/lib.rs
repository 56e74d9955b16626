//! The proved binder, runner and readers. Each takes any bytes, ends, and reads nothing but them; what it answers is proved
//! (docs/PROVED.md).

mod refusal;

pub use refusal::Refusal;

mod library {
    // As crates/sirklemet/sirklemet.h declares them.
    unsafe extern "C" {
        pub fn sirklemet_bind(
            statement: *const u8,
            statement_length: usize,
            catalogue: *const u8,
            catalogue_length: usize,
            out: *mut u8,
            out_length: usize,
            written: *mut usize,
        ) -> u8;
        pub fn sirklemet_run(
            statement: *const u8,
            statement_length: usize,
            catalogue: *const u8,
            catalogue_length: usize,
            row: *const u8,
            row_length: usize,
            out: *mut u8,
            out_length: usize,
            written: *mut usize,
        ) -> u8;
        pub fn sirklemet_is_statement(bytes: *const u8, length: usize) -> bool;
        pub fn sirklemet_read_statement(bytes: *const u8, length: usize) -> u8;
        pub fn sirklemet_is_catalogue(bytes: *const u8, length: usize) -> bool;
        pub fn sirklemet_read_catalogue(bytes: *const u8, length: usize) -> u8;
        pub fn sirklemet_is_row(bytes: *const u8, length: usize) -> bool;
        pub fn sirklemet_obeys(
            bytes: *const u8,
            length: usize,
            tables: *const u8,
            tables_length: usize,
            number: usize,
        ) -> bool;
    }
}

/// Binds a statement against a catalogue. The answer is the length of the bound statement's image, which is then at the
/// front of `out`; the bytes behind it stay. A refusal leaves all of `out` as it was.
pub fn bind(statement: &[u8], catalogue: &[u8], out: &mut [u8]) -> Result<usize, Refusal> {
    let mut written = 0;
    // SAFETY: a slice's pointer is not null, its bytes can be read, and what is borrowed as mutable overlaps nothing.
    let number = unsafe {
        library::sirklemet_bind(
            statement.as_ptr(),
            statement.len(),
            catalogue.as_ptr(),
            catalogue.len(),
            out.as_mut_ptr(),
            out.len(),
            &mut written,
        )
    };
    answered(number, written)
}

/// Runs a statement, which is an UPDATE, on one row of its table. The answer is the length of the new row's image, which is
/// then at the front of `out`; the bytes behind it stay. A refusal leaves all of `out` as it was.
pub fn run(statement: &[u8], catalogue: &[u8], row: &[u8], out: &mut [u8]) -> Result<usize, Refusal> {
    let mut written = 0;
    // SAFETY: as above.
    let number = unsafe {
        library::sirklemet_run(
            statement.as_ptr(),
            statement.len(),
            catalogue.as_ptr(),
            catalogue.len(),
            row.as_ptr(),
            row.len(),
            out.as_mut_ptr(),
            out.len(),
            &mut written,
        )
    };
    answered(number, written)
}

fn answered(number: u8, written: usize) -> Result<usize, Refusal> {
    match Refusal::of_number(number) {
        Some(refusal) => Err(refusal),
        None if number == 0 => Ok(written),
        None => unreachable!("there is no refusal {number}"),
    }
}

/// Whether bytes are the image of a statement, whatever its size.
pub fn is_statement(bytes: &[u8]) -> bool {
    // SAFETY: as above, of one slice.
    unsafe { library::sirklemet_is_statement(bytes.as_ptr(), bytes.len()) }
}

/// 0: a statement within the limits. 5: no statement. 7: one past a limit. 8: one with an unquoted name beyond ASCII.
pub fn read_statement(bytes: &[u8]) -> u8 {
    // SAFETY: as above.
    unsafe { library::sirklemet_read_statement(bytes.as_ptr(), bytes.len()) }
}

/// Whether bytes are the image of a catalogue, whatever its size.
pub fn is_catalogue(bytes: &[u8]) -> bool {
    // SAFETY: as above.
    unsafe { library::sirklemet_is_catalogue(bytes.as_ptr(), bytes.len()) }
}

/// 0: a catalogue within the limits. 6: no catalogue. 7: one past a limit.
pub fn read_catalogue(bytes: &[u8]) -> u8 {
    // SAFETY: as above.
    unsafe { library::sirklemet_read_catalogue(bytes.as_ptr(), bytes.len()) }
}

/// Whether bytes are the image of a row, of whatever table.
pub fn is_row(bytes: &[u8]) -> bool {
    // SAFETY: as above.
    unsafe { library::sirklemet_is_row(bytes.as_ptr(), bytes.len()) }
}

/// Whether `tables` are the image of a catalogue that has a table of this number, from 0, and `bytes` are the image of a
/// row that obeys it.
pub fn obeys(bytes: &[u8], tables: &[u8], number: usize) -> bool {
    // SAFETY: as above.
    unsafe { library::sirklemet_obeys(bytes.as_ptr(), bytes.len(), tables.as_ptr(), tables.len(), number) }
}
