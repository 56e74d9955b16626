//! Why something is refused: docs/REFUSALS.md.

use std::fmt;

/// A refusal by its number. Binding refuses with 1 to 9.
#[derive(Debug, Clone, Copy, PartialEq, Eq, Hash)]
#[repr(u8)]
pub enum Refusal {
    SchemaMismatch = 1,
    ConstraintViolation = 2,
    UnsupportedSql = 3,
    InvalidArgument = 4,
    NoStatement = 5,
    NoCatalogue = 6,
    PastALimit = 7,
    NameBeyondAscii = 8,
    NoRoom = 9,
    NoRow = 10,
    Fault = 11,
    NoUpdate = 12,
}

impl Refusal {
    pub const ALL: [Refusal; 12] = [
        Refusal::SchemaMismatch,
        Refusal::ConstraintViolation,
        Refusal::UnsupportedSql,
        Refusal::InvalidArgument,
        Refusal::NoStatement,
        Refusal::NoCatalogue,
        Refusal::PastALimit,
        Refusal::NameBeyondAscii,
        Refusal::NoRoom,
        Refusal::NoRow,
        Refusal::Fault,
        Refusal::NoUpdate,
    ];

    pub fn number(self) -> u8 {
        self as u8
    }

    pub fn of_number(number: u8) -> Option<Refusal> {
        Refusal::ALL.into_iter().find(|refusal| refusal.number() == number)
    }

    /// What it says to whoever sent the statement.
    pub fn words(self) -> &'static str {
        match self {
            Refusal::SchemaMismatch => {
                "the statement does not fit what the table declares: no such table or column, another type, or a number out of range"
            }
            Refusal::ConstraintViolation => {
                "the statement breaks a rule of the table: NULL where none may be, a key, a name given twice, a table that is there already"
            }
            Refusal::UnsupportedSql => "the statement uses SQL that is not supported",
            Refusal::InvalidArgument => "the statement asks for nothing: an INSERT of no rows, an UPDATE of no columns",
            Refusal::NoStatement => {
                "the bytes of the statement are no statement: damaged, cut short, or something else"
            }
            Refusal::NoCatalogue => {
                "the bytes of the catalogue are no catalogue: damaged, cut short, or something else"
            }
            Refusal::PastALimit => {
                "the statement or the catalogue is larger than is taken: its bytes, a name, a list, or how deep an expression goes"
            }
            Refusal::NameBeyondAscii => {
                "a name with letters beyond ASCII stands without quotes: put it in double quotes"
            }
            Refusal::NoRoom => "the answer is longer than the room that was given for it",
            Refusal::NoRow => "the bytes of the row are no row of the table",
            Refusal::Fault => "working out a value fails: a division by zero, or a result beyond 64 bits",
            Refusal::NoUpdate => "only an UPDATE can be run on a row",
        }
    }
}

impl fmt::Display for Refusal {
    fn fmt(&self, out: &mut fmt::Formatter) -> fmt::Result {
        write!(out, "refused {}: {}", self.number(), self.words())
    }
}

impl std::error::Error for Refusal {}
