//! What a caller must hear: 5 to 8 by paper 01, then the Rust's own answer, then 9.

use images::limits;
use images::{bound as image_bound, catalogue as image_catalogue, statement as image_statement};
use ragnordb_common::Error;

use crate::analyzer::analyze;
use crate::decode::{self, Choice};
use crate::encode;

#[derive(Debug, Clone, PartialEq, Eq)]
pub enum Answer {
    Refused(u8),
    /// The bound image.
    Bound(Vec<u8>),
}

impl Answer {
    /// 0 where it is bound, else the number of the refusal.
    pub fn number(&self) -> u8 {
        match self {
            Answer::Refused(number) => *number,
            Answer::Bound(_) => 0,
        }
    }
}

/// An answer, and for people why.
#[derive(Debug, Clone, PartialEq, Eq)]
pub struct Verdict {
    pub answer: Answer,
    pub reason: String,
}

pub fn judge(statement: &[u8], catalogue: &[u8], room: usize) -> Answer {
    judge_with(statement, catalogue, room, &mut Choice::new(0)).answer
}

/// `choice` says which field stands behind each mark that is set; the answer does not depend on it.
pub fn judge_with(statement: &[u8], catalogue: &[u8], room: usize, choice: &mut Choice) -> Verdict {
    match judged(statement, catalogue, room, choice) {
        Ok(bound) => Verdict { answer: Answer::Bound(bound), reason: "bound".to_string() },
        Err((number, reason)) => Verdict { answer: Answer::Refused(number), reason },
    }
}

type Refusal = (u8, String);

fn judged(statement: &[u8], catalogue: &[u8], room: usize, choice: &mut Choice) -> Result<Vec<u8>, Refusal> {
    let statement_value = image_statement::decode(statement).map_err(|damage| (5, damage.to_string()))?;
    let catalogue_value = image_catalogue::decode(catalogue).map_err(|damage| (6, damage.to_string()))?;
    let past_limit = limits::statement_passes(&statement_value, statement.len())
        .or_else(|| limits::catalogue_passes(&catalogue_value, catalogue.len()));
    if let Some(limit) = past_limit {
        return Err((7, limit));
    }
    if let Some(name) = limits::unquoted_beyond_ascii(&statement_value) {
        return Err((8, format!("unquoted name {:?}", name.text)));
    }
    let bound = ask_the_rust(&statement_value, &catalogue_value, choice)?;
    let image = bound.encode().expect("a bound statement within the limits has an image");
    if image.len() > room {
        return Err((9, format!("{} bytes, and room for {room}", image.len())));
    }
    Ok(image)
}

fn ask_the_rust(
    statement: &image_statement::Statement,
    catalogue: &image_catalogue::Catalogue,
    choice: &mut Choice,
) -> Result<image_bound::Bound, Refusal> {
    let parsed = decode::statement(statement, choice);
    match analyze(&parsed, &decode::catalog(catalogue)) {
        Ok(bound) => Ok(encode::bound_value(&bound)),
        Err(Error::SchemaMismatch(message)) => Err((1, message)),
        Err(Error::ConstraintViolation(message)) => Err((2, message)),
        Err(Error::UnsupportedSql(message)) => Err((3, message)),
        Err(Error::InvalidArgument(message)) => Err((4, message)),
        Err(other) => panic!("the analyzer makes no such error: {other:?}"),
    }
}
