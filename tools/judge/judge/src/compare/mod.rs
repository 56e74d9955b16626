//! The comparison of the Rust with another binder, case by case.

pub mod mistakes;
pub mod other_side;
pub mod places;
pub mod record;
pub mod sample;
pub mod shrink;
pub mod tally;

use std::panic::{AssertUnwindSafe, catch_unwind};

use images::{bound as image_bound, catalogue as image_catalogue, limits, statement as image_statement};

use crate::decode::{self, Choice};
use crate::encode::{encode_bound, encode_catalogue, encode_statement};
use crate::generate::Case;
use crate::judge::{Answer, Verdict, judge_with};
use other_side::OtherSide;

/// What came of one case.
pub struct Outcome {
    pub verdict: Verdict,
    /// What differs, if anything does.
    pub difference: Option<String>,
}

/// The side to compare with. Where there is none the Rust runs alone, and the round trips are checked.
pub type Side = Option<Box<dyn OtherSide>>;

/// Runs one case on both sides.
pub fn run_case(case: &Case, other: &mut Side, choice_seed: u64) -> Outcome {
    let judged = catch_unwind(AssertUnwindSafe(|| {
        let verdict = judge_with(&case.statement, &case.catalogue, case.room, &mut Choice::new(choice_seed));
        let broken = broken_round_trip(case, &verdict, choice_seed);
        (verdict, broken)
    }));
    let (verdict, broken) = match judged {
        Ok(judged) => judged,
        Err(_) => {
            let verdict = Verdict { answer: Answer::Refused(0), reason: "panic".to_string() };
            return Outcome { verdict, difference: Some("the Rust or an encoder panicked".to_string()) };
        }
    };
    let difference = broken.or_else(|| reply_differs(case, &verdict.answer, other.as_deref_mut()?));
    Outcome { verdict, difference }
}

/// The first round trip that does not come back to the bytes that it left from.
fn broken_round_trip(case: &Case, verdict: &Verdict, choice_seed: u64) -> Option<String> {
    if let Ok(value) = image_statement::decode(&case.statement) {
        if value.encode().as_ref() != Ok(&case.statement) {
            return Some("the statement image does not encode back to its bytes".to_string());
        }
        // Past the limit of depth there is no stand-in tree to go through.
        if limits::statement_passes(&value, case.statement.len()).is_none() {
            let parsed = decode::statement(&value, &mut Choice::new(choice_seed));
            if encode_statement(&parsed).as_ref() != Ok(&case.statement) {
                return Some("the parsed statement does not encode to the image".to_string());
            }
        }
    }
    if let Ok(value) = image_catalogue::decode(&case.catalogue)
        && encode_catalogue(&decode::tables(&value)).as_ref() != Ok(&case.catalogue)
    {
        return Some("the catalogue does not encode to its image".to_string());
    }
    if let Answer::Bound(image) = &verdict.answer {
        let value = image_bound::decode(image).ok().and_then(|value| decode::bound(&value));
        if value.map(|value| encode_bound(&value)).as_ref() != Some(&Ok(image.clone())) {
            return Some("the bound statement does not encode back to its bytes".to_string());
        }
    }
    None
}

/// Bytes that no answer is likely to hold, so that a byte written where none belongs shows.
pub fn untouched(room: usize) -> Vec<u8> {
    (0..room).map(|place| (place as u8).wrapping_mul(29).wrapping_add(0xA5)).collect()
}

/// Holds number, length and every byte of the output to the Rust's answer.
pub fn reply_differs(case: &Case, expected: &Answer, other: &mut dyn OtherSide) -> Option<String> {
    let mut expected_out = untouched(case.room);
    let mut expected_length = 0;
    if let Answer::Bound(image) = expected {
        expected_out[..image.len()].copy_from_slice(image);
        expected_length = image.len();
    }
    let mut out = untouched(case.room);
    let reply = other.bind(&case.statement, &case.catalogue, &mut out);
    if reply.number != expected.number() {
        let name = |number: u8| if number == 0 { "bound".to_string() } else { format!("refused {number}") };
        return Some(format!("the Rust says {}, the other side {}", name(expected.number()), name(reply.number)));
    }
    if reply.length != expected_length {
        return Some(format!("the Rust's answer has {expected_length} bytes, the other side's {}", reply.length));
    }
    let place = expected_out.iter().zip(&out).position(|(want, have)| want != have)?;
    let where_ = if place < expected_length { "of the answer" } else { "past the answer" };
    Some(format!("byte {place}, {where_}, is {} and must be {}", out[place], expected_out[place]))
}
