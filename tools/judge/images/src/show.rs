//! An image as readable text, field by field, and bytes as hex.

use crate::bytes::{Damage, Field};
use crate::catalogue::{self, Table};
use crate::text::catalogue::catalogue_to_text;
use crate::text::print::tree_to_sql;
use crate::{bound, row, statement};

#[derive(Debug, Clone, Copy, PartialEq, Eq)]
pub enum ImageKind {
    Statement,
    Catalogue,
    Row,
    Bound,
}

impl ImageKind {
    pub const ALL: [ImageKind; 4] = [ImageKind::Statement, ImageKind::Catalogue, ImageKind::Row, ImageKind::Bound];

    pub fn name(self) -> &'static str {
        match self {
            ImageKind::Statement => "statement",
            ImageKind::Catalogue => "catalogue",
            ImageKind::Row => "row",
            ImageKind::Bound => "bound",
        }
    }
}

/// The fields of an image as text, and the damage if it is none.
pub struct Shown {
    pub text: String,
    pub damage: Option<Damage>,
}

/// `table`, if given, is the one that a row must obey.
pub fn show(kind: ImageKind, image: &[u8], table: Option<&Table>) -> Shown {
    let (mut fields, summary) = match kind {
        ImageKind::Statement => {
            let (fields, value) = statement::explain(image);
            (fields, value.map(|value| format!("{}\n", tree_to_sql(&value.tree))))
        }
        ImageKind::Catalogue => {
            let (fields, value) = catalogue::explain(image);
            (fields, value.map(|value| catalogue_to_text(&value)))
        }
        ImageKind::Row => {
            let (fields, value) = row::explain(image, table);
            (fields, value.map(|value| format!("{}\n", row_to_text(&value))))
        }
        ImageKind::Bound => {
            let (fields, value) = bound::explain(image);
            (fields, value.map(|_| String::new()))
        }
    };
    let mut text = format!("{} image, {} bytes\n", kind.name(), image.len());
    // Contents of nodes are read with their nodes and stand behind them all.
    fields.sort_by_key(|field| field.start);
    fields.iter().for_each(|field| text.push_str(&field_to_text(field, image)));
    match summary {
        Ok(summary) => {
            Shown { text: format!("{text}{}{summary}", if summary.is_empty() { "" } else { "\n" }), damage: None }
        }
        Err(damage) => Shown { text, damage: Some(damage) },
    }
}

fn row_to_text(row: &row::Row) -> String {
    row.values.iter().map(|value| value.to_sql()).collect::<Vec<_>>().join(", ")
}

const BYTES_IN_A_LINE: usize = 12;

/// Position, bytes and meaning. Bytes that do not fit one line go on in the next ones.
fn field_to_text(field: &Field, image: &[u8]) -> String {
    let indent = "  ".repeat(field.depth);
    let range = if field.end > field.start + 1 {
        format!("{}-{}", field.start, field.end - 1)
    } else if field.end > field.start {
        field.start.to_string()
    } else {
        format!("{} (none)", field.start)
    };
    let bytes = if field.heading { &[] } else { &image[field.start..field.end] };
    let width = 3 * BYTES_IN_A_LINE;
    let mut lines = bytes.chunks(BYTES_IN_A_LINE).map(spaced_hex);
    let first = lines.next().unwrap_or_default();
    let mut text = format!("{range:>11}  {first:<width$} {indent}{}\n", field.text);
    for line in lines {
        text.push_str(&format!("{:>11}  {line}\n", ""));
    }
    text
}

fn spaced_hex(bytes: &[u8]) -> String {
    bytes.iter().map(|byte| format!("{byte:02x}")).collect::<Vec<_>>().join(" ")
}

pub fn hex(bytes: &[u8]) -> String {
    bytes.iter().map(|byte| format!("{byte:02x}")).collect()
}

/// Bytes from hex, with any white space between. The error names the place of the letter that is none.
pub fn from_hex(text: &str) -> Result<Vec<u8>, String> {
    let mut digits = Vec::new();
    for (place, letter) in text.char_indices().filter(|(_, letter)| !letter.is_whitespace()) {
        match letter.to_digit(16) {
            Some(digit) => digits.push(digit as u8),
            None => return Err(format!("{letter:?} at {place} is no hex digit")),
        }
    }
    if digits.len() % 2 == 1 {
        return Err("the number of hex digits is odd".to_string());
    }
    Ok(digits.chunks(2).map(|pair| pair[0] << 4 | pair[1]).collect())
}
