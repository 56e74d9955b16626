//! Readable text for people: to images, and back to SQL.
//!
//! The SQL reader is a convenience and not the real parser. It knows the statements that the analyzer supports and, of
//! the clauses that it does not, enough to set the mark that stands for them. Every statement image can be written:
//! where SQL has no words for something, there is one of these.
//!
//! | Written | Stands for |
//! |---|---|
//! | `[a + b] * c` | grouping that leaves no parentheses in the tree |
//! | `unquoted"x y"` | an unquoted name with any text |
//! | `number'+5'` | a number with any text |
//! | `DELETE {tables} t` | the first mark of a DELETE without FROM |

pub mod catalogue;
mod expression;
pub mod print;
pub mod row;
pub mod sql;
mod tokens;

/// What is wrong with a text, and where: the byte from which on it could not be read.
#[derive(Debug, Clone, PartialEq, Eq)]
pub struct TextError {
    pub at: usize,
    pub message: String,
}

impl TextError {
    /// With line and column, both from 1, as an editor counts them.
    pub fn in_text(&self, text: &str) -> String {
        let before = &text[..self.at.min(text.len())];
        let line = before.matches('\n').count() + 1;
        let column = before.chars().rev().take_while(|letter| *letter != '\n').count() + 1;
        format!("line {line}, column {column}: {}", self.message)
    }
}

type Parsed<T> = Result<T, TextError>;

fn error<T>(at: usize, message: impl Into<String>) -> Parsed<T> {
    Err(TextError { at, message: message.into() })
}
