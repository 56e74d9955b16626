//! A row from text: literals with commas between, as `'A-100', 41, NULL, TRUE`.

use super::tokens::{Cursor, Kind};
use super::{Parsed, error};
use crate::row::Row;
use crate::value::Value;

pub fn row(text: &str) -> Parsed<Row> {
    let mut cursor = Cursor::new(text)?;
    let mut values = Vec::new();
    let parenthesized = cursor.eat_sign("(");
    let empty = cursor.at_end() || cursor.is_sign(")");
    if !empty {
        values.push(value(&mut cursor)?);
    }
    while cursor.eat_sign(",") {
        values.push(value(&mut cursor)?);
    }
    if parenthesized {
        cursor.expect_sign(")")?;
    }
    cursor.eat_sign(";");
    if !cursor.at_end() {
        return cursor.fail("a comma or the end");
    }
    Ok(Row { values })
}

fn value(cursor: &mut Cursor) -> Parsed<Value> {
    let at = cursor.at();
    let sign = ["-", "+"].into_iter().find(|sign| cursor.eat_sign(sign)).unwrap_or("");
    let value = match cursor.kind().clone() {
        Kind::Number(digits) => match format!("{sign}{digits}").parse() {
            Ok(number) => Value::Int(number),
            Err(_) => return error(at, format!("{sign}{digits} is no INT of 64 signed bits")),
        },
        _ if !sign.is_empty() => return cursor.fail("a number"),
        Kind::Text(text) => Value::Text(text),
        Kind::Word(word) if word.eq_ignore_ascii_case("NULL") => Value::Null,
        Kind::Word(word) if word.eq_ignore_ascii_case("TRUE") => Value::Bool(true),
        Kind::Word(word) if word.eq_ignore_ascii_case("FALSE") => Value::Bool(false),
        _ => return cursor.fail("a number, a 'string', TRUE, FALSE or NULL"),
    };
    cursor.step();
    Ok(value)
}
