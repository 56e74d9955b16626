//! Names and expressions, with the real parser's order of operators.

use super::Parsed;
use super::tokens::{Cursor, Kind};
use crate::statement::{Expression, Name, Node, ObjectName};
use crate::value::Operator;

/// Words that start a clause or join operands, and so are no name unless quoted.
pub const RESERVED: [&str; 78] = [
    "ALL",
    "AND",
    "AS",
    "BEGIN",
    "BETWEEN",
    "BY",
    "CASE",
    "CHECK",
    "CLUSTER",
    "COLLATE",
    "COMMIT",
    "CONNECT",
    "CONSTRAINT",
    "CREATE",
    "CROSS",
    "DEFAULT",
    "DELETE",
    "DISTINCT",
    "DISTRIBUTE",
    "ELSE",
    "END",
    "EXCEPT",
    "EXISTS",
    "FALSE",
    "FETCH",
    "FOR",
    "FOREIGN",
    "FORMAT",
    "FROM",
    "FULL",
    "GROUP",
    "HAVING",
    "IF",
    "IN",
    "INNER",
    "INSERT",
    "INTERSECT",
    "INTO",
    "IS",
    "JOIN",
    "KEY",
    "LATERAL",
    "LEFT",
    "LIKE",
    "LIMIT",
    "NATURAL",
    "NOT",
    "NULL",
    "OFFSET",
    "ON",
    "OR",
    "ORDER",
    "PREWHERE",
    "PRIMARY",
    "QUALIFY",
    "REPLACE",
    "RETURNING",
    "RIGHT",
    "ROLLBACK",
    "ROW",
    "SELECT",
    "SET",
    "SETTINGS",
    "SORT",
    "START",
    "TABLE",
    "THEN",
    "TOP",
    "TRUE",
    "UNION",
    "UNIQUE",
    "UPDATE",
    "USING",
    "VALUES",
    "WHEN",
    "WHERE",
    "WINDOW",
    "WITH",
];

pub fn is_reserved(word: &str) -> bool {
    RESERVED.iter().any(|reserved| reserved.eq_ignore_ascii_case(word))
}

pub fn name(cursor: &mut Cursor) -> Parsed<Name> {
    match peek_name(cursor) {
        Some(name) => {
            cursor.step();
            Ok(name)
        }
        None => cursor.fail("a name"),
    }
}

pub fn peek_name(cursor: &Cursor) -> Option<Name> {
    match cursor.kind() {
        Kind::Word(word) if !is_reserved(word) => Some(Name::unquoted(word)),
        Kind::UnquotedName(text) => Some(Name::unquoted(text)),
        Kind::QuotedName(text) => Some(Name::quoted(text)),
        _ => None,
    }
}

/// A name, or several with dots between.
pub fn object_name(cursor: &mut Cursor) -> Parsed<ObjectName> {
    let first = name(cursor)?;
    if !cursor.is_sign(".") {
        return Ok(ObjectName::One(first));
    }
    while cursor.eat_sign(".") {
        name(cursor)?;
    }
    Ok(ObjectName::Other)
}

/// How strongly an operator binds, weakest first.
mod strength {
    pub const OR: u8 = 5;
    pub const AND: u8 = 10;
    pub const NOT: u8 = 15;
    pub const IS: u8 = 17;
    pub const LIKE: u8 = 19;
    pub const COMPARE: u8 = 20;
    pub const BIT_OR: u8 = 21;
    pub const CARET: u8 = 22;
    pub const BIT_AND: u8 = 23;
    pub const XOR: u8 = 24;
    pub const ADD: u8 = 30;
    pub const MULTIPLY: u8 = 40;
    pub const CAST: u8 = 50;
}

/// How strongly a node of the tree binds; a leaf, or what stands in parentheses, more than any operator.
pub fn node_strength(node: &Node) -> u8 {
    match node {
        Node::Binary(operator) => operator_strength(*operator),
        Node::OtherBinary | Node::Plus | Node::Minus | Node::OtherUnary => strength::MULTIPLY,
        Node::Not => strength::NOT,
        Node::IsNull | Node::IsNotNull => strength::IS,
        _ => u8::MAX,
    }
}

fn operator_strength(operator: Operator) -> u8 {
    match operator {
        Operator::Or => strength::OR,
        Operator::And => strength::AND,
        Operator::Add | Operator::Subtract => strength::ADD,
        Operator::Multiply | Operator::Divide | Operator::Modulo => strength::MULTIPLY,
        _ => strength::COMPARE,
    }
}

pub fn expression(cursor: &mut Cursor) -> Parsed<Expression> {
    operand(cursor, 0)
}

/// An expression up to the first operator that does not bind more strongly than `floor`.
fn operand(cursor: &mut Cursor, floor: u8) -> Parsed<Expression> {
    let mut left = prefix(cursor)?;
    loop {
        let Some((infix, strength)) = infix(cursor) else { return Ok(left) };
        if strength <= floor {
            return Ok(left);
        }
        left = apply(cursor, infix, strength, left)?;
    }
}

fn other() -> Expression {
    Expression::leaf(Node::OtherExpression)
}

fn prefix(cursor: &mut Cursor) -> Parsed<Expression> {
    match cursor.kind().clone() {
        Kind::Number(text) => leaf(cursor, Node::Number(text)),
        Kind::Text(text) => leaf(cursor, Node::Text(text)),
        Kind::OtherLiteral => leaf(cursor, Node::OtherLiteral),
        Kind::Sign("(") => parenthesized(cursor),
        Kind::Sign("[") => grouped(cursor),
        Kind::Sign("+") => unary(cursor, Node::Plus, strength::MULTIPLY),
        Kind::Sign("-") => unary(cursor, Node::Minus, strength::MULTIPLY),
        Kind::Sign("~" | "@" | "!") => unary(cursor, Node::OtherUnary, strength::MULTIPLY),
        Kind::Word(word) => keyword_or_name(cursor, &word.to_ascii_uppercase()),
        Kind::QuotedName(_) | Kind::UnquotedName(_) => name_or_call(cursor),
        _ => cursor.fail("an expression"),
    }
}

fn leaf(cursor: &mut Cursor, node: Node) -> Parsed<Expression> {
    cursor.step();
    Ok(Expression::leaf(node))
}

fn unary(cursor: &mut Cursor, node: Node, floor: u8) -> Parsed<Expression> {
    cursor.step();
    Ok(Expression::unary(node, operand(cursor, floor)?))
}

fn parenthesized(cursor: &mut Cursor) -> Parsed<Expression> {
    let subquery = ["SELECT", "WITH", "VALUES"].iter().any(|word| cursor.is_word_later(1, word));
    if subquery {
        cursor.skip_one()?;
        return Ok(other());
    }
    cursor.step();
    let inner = expression(cursor)?;
    if cursor.eat_sign(",") {
        cursor.skip_until(&[])?;
        cursor.expect_sign(")")?;
        return Ok(other());
    }
    cursor.expect_sign(")")?;
    Ok(Expression::unary(Node::Parentheses, inner))
}

fn grouped(cursor: &mut Cursor) -> Parsed<Expression> {
    cursor.step();
    let inner = expression(cursor)?;
    cursor.expect_sign("]")?;
    Ok(inner)
}

fn keyword_or_name(cursor: &mut Cursor, word: &str) -> Parsed<Expression> {
    match word {
        "TRUE" => leaf(cursor, Node::True),
        "FALSE" => leaf(cursor, Node::False),
        "NULL" => leaf(cursor, Node::Null),
        "NOT" if cursor.is_word_later(1, "EXISTS") => {
            cursor.step();
            call(cursor)
        }
        "NOT" => unary(cursor, Node::Not, strength::NOT),
        "EXISTS" => call(cursor),
        "CASE" => case(cursor),
        "REPLACE" | "LEFT" | "RIGHT" | "IF" if cursor.is_sign_later(1, "(") => call(cursor),
        _ if is_reserved(word) => cursor.fail("an expression"),
        _ => name_or_call(cursor),
    }
}

fn call(cursor: &mut Cursor) -> Parsed<Expression> {
    cursor.step();
    if !cursor.is_sign("(") {
        return cursor.fail("(");
    }
    cursor.skip_one()?;
    while cursor.eat_any_word(&["OVER", "FILTER"]) {
        cursor.skip_one()?;
    }
    Ok(other())
}

/// Passes over a CASE up to its own END.
fn case(cursor: &mut Cursor) -> Parsed<Expression> {
    let mut open = 0;
    loop {
        if cursor.is_word("CASE") {
            open += 1;
        } else if cursor.is_word("END") {
            open -= 1;
        }
        cursor.skip_one()?;
        if open == 0 {
            return Ok(other());
        }
    }
}

fn name_or_call(cursor: &mut Cursor) -> Parsed<Expression> {
    if cursor.is_sign_later(1, "(") {
        return call(cursor);
    }
    let first = name(cursor)?;
    if matches!(cursor.kind(), Kind::Text(_)) && !first.quoted {
        // A typed string, as DATE '2026-01-01'.
        cursor.step();
        return Ok(other());
    }
    if !cursor.is_sign(".") {
        return Ok(Expression::leaf(Node::Name(first)));
    }
    while cursor.eat_sign(".") {
        if cursor.eat_sign("*") {
            return Ok(other());
        }
        if cursor.is_sign_later(1, "(") {
            return call(cursor);
        }
        name(cursor)?;
    }
    Ok(other())
}

enum Infix {
    Binary(Operator),
    OtherBinary,
    Is,
    /// LIKE, IN, BETWEEN and the like: one expression of another kind with its operands.
    Other,
    Cast,
}

/// The operator that stands here, and how strongly it binds.
fn infix(cursor: &Cursor) -> Option<(Infix, u8)> {
    let negated = usize::from(cursor.is_word("NOT"));
    if ["LIKE", "ILIKE", "SIMILAR", "RLIKE", "REGEXP"].iter().any(|word| cursor.is_word_later(negated, word)) {
        return Some((Infix::Other, strength::LIKE));
    }
    if ["BETWEEN", "IN"].iter().any(|word| cursor.is_word_later(negated, word)) {
        return Some((Infix::Other, strength::COMPARE));
    }
    match cursor.kind() {
        Kind::Word(word) => word_infix(&word.to_ascii_uppercase()),
        Kind::Sign(sign) => sign_infix(sign),
        _ => None,
    }
}

fn word_infix(word: &str) -> Option<(Infix, u8)> {
    match word {
        "AND" => Some((Infix::Binary(Operator::And), strength::AND)),
        "OR" => Some((Infix::Binary(Operator::Or), strength::OR)),
        "IS" => Some((Infix::Is, strength::IS)),
        "XOR" => Some((Infix::OtherBinary, strength::XOR)),
        "DIV" => Some((Infix::OtherBinary, strength::MULTIPLY)),
        _ => None,
    }
}

fn sign_infix(sign: &str) -> Option<(Infix, u8)> {
    let operator = match sign {
        "+" => Operator::Add,
        "-" => Operator::Subtract,
        "*" => Operator::Multiply,
        "/" => Operator::Divide,
        "%" => Operator::Modulo,
        "=" | "==" => Operator::Equal,
        "<>" | "!=" => Operator::NotEqual,
        ">" => Operator::Greater,
        ">=" => Operator::GreaterOrEqual,
        "<" => Operator::Less,
        "<=" => Operator::LessOrEqual,
        "<=>" => return Some((Infix::OtherBinary, strength::COMPARE)),
        "||" => return Some((Infix::OtherBinary, strength::MULTIPLY)),
        "|" | "<<" | ">>" => return Some((Infix::OtherBinary, strength::BIT_OR)),
        "^" => return Some((Infix::OtherBinary, strength::CARET)),
        "&" => return Some((Infix::OtherBinary, strength::BIT_AND)),
        "::" => return Some((Infix::Cast, strength::CAST)),
        "->" => return Some((Infix::OtherBinary, strength::CAST)),
        _ => return None,
    };
    Some((Infix::Binary(operator), operator_strength(operator)))
}

fn apply(cursor: &mut Cursor, infix: Infix, strength: u8, left: Expression) -> Parsed<Expression> {
    match infix {
        Infix::Binary(operator) => {
            cursor.step();
            Ok(Expression::binary(Node::Binary(operator), left, operand(cursor, strength)?))
        }
        Infix::OtherBinary => {
            cursor.step();
            Ok(Expression::binary(Node::OtherBinary, left, operand(cursor, strength)?))
        }
        Infix::Is => is_test(cursor, left),
        Infix::Other => other_test(cursor),
        Infix::Cast => {
            cursor.step();
            cursor.skip_one()?;
            Ok(other())
        }
    }
}

fn is_test(cursor: &mut Cursor, left: Expression) -> Parsed<Expression> {
    cursor.step();
    let negated = cursor.eat_word("NOT");
    if cursor.eat_word("NULL") {
        return Ok(Expression::unary(if negated { Node::IsNotNull } else { Node::IsNull }, left));
    }
    if cursor.eat_words(&["DISTINCT", "FROM"]) {
        operand(cursor, strength::IS)?;
        return Ok(other());
    }
    if cursor.eat_any_word(&["TRUE", "FALSE", "UNKNOWN"]) {
        return Ok(other());
    }
    cursor.fail("NULL")
}

fn other_test(cursor: &mut Cursor) -> Parsed<Expression> {
    cursor.eat_word("NOT");
    let between = cursor.is_word("BETWEEN");
    let within = cursor.is_word("IN");
    cursor.step();
    if within {
        cursor.skip_one()?;
        return Ok(other());
    }
    cursor.eat_word("TO");
    operand(cursor, strength::COMPARE)?;
    if between {
        cursor.expect_word("AND")?;
        operand(cursor, strength::COMPARE)?;
    }
    Ok(other())
}
