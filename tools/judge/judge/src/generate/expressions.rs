//! Expressions that bind, of a wanted type.

use images::catalogue::Table;
use images::random::{Rng, any_text};
use images::statement::{Expression, Node};
use images::value::{ColumnType, ExpressionType, Operator};

use super::names::spell;

/// What an expression must come out as.
#[derive(Clone, Copy)]
pub struct Wanted {
    pub data_type: ExpressionType,
    pub never_null: bool,
}

impl Wanted {
    pub fn any(data_type: ExpressionType) -> Self {
        Wanted { data_type, never_null: false }
    }

    fn of(self, data_type: ExpressionType) -> Self {
        Wanted { data_type, ..self }
    }
}

pub fn type_of(column: ColumnType) -> ExpressionType {
    ExpressionType::ALL[usize::from(column.code())]
}

/// A condition that binds.
pub fn condition(rng: &mut Rng, table: &Table) -> Expression {
    let depth = [1, 2, 2, 3, 3, 4, 6][rng.below(7)];
    expression(rng, table, Wanted::any(ExpressionType::Bool), depth)
}

pub fn expression(rng: &mut Rng, table: &Table, wanted: Wanted, depth: usize) -> Expression {
    if depth <= 1 {
        return leaf(rng, table, wanted);
    }
    if rng.once_in(8) {
        return Expression::unary(Node::Parentheses, expression(rng, table, wanted, depth - 1));
    }
    match wanted.data_type {
        ExpressionType::Int => int(rng, table, wanted, depth - 1),
        ExpressionType::Bool => bool(rng, table, wanted, depth - 1),
        ExpressionType::Text | ExpressionType::Null => leaf(rng, table, wanted),
    }
}

fn leaf(rng: &mut Rng, table: &Table, wanted: Wanted) -> Expression {
    let columns: Vec<&str> = table
        .columns
        .iter()
        .filter(|column| type_of(column.data_type) == wanted.data_type && !(column.nullable && wanted.never_null))
        .map(|column| column.name.as_str())
        .collect();
    if !columns.is_empty() && !rng.once_in(3) {
        let name = *rng.pick(&columns);
        return Expression::leaf(Node::Name(spell(rng, name)));
    }
    match wanted.data_type {
        ExpressionType::Int => number(rng),
        ExpressionType::Text => Expression::leaf(Node::Text(any_text(rng))),
        ExpressionType::Bool => Expression::leaf(if rng.once_in(2) { Node::True } else { Node::False }),
        ExpressionType::Null => Expression::leaf(Node::Null),
    }
}

/// A number that is an INT, on the edge of it often, with or without a sign of its own or before it.
pub fn number(rng: &mut Rng) -> Expression {
    let leaf = |text: &str| Expression::leaf(Node::Number(text.to_string()));
    match rng.below(9) {
        0 => leaf("9223372036854775807"),
        1 => Expression::unary(Node::Minus, leaf("9223372036854775808")),
        2 => Expression::unary(Node::Plus, leaf("9223372036854775807")),
        3 => leaf("-9223372036854775808"),
        4 => Expression::unary(Node::Minus, leaf("-5")),
        5 => leaf(&format!("{}{}", "0".repeat(rng.below(60)), rng.below(100))),
        6 => leaf(&format!("+{}", rng.below(10))),
        7 => Expression::unary(if rng.once_in(2) { Node::Minus } else { Node::Plus }, leaf("0")),
        _ => leaf(&rng.below(1000).to_string()),
    }
}

const NO_INTS: [&str; 16] = [
    "1.5",
    "1e3",
    "",
    "+",
    "-",
    "--1",
    "+-1",
    " 1",
    "1 ",
    "0x10",
    "1_000",
    "１",
    "99999999999999999999",
    "170141183460469231731687303715884105728",
    "-9223372036854775809",
    "1L",
];

/// A number that is no INT.
pub fn bad_number(rng: &mut Rng) -> Expression {
    let leaf = |text: &str| Expression::leaf(Node::Number(text.to_string()));
    match rng.below(8) {
        0 => leaf("9223372036854775808"),
        1 => Expression::unary(Node::Minus, leaf("9223372036854775809")),
        2 => Expression::unary(Node::Plus, leaf("9223372036854775808")),
        3 => Expression::unary(Node::Minus, leaf("-9223372036854775808")),
        4 => Expression::unary(Node::Minus, leaf("-170141183460469231731687303715884105728")),
        _ => leaf(NO_INTS[rng.below(NO_INTS.len())]),
    }
}

fn int(rng: &mut Rng, table: &Table, wanted: Wanted, depth: usize) -> Expression {
    const OPERATORS: [Operator; 5] =
        [Operator::Add, Operator::Subtract, Operator::Multiply, Operator::Divide, Operator::Modulo];
    match rng.below(6) {
        0 => leaf(rng, table, wanted),
        1 => {
            let sign = if rng.once_in(2) { Node::Minus } else { Node::Plus };
            let operand = expression(rng, table, wanted, depth);
            // A sign directly on a number is one literal: there an edge number would be another one.
            let number = matches!(operand.nodes.as_slice(), [Node::Number(_)]);
            if number || rng.once_in(2) {
                return Expression::unary(sign, Expression::unary(Node::Parentheses, operand));
            }
            Expression::unary(sign, operand)
        }
        _ => {
            let left = expression(rng, table, wanted, depth);
            let right = expression(rng, table, wanted, depth);
            Expression::binary(Node::Binary(*rng.pick(&OPERATORS)), left, right)
        }
    }
}

fn bool(rng: &mut Rng, table: &Table, wanted: Wanted, depth: usize) -> Expression {
    match rng.below(8) {
        0 => leaf(rng, table, wanted),
        1 => Expression::unary(Node::Not, expression(rng, table, wanted, depth)),
        2 => {
            let operand = Wanted::any(*rng.pick(&ExpressionType::ALL));
            let node = if rng.once_in(2) { Node::IsNull } else { Node::IsNotNull };
            Expression::unary(node, expression(rng, table, operand, depth))
        }
        3..=5 => comparison(rng, table, wanted, depth),
        _ => {
            let operator = if rng.once_in(2) { Operator::And } else { Operator::Or };
            let left = expression(rng, table, wanted, depth);
            let right = expression(rng, table, wanted, depth);
            Expression::binary(Node::Binary(operator), left, right)
        }
    }
}

fn comparison(rng: &mut Rng, table: &Table, wanted: Wanted, depth: usize) -> Expression {
    const EQUALITY: [Operator; 2] = [Operator::Equal, Operator::NotEqual];
    const ORDER: [Operator; 4] = [Operator::Greater, Operator::GreaterOrEqual, Operator::Less, Operator::LessOrEqual];
    let (operator, data_type) = if rng.once_in(2) {
        (*rng.pick(&EQUALITY), *rng.pick(&ExpressionType::ALL[..3]))
    } else {
        (*rng.pick(&ORDER), *rng.pick(&ExpressionType::ALL[..2]))
    };
    let left = expression(rng, table, wanted.of(data_type), depth);
    let right = expression(rng, table, wanted.of(data_type), depth);
    Expression::binary(Node::Binary(operator), left, right)
}
