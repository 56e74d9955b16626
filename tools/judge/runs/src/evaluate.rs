//! The value rules of paper 01, over a bound expression and a row.
//!
//! The tree is the one that the Rust's own analyzer binds: a sign directly on a number is one literal there, and
//! parentheses are gone.

use std::cmp::Ordering;

use images::bound::{ColumnRef, Expression, NodeKind};
use images::row::Row;
use images::run::spans;
use images::value::{Operator, Value};

/// Why arithmetic has no result.
#[derive(Debug, Clone, Copy, PartialEq, Eq)]
pub enum Cause {
    ZeroDivisor,
    /// A result outside 64 signed bits.
    Overflow,
}

/// An arithmetic fault, and the node where it arose.
#[derive(Debug, Clone, Copy, PartialEq, Eq)]
pub struct Fault {
    pub node: usize,
    pub cause: Cause,
}

pub type Worked = Result<Value, Fault>;

/// The rules that a planted mistake may change. What stands here is paper 01.
pub trait Rules {
    /// "Arithmetic is exact; division cuts toward zero, the remainder has the dividend's sign."
    fn arithmetic(&self, operator: Operator, left: i64, right: i64) -> Result<i64, Cause> {
        let exact = match operator {
            Operator::Add => left.checked_add(right),
            Operator::Subtract => left.checked_sub(right),
            Operator::Multiply => left.checked_mul(right),
            Operator::Divide | Operator::Modulo if right == 0 => return Err(Cause::ZeroDivisor),
            Operator::Divide => left.checked_div(right),
            // No dividend leaves a rest, the least one included, though its quotient has no 64 bits.
            Operator::Modulo if right == -1 => Some(0),
            Operator::Modulo => left.checked_rem(right),
            _ => unreachable!("{operator:?} is no arithmetic"),
        };
        exact.ok_or(Cause::Overflow)
    }

    fn negated(&self, number: i64) -> Result<i64, Cause> {
        number.checked_neg().ok_or(Cause::Overflow)
    }

    /// "TEXT compares by bytes, a proper prefix first."
    fn text_order(&self, left: &str, right: &str) -> Ordering {
        left.as_bytes().cmp(right.as_bytes())
    }

    /// "A column id never serves as a row position."
    fn column_value(&self, column: &ColumnRef, row: &Row) -> Value {
        row.values[column.ordinal as usize].clone()
    }

    /// What the left operand settles alone. "All operands are always worked out": nothing.
    fn settled(&self, _operator: Operator, _left: &Value) -> Option<Value> {
        None
    }

    /// What NULL in either gives: NULL.
    fn with_null(&self, _operator: Operator, _left: &Value, _right: &Value) -> Result<Value, Cause> {
        Ok(Value::Null)
    }

    /// "If WHERE isn't TRUE the row is written as it is".
    fn holds(&self, condition: &Value) -> bool {
        *condition == Value::Bool(true)
    }

    /// "all values come from the old row"
    fn read_row<'a>(&self, old: &'a Row, _new: &'a Row) -> &'a Row {
        old
    }
}

/// Paper 01 itself.
pub struct Paper;

impl Rules for Paper {}

pub fn evaluate(rules: &dyn Rules, expression: &Expression, row: &Row) -> Worked {
    every_node(rules, expression, row).pop().expect("an expression has a root")
}

/// What every node comes to, by its number.
pub fn every_node(rules: &dyn Rules, expression: &Expression, row: &Row) -> Vec<Worked> {
    let spans = spans(&expression.nodes).expect("the nodes make a tree");
    let mut worked: Vec<Worked> = Vec::with_capacity(spans.len());
    for (number, node) in expression.nodes.iter().enumerate() {
        let right = number.wrapping_sub(1);
        let value = match &node.kind {
            NodeKind::Column(column) => Ok(rules.column_value(column, row)),
            NodeKind::Literal(value) => Ok(value.clone()),
            NodeKind::Binary(operator) => {
                binary(rules, *operator, &worked[right - spans[right]], &worked[right], number)
            }
            unary => worked[right].clone().and_then(|value| at(number, one(rules, unary, &value))),
        };
        worked.push(value);
    }
    worked
}

fn at(node: usize, result: Result<Value, Cause>) -> Worked {
    result.map_err(|cause| Fault { node, cause })
}

fn one(rules: &dyn Rules, kind: &NodeKind, value: &Value) -> Result<Value, Cause> {
    Ok(match (kind, value) {
        (NodeKind::IsNull, value) => Value::Bool(*value == Value::Null),
        (NodeKind::IsNotNull, value) => Value::Bool(*value != Value::Null),
        (_, Value::Null) => Value::Null,
        (NodeKind::Positive, Value::Int(number)) => Value::Int(*number),
        (NodeKind::Negative, Value::Int(number)) => Value::Int(rules.negated(*number)?),
        (NodeKind::Not, Value::Bool(truth)) => Value::Bool(!truth),
        _ => panic!("what binds has a rule: {kind:?} of {value:?}"),
    })
}

/// "a fault in one is the whole's fault": the left one's first, though both have the same number.
fn binary(rules: &dyn Rules, operator: Operator, left: &Worked, right: &Worked, number: usize) -> Worked {
    let left = left.as_ref().map_err(|fault| *fault)?;
    if let Some(value) = rules.settled(operator, left) {
        return Ok(value);
    }
    let right = right.as_ref().map_err(|fault| *fault)?;
    at(number, two(rules, operator, left, right))
}

fn two(rules: &dyn Rules, operator: Operator, left: &Value, right: &Value) -> Result<Value, Cause> {
    let value = match (left, right) {
        (Value::Null, _) | (_, Value::Null) => rules.with_null(operator, left, right)?,
        (Value::Int(left), Value::Int(right)) if is_arithmetic(operator) => {
            Value::Int(rules.arithmetic(operator, *left, *right)?)
        }
        (Value::Int(left), Value::Int(right)) => Value::Bool(told_by(operator, left.cmp(right))),
        (Value::Text(left), Value::Text(right)) => Value::Bool(told_by(operator, rules.text_order(left, right))),
        (Value::Bool(left), Value::Bool(right)) => Value::Bool(of_truths(operator, *left, *right)),
        _ => panic!("what binds has a rule: {operator:?} of {left:?} and {right:?}"),
    };
    Ok(value)
}

fn is_arithmetic(operator: Operator) -> bool {
    operator <= Operator::Modulo
}

fn told_by(operator: Operator, order: Ordering) -> bool {
    match operator {
        Operator::Equal => order.is_eq(),
        Operator::NotEqual => order.is_ne(),
        Operator::Greater => order.is_gt(),
        Operator::GreaterOrEqual => order.is_ge(),
        Operator::Less => order.is_lt(),
        Operator::LessOrEqual => order.is_le(),
        _ => panic!("what binds has a rule: {operator:?} is no comparison"),
    }
}

fn of_truths(operator: Operator, left: bool, right: bool) -> bool {
    match operator {
        Operator::And => left && right,
        Operator::Or => left || right,
        Operator::Equal => left == right,
        Operator::NotEqual => left != right,
        _ => panic!("what binds has a rule: {operator:?} of two BOOL"),
    }
}

/// Whether SQL would say something else of an AND or an OR: FALSE AND NULL and TRUE OR NULL are settled there.
pub fn null_meets_and_or(expression: &Expression, worked: &[Worked]) -> bool {
    let spans = spans(&expression.nodes).expect("the nodes make a tree");
    expression.nodes.iter().enumerate().any(|(number, node)| {
        let NodeKind::Binary(operator @ (Operator::And | Operator::Or)) = node.kind else { return false };
        let settling = Value::Bool(operator == Operator::Or);
        let right = number - 1;
        let pair = [&worked[right - spans[right]], &worked[right]];
        let has = |value: &Value| pair.iter().any(|operand| operand.as_ref() == Ok(value));
        has(&Value::Null) && has(&settling)
    })
}

#[cfg(test)]
mod tests {
    use super::*;

    fn arithmetic(operator: Operator, left: i64, right: i64) -> Result<i64, Cause> {
        Paper.arithmetic(operator, left, right)
    }

    #[test]
    fn division_cuts_toward_zero_and_the_remainder_has_the_dividends_sign() {
        for (left, right, quotient, remainder) in [(7, 2, 3, 1), (-7, 2, -3, -1), (7, -2, -3, 1), (-7, -2, 3, -1)] {
            assert_eq!(arithmetic(Operator::Divide, left, right), Ok(quotient));
            assert_eq!(arithmetic(Operator::Modulo, left, right), Ok(remainder));
        }
    }

    #[test]
    fn the_ends_of_64_bits() {
        use Cause::{Overflow, ZeroDivisor};
        assert_eq!(arithmetic(Operator::Modulo, i64::MIN, -1), Ok(0));
        assert_eq!(arithmetic(Operator::Divide, i64::MIN, -1), Err(Overflow));
        assert_eq!(arithmetic(Operator::Divide, i64::MIN, 0), Err(ZeroDivisor));
        assert_eq!(arithmetic(Operator::Modulo, 0, 0), Err(ZeroDivisor));
        assert_eq!(arithmetic(Operator::Add, i64::MAX, 1), Err(Overflow));
        assert_eq!(arithmetic(Operator::Add, i64::MAX, i64::MIN), Ok(-1));
        assert_eq!(arithmetic(Operator::Subtract, i64::MIN, 1), Err(Overflow));
        assert_eq!(arithmetic(Operator::Subtract, -1, i64::MIN), Ok(i64::MAX));
        assert_eq!(arithmetic(Operator::Subtract, 0, i64::MIN), Err(Overflow));
        assert_eq!(arithmetic(Operator::Multiply, i64::MIN, -1), Err(Overflow));
        assert_eq!(arithmetic(Operator::Multiply, 1 << 32, -(1 << 31)), Ok(i64::MIN));
        assert_eq!(Paper.negated(i64::MIN), Err(Overflow));
        assert_eq!(Paper.negated(i64::MAX), Ok(-i64::MAX));
    }

    #[test]
    fn text_compares_by_bytes() {
        assert_eq!(Paper.text_order("", "a"), Ordering::Less);
        assert_eq!(Paper.text_order("ab", "a"), Ordering::Greater);
        assert_eq!(Paper.text_order("Z", "a"), Ordering::Less);
        assert_eq!(Paper.text_order("é", "z"), Ordering::Greater);
        assert_eq!(Paper.text_order("\u{ffff}", "𝕏"), Ordering::Less);
        assert_eq!(Paper.text_order("a\u{0}", "a"), Ordering::Greater);
        assert_eq!(Paper.text_order("é", "é"), Ordering::Equal);
    }

    #[test]
    fn a_fault_is_the_wholes_and_null_is_not_settled() {
        let fault: Worked = Err(Fault { node: 3, cause: Cause::ZeroDivisor });
        let (no, yes, null) = (Ok(Value::Bool(false)), Ok(Value::Bool(true)), Ok(Value::Null));
        assert_eq!(binary(&Paper, Operator::And, &no, &fault, 4), fault);
        assert_eq!(binary(&Paper, Operator::Or, &fault, &yes, 4), fault);
        assert_eq!(binary(&Paper, Operator::And, &null, &fault, 4), fault);
        assert_eq!(binary(&Paper, Operator::And, &no, &null, 4), null);
        assert_eq!(binary(&Paper, Operator::Or, &null, &yes, 4), null);
        assert_eq!(binary(&Paper, Operator::Modulo, &null, &Ok(Value::Int(0)), 4), null);
        assert_eq!(one(&Paper, &NodeKind::IsNull, &Value::Null), Ok(Value::Bool(true)));
        assert_eq!(one(&Paper, &NodeKind::IsNotNull, &Value::Int(0)), Ok(Value::Bool(true)));
        assert_eq!(one(&Paper, &NodeKind::Not, &Value::Null), null.map_err(|fault: Fault| fault.cause));
    }
}
