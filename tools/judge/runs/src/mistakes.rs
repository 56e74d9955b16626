//! Runners with one mistake each, to see that the comparison catches it. Each answers as the judge does, but for the one
//! thing that its name says.

use std::cmp::Ordering;

use images::bound::ColumnRef;
use images::row::{self, Row};
use images::value::{Operator, Value};

use crate::evaluate::{Cause, Paper, Rules, evaluate};
use crate::generate::Case;
use crate::judge_run::{Answer, Update, bound_update, fitted, judge_run_by, ran};
use crate::other_side::{OtherSide, Reply};

enum Kind {
    /// Other value rules.
    Rules(&'static dyn Rules),
    /// Another order, or another answer.
    Answer(fn(&Case) -> Answer),
    /// Writes where nothing belongs: given the answer's number, its length and the output.
    Scribble(fn(u8, usize, &mut [u8])),
    /// Another length than what was written.
    Length,
}

const MISTAKES: &[(&str, Kind)] = &[
    ("and-skips-its-right-side", Kind::Rules(&AndSkips)),
    ("or-skips-its-right-side", Kind::Rules(&OrSkips)),
    ("and-or-as-in-sql", Kind::Rules(&AndOrAsInSql)),
    ("division-by-floor", Kind::Rules(&DivisionByFloor)),
    ("remainder-by-floor", Kind::Rules(&RemainderByFloor)),
    ("remainder-of-least-faults", Kind::Rules(&RemainderOfLeastFaults)),
    ("zero-divisor-is-null", Kind::Answer(zero_divisor_is_null)),
    ("arithmetic-wraps", Kind::Rules(&Wraps)),
    ("negation-wraps", Kind::Rules(&NegationWraps)),
    ("null-divided-by-zero-faults", Kind::Rules(&ZeroFirst)),
    ("proper-prefix-last", Kind::Rules(&PrefixLast)),
    ("text-by-signed-bytes", Kind::Rules(&SignedBytes)),
    ("text-by-length", Kind::Rules(&ByLength)),
    ("id-as-position", Kind::Rules(&IdAsPosition)),
    ("changed-value-is-read", Kind::Rules(&ChangedValueIsRead)),
    ("where-null-holds", Kind::Rules(&NullHolds)),
    ("old-row-handed-back", Kind::Answer(old_row)),
    ("first-assignment-only", Kind::Answer(first_assignment_only)),
    ("values-before-where", Kind::Answer(values_before_where)),
    ("faults-where-not-true", Kind::Answer(faults_where_not_true)),
    ("fault-before-the-rows-test", Kind::Answer(fault_before_row)),
    ("row-before-12", Kind::Answer(row_before_12)),
    ("room-before-fault", Kind::Answer(room_before_fault)),
    ("room-for-the-old-row", Kind::Answer(room_for_the_old_row)),
    ("room-must-be-larger", Kind::Answer(room_must_be_larger)),
    ("any-row", Kind::Answer(any_row)),
    ("writes-on-refusal", Kind::Scribble(writes_on_refusal)),
    ("writes-past-the-length", Kind::Scribble(writes_past_the_length)),
    ("length-of-the-room", Kind::Length),
];

pub fn names() -> Vec<&'static str> {
    MISTAKES.iter().map(|(name, _)| *name).collect()
}

/// The mistakes that are about the value rules alone.
pub fn mistaken_rules() -> Vec<(&'static str, &'static dyn Rules)> {
    let rules = |(name, kind): &'static (&'static str, Kind)| match kind {
        Kind::Rules(rules) => Some((*name, *rules)),
        _ => None,
    };
    MISTAKES.iter().filter_map(rules).collect()
}

/// A runner with the mistake of that name.
pub struct Mistaken(&'static Kind);

pub fn mistaken(name: &str) -> Option<Mistaken> {
    MISTAKES.iter().find(|(known, _)| *known == name).map(|(_, kind)| Mistaken(kind))
}

impl OtherSide for Mistaken {
    fn run(&mut self, case: &Case, out: &mut [u8]) -> Reply {
        let answer = match self.0 {
            Kind::Rules(rules) => by(*rules, case),
            Kind::Answer(answer) => answer(case),
            Kind::Scribble(_) | Kind::Length => by(&Paper, case),
        };
        let length = answer.bytes().len();
        out[..length].copy_from_slice(answer.bytes());
        let number = answer.number();
        match self.0 {
            Kind::Scribble(scribble) => scribble(number, length, out),
            Kind::Length if number == 0 => return Reply { number, length: out.len() },
            _ => {}
        }
        Reply { number, length }
    }
}

fn by(rules: &dyn Rules, case: &Case) -> Answer {
    judge_run_by(rules, &case.statement, &case.catalogue, &case.row, case.room)
}

fn right(case: &Case) -> Answer {
    by(&Paper, case)
}

// ---- other value rules

struct AndSkips;

impl Rules for AndSkips {
    fn settled(&self, operator: Operator, left: &Value) -> Option<Value> {
        (operator == Operator::And && *left == Value::Bool(false)).then(|| left.clone())
    }
}

struct OrSkips;

impl Rules for OrSkips {
    fn settled(&self, operator: Operator, left: &Value) -> Option<Value> {
        (operator == Operator::Or && *left == Value::Bool(true)).then(|| left.clone())
    }
}

struct AndOrAsInSql;

impl Rules for AndOrAsInSql {
    fn with_null(&self, operator: Operator, left: &Value, right: &Value) -> Result<Value, Cause> {
        let settling = match operator {
            Operator::And => Value::Bool(false),
            Operator::Or => Value::Bool(true),
            _ => return Ok(Value::Null),
        };
        Ok(if *left == settling || *right == settling { settling } else { Value::Null })
    }
}

/// A division tests its divisor before it looks for NULL.
struct ZeroFirst;

impl Rules for ZeroFirst {
    fn with_null(&self, operator: Operator, _left: &Value, right: &Value) -> Result<Value, Cause> {
        let divides = matches!(operator, Operator::Divide | Operator::Modulo);
        if divides && *right == Value::Int(0) { Err(Cause::ZeroDivisor) } else { Ok(Value::Null) }
    }
}

struct DivisionByFloor;

impl Rules for DivisionByFloor {
    fn arithmetic(&self, operator: Operator, left: i64, right: i64) -> Result<i64, Cause> {
        let exact = Paper.arithmetic(operator, left, right)?;
        let below = operator == Operator::Divide && left % right != 0 && (left < 0) != (right < 0);
        Ok(if below { exact - 1 } else { exact })
    }
}

struct RemainderByFloor;

impl Rules for RemainderByFloor {
    fn arithmetic(&self, operator: Operator, left: i64, right: i64) -> Result<i64, Cause> {
        let exact = Paper.arithmetic(operator, left, right)?;
        let other_sign = operator == Operator::Modulo && exact != 0 && (exact < 0) != (right < 0);
        Ok(if other_sign { exact + right } else { exact })
    }
}

struct RemainderOfLeastFaults;

impl Rules for RemainderOfLeastFaults {
    fn arithmetic(&self, operator: Operator, left: i64, right: i64) -> Result<i64, Cause> {
        if operator == Operator::Modulo && left == i64::MIN && right == -1 {
            return Err(Cause::Overflow);
        }
        Paper.arithmetic(operator, left, right)
    }
}

struct Wraps;

impl Rules for Wraps {
    fn arithmetic(&self, operator: Operator, left: i64, right: i64) -> Result<i64, Cause> {
        match operator {
            Operator::Add => Ok(left.wrapping_add(right)),
            Operator::Subtract => Ok(left.wrapping_sub(right)),
            Operator::Multiply => Ok(left.wrapping_mul(right)),
            _ => Paper.arithmetic(operator, left, right),
        }
    }
}

struct NegationWraps;

impl Rules for NegationWraps {
    fn negated(&self, number: i64) -> Result<i64, Cause> {
        Ok(number.wrapping_neg())
    }
}

struct PrefixLast;

impl Rules for PrefixLast {
    fn text_order(&self, left: &str, right: &str) -> Ordering {
        let order = Paper.text_order(left, right);
        if left.starts_with(right) || right.starts_with(left) { order.reverse() } else { order }
    }
}

struct SignedBytes;

impl Rules for SignedBytes {
    fn text_order(&self, left: &str, right: &str) -> Ordering {
        left.bytes().map(|byte| byte as i8).cmp(right.bytes().map(|byte| byte as i8))
    }
}

struct ByLength;

impl Rules for ByLength {
    fn text_order(&self, left: &str, right: &str) -> Ordering {
        left.len().cmp(&right.len()).then_with(|| Paper.text_order(left, right))
    }
}

struct IdAsPosition;

impl Rules for IdAsPosition {
    /// Where the id is no position of a value of this type, the right one is taken.
    fn column_value(&self, column: &ColumnRef, row: &Row) -> Value {
        let at_id = usize::try_from(column.column_id).ok().and_then(|id| row.values.get(id));
        match at_id {
            Some(value) if value.fits(column.data_type, true) => value.clone(),
            _ => Paper.column_value(column, row),
        }
    }
}

struct ChangedValueIsRead;

impl Rules for ChangedValueIsRead {
    fn read_row<'a>(&self, _old: &'a Row, new: &'a Row) -> &'a Row {
        new
    }
}

struct NullHolds;

impl Rules for NullHolds {
    fn holds(&self, condition: &Value) -> bool {
        *condition != Value::Bool(false)
    }
}

// ---- other orders and answers

fn answered(result: Result<Vec<u8>, u8>) -> Answer {
    result.map_or_else(Answer::Refused, Answer::Row)
}

/// The UPDATE and the row, where nothing before a fault is refused.
fn asked(case: &Case) -> Result<(Update, Row), u8> {
    let update = bound_update(&case.statement, &case.catalogue)?;
    let row = row::decode_of(&case.row, &update.table).map_err(|_| 10)?;
    Ok((update, row))
}

/// NULL for the value whose root divides by zero, where SQL has it too.
fn zero_divisor_is_null(case: &Case) -> Answer {
    let Ok((update, old)) = asked(case) else { return right(case) };
    if !evaluate(&Paper, &update.condition, &old).is_ok_and(|value| Paper.holds(&value)) {
        return right(case);
    }
    let mut new = old.clone();
    for assignment in &update.assignments {
        let value = match evaluate(&Paper, &assignment.value, &old) {
            Err(fault) if fault.cause == Cause::ZeroDivisor => Value::Null,
            Err(_) => return right(case),
            Ok(value) => value,
        };
        new.values[assignment.column.ordinal as usize] = value;
    }
    answered(fitted(&new, case.room))
}

fn old_row(case: &Case) -> Answer {
    match asked(case) {
        Ok((update, old)) if ran(&Paper, &update, &old).is_ok() => answered(fitted(&old, case.room)),
        _ => right(case),
    }
}

fn first_assignment_only(case: &Case) -> Answer {
    let Ok((mut update, old)) = asked(case) else { return right(case) };
    update.assignments.truncate(1);
    match ran(&Paper, &update, &old) {
        Ok(new) => answered(fitted(&new, case.room)),
        Err(_) => Answer::Refused(11),
    }
}

/// The condition is taken from the row after.
fn values_before_where(case: &Case) -> Answer {
    let Ok((mut update, old)) = asked(case) else { return right(case) };
    let condition = update.condition.clone();
    update.condition.nodes = vec![images::bound::Node {
        kind: images::bound::NodeKind::Literal(Value::Bool(true)),
        data_type: images::value::ExpressionType::Bool,
        nullable: false,
    }];
    let Ok(new) = ran(&Paper, &update, &old) else { return right(case) };
    match evaluate(&Paper, &condition, &new) {
        Ok(value) => answered(fitted(if Paper.holds(&value) { &new } else { &old }, case.room)),
        Err(_) => Answer::Refused(11),
    }
}

fn faults_where_not_true(case: &Case) -> Answer {
    match asked(case) {
        Ok((update, old)) if update.assignments.iter().any(|change| evaluate(&Paper, &change.value, &old).is_err()) => {
            Answer::Refused(11)
        }
        _ => right(case),
    }
}

/// Works the UPDATE out before it asks whether the row obeys, as far as that can be done without a panic.
fn fault_before_row(case: &Case) -> Answer {
    let Ok(update) = bound_update(&case.statement, &case.catalogue) else { return right(case) };
    let Ok(row) = row::decode(&case.row) else { return right(case) };
    let columns = &update.table.columns;
    let typed = columns.len() == row.values.len()
        && columns.iter().zip(&row.values).all(|(column, value)| value.fits(column.data_type, true));
    if typed && ran(&Paper, &update, &row).is_err() { Answer::Refused(11) } else { right(case) }
}

fn row_before_12(case: &Case) -> Answer {
    match right(case) {
        Answer::Refused(12) if row::decode(&case.row).is_err() => Answer::Refused(10),
        answer => answer,
    }
}

fn room_before_fault(case: &Case) -> Answer {
    match right(case) {
        Answer::Refused(11) if case.room < case.row.len() => Answer::Refused(9),
        answer => answer,
    }
}

fn room_for_the_old_row(case: &Case) -> Answer {
    match right(case) {
        Answer::Row(_) if case.room < case.row.len() => Answer::Refused(9),
        answer => answer,
    }
}

fn room_must_be_larger(case: &Case) -> Answer {
    match right(case) {
        Answer::Row(image) if image.len() == case.room => Answer::Refused(9),
        answer => answer,
    }
}

/// Takes any row of the right types, also with NULL where the column has none.
fn any_row(case: &Case) -> Answer {
    let Ok(mut update) = bound_update(&case.statement, &case.catalogue) else { return right(case) };
    update.table.columns.iter_mut().for_each(|column| column.nullable = true);
    match row::decode_of(&case.row, &update.table) {
        Ok(old) => match ran(&Paper, &update, &old) {
            Ok(new) => answered(fitted(&new, case.room)),
            Err(_) => Answer::Refused(11),
        },
        Err(_) => Answer::Refused(10),
    }
}

// ---- the output

fn writes_on_refusal(number: u8, _: usize, out: &mut [u8]) {
    if number != 0 {
        out.iter_mut().take(1).for_each(|byte| *byte = !*byte);
    }
}

fn writes_past_the_length(number: u8, length: usize, out: &mut [u8]) {
    if number == 0 {
        out.iter_mut().skip(length).take(1).for_each(|byte| *byte = !*byte);
    }
}
