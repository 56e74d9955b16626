//! Other sides with one mistake each, to see that the comparison catches it. Each answers as the Rust does, but for the
//! one thing that its name says.

use images::bound::{Bound, Expression as BoundExpression, NodeKind};
use images::statement::{ColumnDefinition, DataType, DeleteFrom, Expression, Name, Node, OptionKind, Statement, Tree};
use images::value::Operator;
use images::{bound, catalogue, statement};

use super::other_side::{OtherSide, Reply};
use crate::decode::Choice;
use crate::judge::{Answer, judge, judge_with};

/// A mistaken binder: from statement, catalogue and room to an answer.
type Binder = fn(&[u8], &[u8], usize) -> Answer;

pub const MISTAKES: &[(&str, Binder)] = &[
    ("where-before-table", where_before_table),
    ("assignments-after-table", assignments_after_table),
    ("type-before-second-key", type_before_second_key),
    ("right-operand-first", right_operand_first),
    ("quoted-names-folded", |s, c, room| rename(s, c, room, |name| name.quoted = false)),
    ("names-not-folded", |s, c, room| rename(s, c, room, |name| name.quoted = true)),
    ("repeat-by-spelling", repeat_by_spelling),
    ("null-comparison-is-1", |s, c, room| reclass(s, c, room, "instead of comparing with NULL", 1)),
    ("repeated-column-is-1", |s, c, room| reclass(s, c, room, "duplicate INSERT column", 1)),
    ("empty-update-is-3", |s, c, room| reclass(s, c, room, "at least one assignment", 3)),
    ("minus-on-minimum-refused", minus_on_minimum_refused),
    ("false-and-never-null", false_and_never_null),
    ("id-as-position", id_as_position),
    ("names-up-to-129", |s, c, room| past_limit(s, c, room, "129 bytes, and 128")),
    ("depth-up-to-65", |s, c, room| past_limit(s, c, room, "65 levels, and 64")),
    ("catalogue-before-statement", catalogue_before_statement),
    ("letters-after-binding", letters_after_binding),
    ("room-must-be-larger", room_must_be_larger),
    ("ascii-trim", ascii_trim),
    ("any-number-of-semicolons", any_number_of_semicolons),
];

/// A mistaken binder as a side to compare with.
pub struct Mistaken {
    binder: Binder,
    /// Writes to the output also where it refuses.
    scribbles: bool,
}

/// The mistake that is about the output and not about the answer.
const SCRIBBLE: &str = "writes-on-refusal";

pub fn names() -> Vec<&'static str> {
    MISTAKES.iter().map(|(name, _)| *name).chain([SCRIBBLE]).collect()
}

pub fn mistaken(name: &str) -> Option<Mistaken> {
    if name == SCRIBBLE {
        return Some(Mistaken { binder: judge, scribbles: true });
    }
    let (_, binder) = MISTAKES.iter().find(|(known, _)| *known == name)?;
    Some(Mistaken { binder: *binder, scribbles: false })
}

impl OtherSide for Mistaken {
    fn bind(&mut self, statement: &[u8], catalogue: &[u8], out: &mut [u8]) -> Reply {
        match (self.binder)(statement, catalogue, out.len()) {
            Answer::Bound(image) => {
                out[..image.len()].copy_from_slice(&image);
                Reply { number: 0, length: image.len() }
            }
            Answer::Refused(number) => {
                if self.scribbles
                    && let Some(first) = out.first_mut()
                {
                    *first = 0;
                }
                Reply { number, length: 0 }
            }
        }
    }
}

/// The statement, where 5 to 8 do not come first.
fn past_the_gate(s: &[u8], c: &[u8], room: usize) -> Option<Statement> {
    if (5..=8).contains(&judge(s, c, room).number()) { None } else { statement::decode(s).ok() }
}

fn judge_value(value: &Statement, c: &[u8], room: usize) -> Answer {
    judge(&value.encode().unwrap_or_default(), c, room)
}

fn where_before_table(s: &[u8], c: &[u8], room: usize) -> Answer {
    match past_the_gate(s, c, room).map(|value| value.tree) {
        Some(Tree::Update(update)) if update.condition.is_none() && !update.assignments.is_empty() => {
            Answer::Refused(3)
        }
        _ => judge(s, c, room),
    }
}

fn assignments_after_table(s: &[u8], c: &[u8], room: usize) -> Answer {
    let Some(value) = past_the_gate(s, c, room) else { return judge(s, c, room) };
    let Tree::Update(update) = &value.tree else { return judge(s, c, room) };
    if judge(s, c, room) != Answer::Refused(4) {
        return judge(s, c, room);
    }
    // A DELETE of the same table looks for the table alone.
    let delete = images::statement::Delete {
        tables: false,
        using: false,
        returning: false,
        order_by: false,
        limit: false,
        from: DeleteFrom::Table(update.table.clone()),
        condition: Some(Expression::leaf(Node::True)),
    };
    match judge_value(&Statement { raw: String::new(), tree: Tree::Delete(delete) }, c, usize::MAX) {
        Answer::Bound(_) => Answer::Refused(4),
        refused => refused,
    }
}

/// Why the Rust refuses, in its own words.
fn reason(s: &[u8], c: &[u8], room: usize) -> String {
    judge_with(s, c, room, &mut Choice::new(0)).reason
}

fn type_before_second_key(s: &[u8], c: &[u8], room: usize) -> Answer {
    let Some(Tree::CreateTable(create)) = past_the_gate(s, c, room).map(|value| value.tree) else {
        return judge(s, c, room);
    };
    let is_key = |column: &&ColumnDefinition| column.options.iter().any(|option| option.kind == OptionKind::Key);
    let second = create.columns.iter().filter(is_key).nth(1);
    let other_type = second.is_some_and(|column| column.data_type == DataType::Other);
    if other_type { reclass(s, c, room, "more than one primary key", 3) } else { judge(s, c, room) }
}

fn reclass(s: &[u8], c: &[u8], room: usize, words: &str, number: u8) -> Answer {
    if reason(s, c, room).contains(words) { Answer::Refused(number) } else { judge(s, c, room) }
}

fn past_limit(s: &[u8], c: &[u8], room: usize, words: &str) -> Answer {
    reclass(s, c, room, words, 3)
}

/// Refuses as the Rust would if it looked at right operands before left ones.
fn right_operand_first(s: &[u8], c: &[u8], room: usize) -> Answer {
    let Some(mut value) = past_the_gate(s, c, room) else { return judge(s, c, room) };
    each_expression(&mut value.tree, &mut |expression| *expression = mirrored(expression));
    let refused = judge_value(&value, c, usize::MAX);
    match (judge(s, c, room), refused) {
        (Answer::Refused(_), Answer::Refused(number)) => Answer::Refused(number),
        (answer, _) => answer,
    }
}

fn mirrored(expression: &Expression) -> Expression {
    let mut waiting: Vec<Expression> = Vec::new();
    for node in &expression.nodes {
        let made = match images::run::RunNode::operands(node) {
            0 => Expression::leaf(node.clone()),
            1 => Expression::unary(node.clone(), waiting.pop().expect("an operand")),
            _ => {
                let right = waiting.pop().expect("a right operand");
                let left = waiting.pop().expect("a left operand");
                Expression::binary(node.clone(), right, left)
            }
        };
        waiting.push(made);
    }
    waiting.pop().expect("a root")
}

fn each_expression(tree: &mut Tree, change: &mut dyn FnMut(&mut Expression)) {
    match tree {
        Tree::Query(query) => {
            query.select.iter_mut().filter_map(|select| select.condition.as_mut()).for_each(change);
        }
        Tree::Update(update) => {
            update.assignments.iter_mut().for_each(|assignment| change(&mut assignment.value));
            update.condition.iter_mut().for_each(change);
        }
        Tree::Delete(delete) => delete.condition.iter_mut().for_each(change),
        _ => {}
    }
}

/// Binds with every ASCII name of the expressions changed.
fn rename(s: &[u8], c: &[u8], room: usize, change: fn(&mut Name)) -> Answer {
    let Some(mut value) = past_the_gate(s, c, room) else { return judge(s, c, room) };
    each_expression(&mut value.tree, &mut |expression| {
        for node in &mut expression.nodes {
            if let Node::Name(name) = node
                && name.text.is_ascii()
            {
                change(name);
            }
        }
    });
    judge_value(&value, c, room)
}

/// Takes two targets for the same only where they are spelled the same.
fn repeat_by_spelling(s: &[u8], c: &[u8], room: usize) -> Answer {
    match past_the_gate(s, c, room).map(|value| value.tree) {
        Some(Tree::Update(update)) if reason(s, c, room).contains("duplicate UPDATE assignment") => {
            let targets: Vec<_> = update.assignments.iter().map(|assignment| &assignment.target).collect();
            let repeated = (1..targets.len()).any(|place| targets[..place].contains(&targets[place]));
            Answer::Refused(if repeated { 2 } else { 1 })
        }
        _ => judge(s, c, room),
    }
}

fn minus_on_minimum_refused(s: &[u8], c: &[u8], room: usize) -> Answer {
    let Some(mut value) = past_the_gate(s, c, room) else { return judge(s, c, room) };
    let mut found = false;
    each_expression(&mut value.tree, &mut |expression| {
        found |= expression.nodes.contains(&Node::Number("9223372036854775808".to_string()));
    });
    if found && judge(s, c, room).number() == 0 { Answer::Refused(1) } else { judge(s, c, room) }
}

/// Answers with the bound statement changed, where there is one.
fn rebound(s: &[u8], c: &[u8], room: usize, change: impl FnOnce(&mut Bound)) -> Answer {
    let Answer::Bound(image) = judge(s, c, room) else { return judge(s, c, room) };
    let Ok(mut value) = bound::decode(&image) else { return Answer::Bound(image) };
    change(&mut value);
    Answer::Bound(value.encode().unwrap_or(image))
}

fn false_and_never_null(s: &[u8], c: &[u8], room: usize) -> Answer {
    fn sharpen(expression: &mut BoundExpression) {
        for node in &mut expression.nodes {
            if node.kind == NodeKind::Binary(Operator::And) {
                node.nullable = false;
            }
        }
    }
    rebound(s, c, room, |value| match value {
        Bound::Select { filter, .. } => filter.iter_mut().for_each(sharpen),
        Bound::Update { filter, .. } | Bound::Delete { filter, .. } => sharpen(filter),
        _ => {}
    })
}

fn id_as_position(s: &[u8], c: &[u8], room: usize) -> Answer {
    rebound(s, c, room, |value| {
        if let Bound::Select { projection, .. } = value {
            projection.iter_mut().for_each(|column| column.ordinal = column.column_id);
        }
    })
}

fn catalogue_before_statement(s: &[u8], c: &[u8], room: usize) -> Answer {
    if catalogue::decode(c).is_err() { Answer::Refused(6) } else { judge(s, c, room) }
}

/// Gives 8 only where the Rust would bind.
fn letters_after_binding(s: &[u8], c: &[u8], room: usize) -> Answer {
    if judge(s, c, room) != Answer::Refused(8) {
        return judge(s, c, room);
    }
    let Ok(mut value) = statement::decode(s) else { return Answer::Refused(8) };
    let mut renamed = 0;
    each_expression(&mut value.tree, &mut |expression| {
        for node in &mut expression.nodes {
            if let Node::Name(name) = node
                && !name.text.is_ascii()
            {
                name.quoted = true;
                renamed += 1;
            }
        }
    });
    match judge_value(&value, c, usize::MAX) {
        Answer::Refused(number @ 1..=4) if renamed > 0 => Answer::Refused(number),
        _ => Answer::Refused(8),
    }
}

fn room_must_be_larger(s: &[u8], c: &[u8], room: usize) -> Answer {
    match judge(s, c, room) {
        Answer::Bound(image) if image.len() == room => Answer::Refused(9),
        answer => answer,
    }
}

/// Whether a raw text is SHOW TRANSACTIONS by another way of trimming.
fn with_trim(s: &[u8], c: &[u8], room: usize, trim: fn(&str) -> &str) -> Answer {
    let Some(mut value) = past_the_gate(s, c, room) else { return judge(s, c, room) };
    let trimmed = trim(&value.raw).eq_ignore_ascii_case("SHOW TRANSACTIONS");
    value.raw = if trimmed { "SHOW TRANSACTIONS".to_string() } else { String::new() };
    judge_value(&value, c, room)
}

fn ascii_trim(s: &[u8], c: &[u8], room: usize) -> Answer {
    with_trim(s, c, room, |raw| {
        let raw = raw.trim_ascii();
        raw.strip_suffix(';').unwrap_or(raw).trim_ascii()
    })
}

fn any_number_of_semicolons(s: &[u8], c: &[u8], room: usize) -> Answer {
    with_trim(s, c, room, |raw| raw.trim().trim_end_matches(';').trim())
}
