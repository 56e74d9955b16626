//! Expressions and UPDATEs as SQLite reads them, from the statement's own tree: names and numbers are taken as they are
//! written, not as they were bound. The columns of the one-row table are `c0`, `c1`, .. by position, because SQLite
//! takes names that differ in case alone for the same.

use images::catalogue::Table;
use images::run::RunNode;
use images::statement::{Assignment, Name, Node, ObjectName, Target, Update};
use images::value::Operator;

/// How AND and OR are written.
#[derive(Debug, Clone, Copy, PartialEq, Eq)]
pub enum Form {
    /// As in SQL, where FALSE AND NULL is FALSE and TRUE OR NULL is TRUE.
    Plain,
    /// So that NULL in either gives NULL: over 0 and 1, `*` and the bitwise `|` do that.
    Strict,
}

/// The nodes make one tree, and every name is a column of the table.
pub fn expression(nodes: &[Node], table: &Table, form: Form) -> String {
    let mut waiting: Vec<String> = Vec::new();
    for node in nodes {
        let mut operand = || waiting.pop().expect("the nodes make a tree");
        let text = match node.operands() {
            0 => leaf(node, table),
            1 => unary(node, &operand()),
            _ => {
                let right = operand();
                binary(node, form, &operand(), &right)
            }
        };
        waiting.push(text);
    }
    waiting.pop().expect("the nodes make a tree")
}

fn leaf(node: &Node, table: &Table) -> String {
    match node {
        Node::Name(name) => column(name, table),
        Node::Number(text) => format!("({text})"),
        Node::Text(text) => string(text),
        Node::True => "TRUE".to_string(),
        Node::False => "FALSE".to_string(),
        Node::Null => "NULL".to_string(),
        _ => panic!("{node:?} does not bind"),
    }
}

fn unary(node: &Node, operand: &str) -> String {
    match node {
        Node::Parentheses => format!("({operand})"),
        Node::IsNull => format!("({operand} IS NULL)"),
        Node::IsNotNull => format!("({operand} IS NOT NULL)"),
        Node::Plus => format!("(+ {operand})"),
        Node::Minus => format!("(- {operand})"),
        Node::Not => format!("(NOT {operand})"),
        _ => panic!("{node:?} does not bind"),
    }
}

fn binary(node: &Node, form: Form, left: &str, right: &str) -> String {
    let Node::Binary(operator) = node else { panic!("{node:?} does not bind") };
    let sign = match (form, operator) {
        (Form::Strict, Operator::And) => "*",
        (Form::Strict, Operator::Or) => "|",
        _ => operator.sign(),
    };
    format!("({left} {sign} {right})")
}

/// A statement's text ends at a NUL, so that a string with one is written in hex.
fn string(text: &str) -> String {
    if !text.contains('\0') {
        return format!("'{}'", text.replace('\'', "''"));
    }
    let digits: String = text.bytes().map(|byte| format!("{byte:02x}")).collect();
    format!("CAST(x'{digits}' AS TEXT)")
}

/// The position of the column that a name stands for.
pub fn position(name: &Name, table: &Table) -> Option<usize> {
    let folded = if name.quoted { name.text.clone() } else { name.text.to_ascii_lowercase() };
    table.columns.iter().position(|column| column.name == folded)
}

fn column(name: &Name, table: &Table) -> String {
    format!("c{}", position(name, table).expect("the name binds"))
}

pub fn update(update: &Update, table: &Table, form: Form) -> String {
    let changes: Vec<String> = update.assignments.iter().map(|change| assignment(change, table, form)).collect();
    let condition = update.condition.as_ref().expect("an UPDATE without WHERE does not bind");
    format!("UPDATE t SET {} WHERE {}", changes.join(", "), expression(&condition.nodes, table, form))
}

fn assignment(change: &Assignment, table: &Table, form: Form) -> String {
    let Target::Column(ObjectName::One(name)) = &change.target else { panic!("{:?} does not bind", change.target) };
    format!("{} = {}", column(name, table), expression(&change.value.nodes, table, form))
}

/// For each node of the bound expression the node of the statement's: binding leaves parentheses out, and a sign
/// directly on a number is one literal with it.
pub fn places(nodes: &[Node]) -> Vec<usize> {
    let signed = |number: usize| {
        matches!(nodes[number], Node::Number(_)) && matches!(nodes.get(number + 1), Some(Node::Plus | Node::Minus))
    };
    (0..nodes.len()).filter(|number| nodes[*number] != Node::Parentheses && !signed(*number)).collect()
}

#[cfg(test)]
mod tests {
    use super::*;
    use images::text;

    fn written(sql: &str, form: Form) -> String {
        let tables =
            "table t id 1 version 1 tablets 1\n column a id 5 INT not null\n column b id 1 BOOL null\n key a\n";
        let catalogue = text::catalogue::catalogue(tables).expect("a catalogue");
        let statement = text::sql::statement(&format!("UPDATE t SET b = {sql} WHERE B")).expect("an UPDATE");
        let images::statement::Tree::Update(tree) = statement.tree else { panic!("an UPDATE") };
        update(&tree, &catalogue.tables[0], form)
    }

    #[test]
    fn every_node_has_its_own_parentheses_and_names_are_positions() {
        let plain = written("NOT A + 1 > - 2 AND b OR 'it''s' <> ''", Form::Plain);
        assert_eq!(plain, "UPDATE t SET c1 = (((NOT ((c0 + (1)) > (- (2)))) AND c1) OR ('it''s' <> '')) WHERE c1");
        assert_eq!(
            written("b AND TRUE OR b IS NULL", Form::Strict),
            "UPDATE t SET c1 = ((c1 * TRUE) | (c1 IS NULL)) WHERE c1"
        );
    }

    #[test]
    fn a_string_with_a_nul_is_written_in_hex() {
        assert_eq!(string("a\0é"), "CAST(x'6100c3a9' AS TEXT)");
    }

    #[test]
    fn the_nodes_that_binding_keeps() {
        let number = Node::Number("1".to_string());
        let nodes =
            [number.clone(), Node::Minus, Node::Parentheses, Node::Minus, number, Node::Parentheses, Node::Plus];
        assert_eq!(places(&nodes), [1, 3, 4, 6]);
    }
}
