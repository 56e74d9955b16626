//! A statement as SQL text that reads back to the same tree.

use super::expression::{is_reserved, node_strength};
use crate::statement::{
    Assignment, ColumnDefinition, ColumnOption, Constraint, CreateTable, DataType, Delete, DeleteFrom, Expression,
    Insert, Item, Name, Node, ObjectName, OptionKind, Query, Select, Table, Target, Tree, Update,
};
use crate::value::Value;

pub fn tree_to_sql(tree: &Tree) -> String {
    match tree {
        Tree::CreateTable(create) => create_to_sql(create),
        Tree::Insert(insert) => insert_to_sql(insert),
        Tree::Query(query) => query_to_sql(query),
        Tree::Update(update) => update_to_sql(update),
        Tree::Delete(delete) => delete_to_sql(delete),
        Tree::Begin { modes } => words(&["BEGIN", when(*modes, "IMMEDIATE")]),
        Tree::Commit { chain } => words(&["COMMIT", when(*chain, "AND CHAIN")]),
        Tree::Rollback { chain, savepoint } => {
            words(&["ROLLBACK", when(*chain, "AND CHAIN"), when(*savepoint, "TO SAVEPOINT s")])
        }
        Tree::ShowTables { options } => words(&["SHOW", when(*options, "FULL"), "TABLES"]),
        Tree::Other => "EXPLAIN SELECT".to_string(),
    }
}

fn when(yes: bool, text: &str) -> &str {
    if yes { text } else { "" }
}

/// The parts that are not empty, with spaces between.
fn words(parts: &[&str]) -> String {
    parts.iter().filter(|part| !part.is_empty()).copied().collect::<Vec<_>>().join(" ")
}

fn commas<T>(entries: &[T], print: impl Fn(&T) -> String) -> String {
    entries.iter().map(print).collect::<Vec<_>>().join(", ")
}

pub fn name_to_sql(name: &Name) -> String {
    let doubled = name.text.replace('"', "\"\"");
    if name.quoted {
        return format!("\"{doubled}\"");
    }
    if is_plain_word(&name.text) { name.text.clone() } else { format!("unquoted\"{doubled}\"") }
}

fn is_plain_word(text: &str) -> bool {
    text.starts_with(|letter: char| letter.is_ascii_alphabetic() || letter == '_')
        && text.chars().all(|letter| letter.is_ascii_alphanumeric() || letter == '_')
        && !is_reserved(text)
}

fn object_name_to_sql(name: &ObjectName) -> String {
    match name {
        ObjectName::Other => "two.parts".to_string(),
        ObjectName::One(name) => name_to_sql(name),
    }
}

fn create_to_sql(create: &CreateTable) -> String {
    let mut elements: Vec<String> = create.columns.iter().map(column_to_sql).collect();
    elements.extend(create.constraints.iter().map(constraint_to_sql));
    words(&[
        "CREATE",
        when(create.features, "OR REPLACE"),
        "TABLE",
        when(create.if_not_exists, "IF NOT EXISTS"),
        &object_name_to_sql(&create.name),
        &format!("({})", elements.join(", ")),
        when(create.query, "AS SELECT"),
    ])
}

fn column_to_sql(column: &ColumnDefinition) -> String {
    let data_type = match column.data_type {
        DataType::Int => "INT",
        DataType::Text => "TEXT",
        DataType::Bool => "BOOL",
        DataType::Other => "DATE",
    };
    let options: Vec<String> = column.options.iter().map(option_to_sql).collect();
    words(&[&name_to_sql(&column.name), data_type, when(column.collation, "COLLATE c"), &options.join(" ")])
}

fn option_to_sql(option: &ColumnOption) -> String {
    let text = match option.kind {
        OptionKind::Null => "NULL",
        OptionKind::NotNull => "NOT NULL",
        OptionKind::Key => "PRIMARY KEY",
        OptionKind::KeyWithCharacteristics => "PRIMARY KEY DEFERRABLE",
        OptionKind::Other => "UNIQUE",
    };
    words(&[when(option.named, "CONSTRAINT k"), text])
}

fn constraint_to_sql(constraint: &Constraint) -> String {
    match constraint {
        Constraint::Other => "CHECK (TRUE)".to_string(),
        Constraint::PrimaryKey { features, names } => {
            words(&[when(*features, "CONSTRAINT k"), &format!("PRIMARY KEY ({})", commas(names, name_to_sql))])
        }
    }
}

fn insert_to_sql(insert: &Insert) -> String {
    let columns = match insert.columns.as_slice() {
        [] => String::new(),
        columns => format!("({})", commas(columns, name_to_sql)),
    };
    let source = match &insert.source {
        None => "DEFAULT VALUES".to_string(),
        Some(source) => {
            let body = match &source.values {
                None => "SELECT 1".to_string(),
                Some(values) => {
                    let rows = commas(&values.rows, |row| format!("({})", commas(row, expression_to_sql)));
                    words(&["VALUES", when(values.explicit_row, "ROW"), &rows])
                }
            };
            words(&[&body, when(source.clauses, "LIMIT 1")])
        }
    };
    let table = object_name_to_sql(&insert.table);
    words(&["INSERT", when(insert.features, "OR REPLACE"), "INTO", &table, &columns, &source])
}

fn query_to_sql(query: &Query) -> String {
    let body = query.select.as_ref().map_or("VALUES (1)".to_string(), select_to_sql);
    words(&[&body, when(query.clauses, "LIMIT 1")])
}

fn select_to_sql(select: &Select) -> String {
    let from = select.from.as_ref().map_or(String::new(), |table| format!("FROM {}", table_to_sql(table)));
    words(&[
        "SELECT",
        when(select.features, "DISTINCT"),
        &commas(&select.items, item_to_sql),
        &from,
        &condition_to_sql(&select.condition),
    ])
}

fn item_to_sql(item: &Item) -> String {
    match item {
        Item::Other => "other()".to_string(),
        Item::Wildcard => "*".to_string(),
        Item::Name(name) => name_to_sql(name),
    }
}

fn table_to_sql(table: &Table) -> String {
    let relation = match &table.relation {
        None => "(SELECT 1)".to_string(),
        Some(relation) => words(&[&object_name_to_sql(&relation.name), when(relation.features, "AS a")]),
    };
    words(&[&relation, when(table.joins, "JOIN j ON TRUE")])
}

fn condition_to_sql(condition: &Option<Expression>) -> String {
    condition.as_ref().map_or(String::new(), |condition| format!("WHERE {}", expression_to_sql(condition)))
}

fn update_to_sql(update: &Update) -> String {
    words(&[
        "UPDATE",
        when(update.conflict, "OR IGNORE"),
        &table_to_sql(&update.table),
        "SET",
        &commas(&update.assignments, assignment_to_sql),
        when(update.from, "FROM f"),
        &condition_to_sql(&update.condition),
        when(update.returning, "RETURNING *"),
    ])
}

fn assignment_to_sql(assignment: &Assignment) -> String {
    let target = match &assignment.target {
        Target::Tuple => "(a, b)".to_string(),
        Target::Column(name) => object_name_to_sql(name),
    };
    format!("{target} = {}", expression_to_sql(&assignment.value))
}

fn delete_to_sql(delete: &Delete) -> String {
    let from = match &delete.from {
        DeleteFrom::WithoutKeyword => "t".to_string(),
        DeleteFrom::NotOne => "FROM t, u".to_string(),
        DeleteFrom::Table(table) => format!("FROM {}", table_to_sql(table)),
    };
    words(&[
        "DELETE",
        when(delete.tables, "{tables}"),
        &from,
        when(delete.using, "USING u"),
        &condition_to_sql(&delete.condition),
        when(delete.returning, "RETURNING *"),
        when(delete.order_by, "ORDER BY 1"),
        when(delete.limit, "LIMIT 1"),
    ])
}

/// A piece of SQL and how strongly its outermost operator binds.
struct Piece {
    text: String,
    strength: u8,
}

pub fn expression_to_sql(expression: &Expression) -> String {
    let mut waiting: Vec<Piece> = Vec::new();
    for node in &expression.nodes {
        let piece = node_to_sql(node, &mut waiting);
        waiting.push(piece);
    }
    waiting.pop().map_or(String::new(), |piece| piece.text)
}

fn node_to_sql(node: &Node, waiting: &mut Vec<Piece>) -> Piece {
    let strength = node_strength(node);
    let mut operand = |at_least: u8| {
        let piece = waiting.pop().unwrap_or(Piece { text: String::new(), strength: u8::MAX });
        if piece.strength < at_least { format!("[{}]", piece.text) } else { piece.text }
    };
    let text = match node {
        Node::Name(name) => name_to_sql(name),
        Node::Number(text) if is_plain_number(text) => text.clone(),
        Node::Number(text) => format!("number'{}'", text.replace('\'', "''")),
        Node::Text(text) => Value::Text(text.clone()).to_sql(),
        Node::True => "TRUE".to_string(),
        Node::False => "FALSE".to_string(),
        Node::Null => "NULL".to_string(),
        Node::OtherLiteral => "?".to_string(),
        Node::OtherExpression => "other()".to_string(),
        Node::Parentheses => format!("({})", operand(0)),
        Node::IsNull => format!("{} IS NULL", operand(strength)),
        Node::IsNotNull => format!("{} IS NOT NULL", operand(strength)),
        Node::Not => format!("NOT {}", operand(strength + 1)),
        Node::Plus => format!("+ {}", operand(strength + 1)),
        Node::Minus => format!("- {}", operand(strength + 1)),
        Node::OtherUnary => format!("~ {}", operand(strength + 1)),
        Node::Binary(operator) => {
            let right = operand(strength + 1);
            format!("{} {} {right}", operand(strength), operator.sign())
        }
        Node::OtherBinary => {
            let right = operand(strength + 1);
            format!("{} || {right}", operand(strength))
        }
    };
    Piece { text, strength }
}

fn is_plain_number(text: &str) -> bool {
    !text.is_empty() && text.chars().all(|letter| letter.is_ascii_digit())
}
