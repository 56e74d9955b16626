//! Refusals 7 and 8 of paper 01: the top sizes, and letters past ASCII in unquoted names.

use crate::catalogue::{self, Catalogue};
use crate::statement::{
    Assignment, ColumnDefinition, Constraint, CreateTable, DeleteFrom, Expression, Insert, Item, Name, Node,
    ObjectName, Select, Statement, Table, Target, Tree,
};

pub const IMAGE_BYTES: usize = 65_536;
pub const NAME_BYTES: usize = 128;
pub const LIST_ENTRIES: usize = 64;
pub const INSERT_ROWS: usize = 1_024;
pub const TABLES: usize = 256;
pub const DEPTH: usize = 64;

/// The first limit that the statement passes.
pub fn statement_passes(statement: &Statement, image_bytes: usize) -> Option<String> {
    let mut found = Findings::default();
    found.size("statement image", image_bytes, IMAGE_BYTES, "bytes");
    visit(&statement.tree, &mut |thing| found.thing(thing));
    found.first
}

/// The first limit that the catalogue passes.
pub fn catalogue_passes(catalogue: &Catalogue, image_bytes: usize) -> Option<String> {
    let mut found = Findings::default();
    found.size("catalogue image", image_bytes, IMAGE_BYTES, "bytes");
    found.size("catalogue", catalogue.tables.len(), TABLES, "tables");
    for table in &catalogue.tables {
        found.table(table);
    }
    found.first
}

/// The first unquoted name of the statement that holds a byte of 128 or more.
pub fn unquoted_beyond_ascii(statement: &Statement) -> Option<Name> {
    let mut found = None;
    visit(&statement.tree, &mut |thing| {
        if let Thing::Name(name) = thing
            && !name.quoted
            && !name.text.is_ascii()
            && found.is_none()
        {
            found = Some(name.clone());
        }
    });
    found
}

#[derive(Default)]
struct Findings {
    first: Option<String>,
}

impl Findings {
    fn size(&mut self, what: &str, have: usize, most: usize, unit: &str) {
        if have > most && self.first.is_none() {
            self.first = Some(format!("{what}: {have} {unit}, and {most} are allowed"));
        }
    }

    fn thing(&mut self, thing: Thing) {
        match thing {
            Thing::Name(name) => self.size("name", name.text.len(), NAME_BYTES, "bytes"),
            Thing::List(what, entries) => self.size(what, entries, LIST_ENTRIES, "entries"),
            Thing::Rows(rows) => self.size("INSERT", rows, INSERT_ROWS, "rows"),
            Thing::Expression(expression) => self.size("expression", expression.depth(), DEPTH, "levels"),
        }
    }

    fn table(&mut self, table: &catalogue::Table) {
        self.size("table name", table.name.len(), NAME_BYTES, "bytes");
        self.size("table", table.columns.len(), LIST_ENTRIES, "columns");
        self.size("key", table.key.len(), LIST_ENTRIES, "columns");
        for column in &table.columns {
            self.size("column name", column.name.len(), NAME_BYTES, "bytes");
        }
    }
}

/// What a limit or refusal 8 can be about.
enum Thing<'a> {
    Name(&'a Name),
    List(&'static str, usize),
    Rows(usize),
    Expression(&'a Expression),
}

type Visitor<'a> = dyn FnMut(Thing) + 'a;

/// Shows every name, list and expression of a statement to `see`.
fn visit(tree: &Tree, see: &mut Visitor) {
    match tree {
        Tree::CreateTable(create) => visit_create_table(create, see),
        Tree::Insert(insert) => visit_insert(insert, see),
        Tree::Query(query) => {
            if let Some(select) = &query.select {
                visit_select(select, see);
            }
        }
        Tree::Update(update) => {
            visit_table(&update.table, see);
            visit_assignments(&update.assignments, see);
            visit_condition(&update.condition, see);
        }
        Tree::Delete(delete) => {
            if let DeleteFrom::Table(table) = &delete.from {
                visit_table(table, see);
            }
            visit_condition(&delete.condition, see);
        }
        Tree::Begin { .. } | Tree::Commit { .. } | Tree::Rollback { .. } | Tree::ShowTables { .. } | Tree::Other => {}
    }
}

fn visit_create_table(create: &CreateTable, see: &mut Visitor) {
    visit_object_name(&create.name, see);
    see(Thing::List("columns", create.columns.len()));
    for ColumnDefinition { name, options, .. } in &create.columns {
        see(Thing::Name(name));
        see(Thing::List("options", options.len()));
    }
    see(Thing::List("constraints", create.constraints.len()));
    for constraint in &create.constraints {
        if let Constraint::PrimaryKey { names, .. } = constraint {
            visit_names("key names", names, see);
        }
    }
}

fn visit_insert(insert: &Insert, see: &mut Visitor) {
    visit_object_name(&insert.table, see);
    visit_names("INSERT columns", &insert.columns, see);
    let values = insert.source.as_ref().and_then(|source| source.values.as_ref());
    if let Some(values) = values {
        see(Thing::Rows(values.rows.len()));
        for row in &values.rows {
            see(Thing::List("row", row.len()));
            row.iter().for_each(|value| visit_expression(value, see));
        }
    }
}

fn visit_select(select: &Select, see: &mut Visitor) {
    if let Some(table) = &select.from {
        visit_table(table, see);
    }
    see(Thing::List("items", select.items.len()));
    for item in &select.items {
        if let Item::Name(name) = item {
            see(Thing::Name(name));
        }
    }
    visit_condition(&select.condition, see);
}

fn visit_assignments(assignments: &[Assignment], see: &mut Visitor) {
    see(Thing::List("assignments", assignments.len()));
    for assignment in assignments {
        if let Target::Column(name) = &assignment.target {
            visit_object_name(name, see);
        }
        visit_expression(&assignment.value, see);
    }
}

fn visit_names(what: &'static str, names: &[Name], see: &mut Visitor) {
    see(Thing::List(what, names.len()));
    names.iter().for_each(|name| see(Thing::Name(name)));
}

fn visit_object_name(name: &ObjectName, see: &mut Visitor) {
    if let ObjectName::One(name) = name {
        see(Thing::Name(name));
    }
}

fn visit_table(table: &Table, see: &mut Visitor) {
    if let Some(relation) = &table.relation {
        visit_object_name(&relation.name, see);
    }
}

fn visit_condition(condition: &Option<Expression>, see: &mut Visitor) {
    if let Some(condition) = condition {
        visit_expression(condition, see);
    }
}

fn visit_expression(expression: &Expression, see: &mut Visitor) {
    see(Thing::Expression(expression));
    for node in &expression.nodes {
        if let Node::Name(name) = node {
            see(Thing::Name(name));
        }
    }
}
