//! Statements that bind against a catalogue.

use images::catalogue::{Catalogue, Column, Table as CatalogueTable};
use images::random::{Rng, any_text};
use images::statement::{
    Assignment, ColumnDefinition, ColumnOption, Constraint, CreateTable, DataType, Delete, DeleteFrom, Expression,
    Insert, Item, Name, Node, ObjectName, OptionKind, Query, Relation, Select, Source, Table, Target, Tree, Update,
    Values,
};
use images::value::ColumnType;

use super::expressions::{Wanted, condition, expression, number, type_of};
use super::names::{fresh, spell};

pub fn tree(rng: &mut Rng, catalogue: &Catalogue) -> Tree {
    let kind = rng.below(32);
    if kind < 8 {
        return create_table(rng, catalogue);
    }
    if kind >= 28 {
        return small(rng);
    }
    match catalogue.tables.as_slice() {
        [] => small(rng),
        tables => {
            let table = rng.pick(tables);
            match kind {
                8..=13 => insert(rng, table),
                14..=17 => select(rng, table),
                18..=24 => update(rng, table),
                _ => delete(rng, table),
            }
        }
    }
}

fn small(rng: &mut Rng) -> Tree {
    match rng.below(5) {
        0 => Tree::Begin { modes: false },
        1 => Tree::Commit { chain: false },
        2 => Tree::Rollback { chain: false, savepoint: false },
        3 => Tree::ShowTables { options: false },
        _ => Tree::Other,
    }
}

fn create_table(rng: &mut Rng, catalogue: &Catalogue) -> Tree {
    let taken: Vec<&str> = catalogue.tables.iter().map(|table| table.name.as_str()).collect();
    let name = fresh(rng, &taken);
    let mut names: Vec<String> = Vec::new();
    let count = if rng.once_in(60) { 64 } else { rng.between(1, 5) };
    for _ in 0..count {
        let name = fresh(rng, &names.iter().map(String::as_str).collect::<Vec<_>>());
        names.push(name);
    }
    let mut columns: Vec<ColumnDefinition> = names.iter().map(|name| column(rng, name)).collect();
    let mut constraints = Vec::new();
    if rng.once_in(2) {
        constraints.push(key_constraint(rng, &names));
    } else {
        let place = rng.below(columns.len());
        make_inline_key(rng, &mut columns[place]);
    }
    let name = ObjectName::One(spell(rng, &name));
    Tree::CreateTable(CreateTable { if_not_exists: false, query: false, features: false, name, columns, constraints })
}

pub fn option(kind: OptionKind) -> ColumnOption {
    ColumnOption { named: false, kind }
}

pub fn column(rng: &mut Rng, name: &str) -> ColumnDefinition {
    let options = match rng.below(3) {
        0 => vec![option(OptionKind::Null)],
        1 => vec![option(OptionKind::NotNull)],
        _ => Vec::new(),
    };
    let data_type = *rng.pick(&DataType::ALL[..3]);
    ColumnDefinition { collation: false, name: spell(rng, name), options, data_type }
}

/// A key on the column itself, which must not be declared NULL. It may be said twice.
fn make_inline_key(rng: &mut Rng, column: &mut ColumnDefinition) {
    column.options.retain(|option| option.kind != OptionKind::Null);
    for _ in 0..if rng.once_in(4) { 2 } else { 1 } {
        let place = rng.below(column.options.len() + 1);
        column.options.insert(place, option(OptionKind::Key));
    }
}

fn key_constraint(rng: &mut Rng, names: &[String]) -> Constraint {
    let mut key: Vec<&String> = names.iter().collect();
    rng.shuffle(&mut key);
    let most = key.len().min(3);
    key.truncate(rng.between(1, most));
    Constraint::PrimaryKey { features: false, names: key.into_iter().map(|name| spell(rng, name)).collect() }
}

fn insert(rng: &mut Rng, table: &CatalogueTable) -> Tree {
    let mut columns: Vec<&Column> = table.columns.iter().filter(|column| !column.nullable || !rng.once_in(3)).collect();
    rng.shuffle(&mut columns);
    let rows = if rng.once_in(80) { 1024 } else { rng.between(1, 3) };
    let rows = if columns.len() > 4 { rows.min(3) } else { rows };
    let values = Values {
        explicit_row: false,
        rows: (0..rows).map(|_| columns.iter().map(|column| literal(rng, column)).collect()).collect(),
    };
    Tree::Insert(Insert {
        features: false,
        table: ObjectName::One(spell(rng, &table.name)),
        columns: columns.iter().map(|column| spell(rng, &column.name)).collect(),
        source: Some(Source { clauses: false, values: Some(values) }),
    })
}

/// A literal that a column takes.
pub fn literal(rng: &mut Rng, column: &Column) -> Expression {
    if column.nullable && rng.once_in(4) {
        return Expression::leaf(Node::Null);
    }
    match column.data_type {
        ColumnType::Int => number(rng),
        ColumnType::Text => Expression::leaf(Node::Text(any_text(rng))),
        ColumnType::Bool => Expression::leaf(if rng.once_in(2) { Node::True } else { Node::False }),
    }
}

pub fn direct_table(name: Name) -> Table {
    Table { joins: false, relation: Some(Relation { features: false, name: ObjectName::One(name) }) }
}

fn select(rng: &mut Rng, table: &CatalogueTable) -> Tree {
    let items = (0..rng.between(0, 4)).map(|_| item(rng, table)).collect();
    let select = Select {
        features: false,
        from: Some(direct_table(spell(rng, &table.name))),
        items,
        condition: if rng.once_in(3) { None } else { Some(condition(rng, table)) },
    };
    Tree::Query(Query { clauses: false, select: Some(select) })
}

pub fn item(rng: &mut Rng, table: &CatalogueTable) -> Item {
    if rng.once_in(3) {
        return Item::Wildcard;
    }
    let name = &rng.pick(&table.columns).name;
    Item::Name(spell(rng, name))
}

/// Of a table with nothing but its key a DELETE.
pub fn update(rng: &mut Rng, table: &CatalogueTable) -> Tree {
    let mut targets: Vec<&Column> = table.columns.iter().filter(|column| !table.key.contains(&column.id)).collect();
    if targets.is_empty() {
        return delete(rng, table);
    }
    rng.shuffle(&mut targets);
    let most = targets.len().min(4);
    targets.truncate(rng.between(1, most));
    Tree::Update(Update {
        from: false,
        returning: false,
        conflict: false,
        table: direct_table(spell(rng, &table.name)),
        assignments: targets.into_iter().map(|column| assignment(rng, table, column)).collect(),
        condition: Some(condition(rng, table)),
    })
}

/// A value that fits its column.
pub fn assignment(rng: &mut Rng, table: &CatalogueTable, column: &Column) -> Assignment {
    let value = if column.nullable && rng.once_in(6) {
        Expression::leaf(Node::Null)
    } else {
        let wanted = Wanted { data_type: type_of(column.data_type), never_null: !column.nullable };
        let depth = rng.between(1, 4);
        expression(rng, table, wanted, depth)
    };
    Assignment { target: Target::Column(ObjectName::One(spell(rng, &column.name))), value }
}

fn delete(rng: &mut Rng, table: &CatalogueTable) -> Tree {
    Tree::Delete(Delete {
        tables: false,
        using: false,
        returning: false,
        order_by: false,
        limit: false,
        from: DeleteFrom::Table(direct_table(spell(rng, &table.name))),
        condition: Some(condition(rng, table)),
    })
}
