//! Faults to plant: each changes a draft so that one test of the Rust, or one of 5 to 9, would refuse it. Some plant a
//! thing right at a limit, where it must still be allowed.

use images::catalogue::{Column, Table as CatalogueTable};
use images::limits;
use images::random::{Rng, any_expression};
use images::run::spans;
use images::statement::{
    Assignment, ColumnDefinition, ColumnOption, Constraint, CreateTable, DataType, Delete, DeleteFrom, Expression,
    Insert, Item, Name, Node, ObjectName, OptionKind, Query, Select, Source, Table, Target, Tree, Update, Values,
};
use images::value::{ColumnType, ExpressionType, Operator};

use super::expressions::{Wanted, bad_number, expression};
use super::names::{beyond_ascii, long, misspell, mixed_case, spell};
use super::statements::{assignment, column, item, literal, option};
use super::{Draft, Room, catalogues, texts};

/// `plant` says whether it could. A fault is drawn once in `rarity` of the times that it could be.
pub struct Fault {
    pub name: &'static str,
    pub rarity: usize,
    pub plant: fn(&mut Rng, &mut Draft) -> bool,
}

const fn common(name: &'static str, plant: fn(&mut Rng, &mut Draft) -> bool) -> Fault {
    Fault { name, rarity: 1, plant }
}

/// Fits every statement, and so would come up more often than the others.
const fn everywhere(name: &'static str, plant: fn(&mut Rng, &mut Draft) -> bool) -> Fault {
    Fault { name, rarity: 2, plant }
}

/// Makes a large case, which is slow.
const fn large(name: &'static str, plant: fn(&mut Rng, &mut Draft) -> bool) -> Fault {
    Fault { name, rarity: 25, plant }
}

const fn rare(name: &'static str, plant: fn(&mut Rng, &mut Draft) -> bool) -> Fault {
    Fault { name, rarity: 4, plant }
}

pub const FAULTS: &[Fault] = &[
    // Any statement.
    everywhere("statement bytes damaged", |rng, draft| set(&mut draft.statement_damage, rng)),
    everywhere("catalogue bytes damaged", |rng, draft| set(&mut draft.catalogue_damage, rng)),
    everywhere("catalogue not sound", unsound_catalogue),
    everywhere("room one short", |_, draft| room(draft, Room::OneShort)),
    everywhere("no room", |_, draft| room(draft, Room::None)),
    everywhere("raw text around SHOW TRANSACTIONS", |rng, draft| {
        draft.statement.raw = texts::around_show_transactions(rng);
        true
    }),
    everywhere("unquoted name past ASCII", |rng, draft| set_some_name(rng, draft, beyond_ascii)),
    everywhere("long name in the statement", |rng, draft| {
        set_some_name(rng, draft, |rng| Name { quoted: rng.once_in(2), text: long(rng) })
    }),
    everywhere("long name in the catalogue", long_catalogue_name),
    large("statement image at its limit", statement_at_limit),
    large("catalogue image at its limit", catalogue_at_limit),
    large("tables at their limit", tables_at_limit),
    everywhere("columns of a table at their limit", columns_at_limit),
    // The table that a statement names.
    common("table of another name", |rng, draft| change_table_name(rng, draft, misspell)),
    common("table name in another case, quoted", |rng, draft| {
        change_table_name(rng, draft, |rng, canonical| Name::quoted(mixed_case(rng, canonical)))
    }),
    common("table name of several parts", |_, draft| {
        with(object_name(&mut draft.statement.tree), |name| *name = ObjectName::Other)
    }),
    common("table not in the catalogue", |_, draft| {
        let place = statement_table_place(draft);
        with(place, |place| drop(draft.catalogue.tables.remove(place)))
    }),
    common("table with joins", |_, draft| with(table(&mut draft.statement.tree), |table| table.joins = true)),
    common("table that is no table", |_, draft| with(table(&mut draft.statement.tree), |table| table.relation = None)),
    common("table with an alias", |_, draft| {
        let relation = table(&mut draft.statement.tree).and_then(|table| table.relation.as_mut());
        with(relation, |relation| relation.features = true)
    }),
    // Expressions.
    common("unknown column in an expression", |rng, draft| {
        replace_node(rng, draft, |rng| Expression::leaf(Node::Name(misspell(rng, "temp"))))
    }),
    common("bad number in an expression", |rng, draft| replace_node(rng, draft, bad_number)),
    common("other literal in an expression", |rng, draft| {
        replace_node(rng, draft, |_| Expression::leaf(Node::OtherLiteral))
    }),
    common("other expression in an expression", |rng, draft| {
        replace_node(rng, draft, |_| Expression::leaf(Node::OtherExpression))
    }),
    common("NULL in an expression", |rng, draft| replace_node(rng, draft, |_| Expression::leaf(Node::Null))),
    common("another literal in an expression", |rng, draft| {
        replace_node(rng, draft, |rng| {
            Expression::leaf(
                rng.pick(&[Node::True, Node::Text("s".to_string()), Node::Number("7".to_string())]).clone(),
            )
        })
    }),
    common("another operator", change_operator),
    common("comparison with NULL", |rng, draft| wrap_node(rng, draft, compare_with_null)),
    common("another unary operator", |rng, draft| {
        wrap_node(rng, draft, |_, inner| Expression::unary(Node::OtherUnary, inner))
    }),
    common("another binary operator", |rng, draft| {
        wrap_node(rng, draft, |_, inner| Expression::binary(Node::OtherBinary, inner.clone(), inner))
    }),
    common("sign or NOT around a node", |rng, draft| {
        wrap_node(rng, draft, |rng, inner| {
            Expression::unary(rng.pick(&[Node::Minus, Node::Plus, Node::Not]).clone(), inner)
        })
    }),
    common("any expression", |rng, draft| replace_node(rng, draft, any_expression)),
    common("depth at its limit", depth_at_limit),
    rare("wide expression", wide_expression),
    common("any operator on any two types", any_operator),
    common("no WHERE", |_, draft| {
        let condition = condition_slot(&mut draft.statement.tree);
        with(condition, |condition| *condition = None)
    }),
    common("WHERE that is no BOOL", condition_of_another_type),
    // CREATE TABLE.
    common("CREATE mark 1", |_, draft| with(create(draft), |create| create.if_not_exists = true)),
    common("CREATE mark 2", |_, draft| with(create(draft), |create| create.query = true)),
    common("CREATE mark 3", |_, draft| with(create(draft), |create| create.features = true)),
    common("CREATE of a table that exists", create_existing),
    common("CREATE with no columns", |_, draft| with(create(draft), |create| create.columns.clear())),
    common("collation", |rng, draft| with(some_column(rng, draft), |column| column.collation = true)),
    common("repeated column", repeated_column),
    common("named option", |rng, draft| {
        add_option(rng, draft, OptionKind::NotNull) && with(some_option(rng, draft), |option| option.named = true)
    }),
    common("option NULL", |rng, draft| add_option(rng, draft, OptionKind::Null)),
    common("option NOT NULL", |rng, draft| add_option(rng, draft, OptionKind::NotNull)),
    common("option PRIMARY KEY", |rng, draft| add_option(rng, draft, OptionKind::Key)),
    common("option PRIMARY KEY with characteristics", |rng, draft| {
        add_option(rng, draft, OptionKind::KeyWithCharacteristics)
    }),
    common("other option", |rng, draft| add_option(rng, draft, OptionKind::Other)),
    common("other type", |rng, draft| with(some_column(rng, draft), |column| column.data_type = DataType::Other)),
    common("several faults of one column", crowded_column),
    common("another key constraint", another_key),
    common("empty key constraint", |rng, draft| {
        add_constraint(rng, draft, Constraint::PrimaryKey { features: false, names: Vec::new() })
    }),
    common("other constraint", |rng, draft| add_constraint(rng, draft, Constraint::Other)),
    common("key constraint with features", key_features),
    common("no key", no_key),
    common("unknown key name", |rng, draft| {
        let name = misspell(rng, "serial");
        change_key_names(rng, draft, |names| names.push(name))
    }),
    common("repeated key name", |rng, draft| {
        change_key_names(rng, draft, |names| names.extend(names.first().cloned()))
    }),
    rare("CREATE lists at their limit", create_lists_at_limit),
    // INSERT.
    common("INSERT mark", |_, draft| with(insert(draft), |insert| insert.features = true)),
    common("INSERT without columns", |_, draft| with(insert(draft), |insert| insert.columns.clear())),
    common("repeated INSERT column", |rng, draft| {
        let insert = insert(draft).filter(|insert| !insert.columns.is_empty());
        with(insert, |insert| {
            let again = rng.pick(&insert.columns).clone();
            let place = rng.below(insert.columns.len() + 1);
            insert.columns.insert(place, again);
        })
    }),
    common("unknown INSERT column", |rng, draft| {
        let insert = insert(draft);
        with(insert, |insert| {
            let place = rng.below(insert.columns.len() + 1);
            insert.columns.insert(place, misspell(rng, "minutes"));
        })
    }),
    common("missing INSERT column", missing_insert_column),
    common("INSERT without source", |_, draft| with(insert(draft), |insert| insert.source = None)),
    common("clauses of the source", |_, draft| with(source(draft), |source| source.clauses = true)),
    common("source that is no VALUES", |_, draft| with(source(draft), |source| source.values = None)),
    common("ROW form", |_, draft| with(values(draft), |values| values.explicit_row = true)),
    common("no rows", |_, draft| with(values(draft), |values| values.rows.clear())),
    common("row of another length", row_of_another_length),
    common("INSERT value that is no literal", |rng, draft| change_value(rng, draft, no_literal)),
    common("INSERT value of another type", |rng, draft| {
        let values = [Node::True, Node::Text("1".to_string()), Node::Number("1".to_string())].map(Expression::leaf);
        change_value(rng, draft, |rng| rng.pick(&values).clone())
    }),
    common("INSERT of NULL", |rng, draft| change_value(rng, draft, |_| Expression::leaf(Node::Null))),
    common("bad number in INSERT", |rng, draft| change_value(rng, draft, bad_number)),
    rare("INSERT rows at their limit", rows_at_limit),
    rare("values of a row at their limit", values_at_limit),
    rare("INSERT columns at their limit", insert_columns_at_limit),
    // SELECT.
    common("clauses of a query", |_, draft| with(query(draft), |query| query.clauses = true)),
    common("query that is no SELECT", |_, draft| with(query(draft), |query| query.select = None)),
    common("SELECT mark", |_, draft| with(select(draft), |select| select.features = true)),
    common("SELECT from several", |_, draft| with(select(draft), |select| select.from = None)),
    common("other item", |rng, draft| add_item(rng, draft, |_| Item::Other)),
    common("unknown item", |rng, draft| add_item(rng, draft, |rng| Item::Name(misspell(rng, "ok")))),
    rare("items at their limit", items_at_limit),
    // UPDATE.
    common("UPDATE mark 1", |_, draft| with(update(draft), |update| update.from = true)),
    common("UPDATE mark 2", |_, draft| with(update(draft), |update| update.returning = true)),
    common("UPDATE mark 3", |_, draft| with(update(draft), |update| update.conflict = true)),
    common("UPDATE without assignments", |_, draft| with(update(draft), |update| update.assignments.clear())),
    common("tuple target", |rng, draft| change_target(rng, draft, |_| Target::Tuple)),
    common("qualified target", |rng, draft| change_target(rng, draft, |_| Target::Column(ObjectName::Other))),
    common("unknown target", |rng, draft| {
        change_target(rng, draft, |rng| Target::Column(ObjectName::One(misspell(rng, "temp"))))
    }),
    common("repeated target", repeated_target),
    common("key target", key_target),
    common("value of another type", value_of_another_type),
    common("value that may be null", value_that_may_be_null),
    rare("assignments at their limit", assignments_at_limit),
    // DELETE.
    common("DELETE mark", |rng, draft| {
        let mark = rng.below(5);
        with(delete(draft).and_then(|delete| delete_marks(delete).into_iter().nth(mark)), |mark| *mark = true)
    }),
    common("DELETE without FROM", |_, draft| with(delete(draft), |delete| delete.from = DeleteFrom::WithoutKeyword)),
    common("DELETE from several", |_, draft| with(delete(draft), |delete| delete.from = DeleteFrom::NotOne)),
    // The small ones.
    common("mark of a small statement", |rng, draft| {
        let mark = match &mut draft.statement.tree {
            Tree::Begin { modes } => Some(modes),
            Tree::Commit { chain } => Some(chain),
            Tree::ShowTables { options } => Some(options),
            Tree::Rollback { chain, savepoint } => Some(if rng.once_in(2) { chain } else { savepoint }),
            _ => None,
        };
        with(mark, |mark| *mark = true)
    }),
];

// ---- reaching into a draft ----

/// Changes a thing if it is there.
fn with<T>(thing: Option<T>, change: impl FnOnce(T)) -> bool {
    thing.map(change).is_some()
}

/// One of a list's entries: often the one that other faults of the same draft choose too, so that they meet there.
fn some_of<'a, T>(rng: &mut Rng, focus: usize, list: &'a mut [T]) -> Option<&'a mut T> {
    let place = if rng.once_in(3) { rng.below(list.len().max(1)) } else { focus % list.len().max(1) };
    list.get_mut(place)
}

fn set(damage: &mut Option<u64>, rng: &mut Rng) -> bool {
    *damage = Some(rng.draw());
    true
}

fn room(draft: &mut Draft, room: Room) -> bool {
    draft.room = room;
    true
}

fn create(draft: &mut Draft) -> Option<&mut CreateTable> {
    match &mut draft.statement.tree {
        Tree::CreateTable(create) => Some(create),
        _ => None,
    }
}

fn insert(draft: &mut Draft) -> Option<&mut Insert> {
    match &mut draft.statement.tree {
        Tree::Insert(insert) => Some(insert),
        _ => None,
    }
}

fn source(draft: &mut Draft) -> Option<&mut Source> {
    insert(draft)?.source.as_mut()
}

fn values(draft: &mut Draft) -> Option<&mut Values> {
    source(draft)?.values.as_mut()
}

fn query(draft: &mut Draft) -> Option<&mut Query> {
    match &mut draft.statement.tree {
        Tree::Query(query) => Some(query),
        _ => None,
    }
}

fn select(draft: &mut Draft) -> Option<&mut Select> {
    query(draft)?.select.as_mut()
}

fn delete(draft: &mut Draft) -> Option<&mut Delete> {
    match &mut draft.statement.tree {
        Tree::Delete(delete) => Some(delete),
        _ => None,
    }
}

fn delete_marks(delete: &mut Delete) -> [&mut bool; 5] {
    [&mut delete.tables, &mut delete.using, &mut delete.returning, &mut delete.order_by, &mut delete.limit]
}

fn update(draft: &mut Draft) -> Option<&mut Update> {
    match &mut draft.statement.tree {
        Tree::Update(update) => Some(update),
        _ => None,
    }
}

fn table(tree: &mut Tree) -> Option<&mut Table> {
    match tree {
        Tree::Query(query) => query.select.as_mut()?.from.as_mut(),
        Tree::Update(update) => Some(&mut update.table),
        Tree::Delete(delete) => match &mut delete.from {
            DeleteFrom::Table(table) => Some(table),
            _ => None,
        },
        _ => None,
    }
}

/// The name of the table that the statement is about.
fn object_name(tree: &mut Tree) -> Option<&mut ObjectName> {
    match tree {
        Tree::CreateTable(create) => Some(&mut create.name),
        Tree::Insert(insert) => Some(&mut insert.table),
        _ => Some(&mut table(tree)?.relation.as_mut()?.name),
    }
}

fn canonical(name: &Name) -> String {
    if name.quoted { name.text.clone() } else { name.text.to_ascii_lowercase() }
}

/// The place in the catalogue of the table that the statement names.
fn statement_table_place(draft: &mut Draft) -> Option<usize> {
    let ObjectName::One(name) = object_name(&mut draft.statement.tree)? else { return None };
    let name = canonical(name);
    draft.catalogue.tables.iter().position(|table| table.name == name)
}

fn statement_table(draft: &mut Draft) -> Option<CatalogueTable> {
    let place = statement_table_place(draft)?;
    Some(draft.catalogue.tables[place].clone())
}

fn expressions(tree: &mut Tree) -> Vec<&mut Expression> {
    match tree {
        Tree::Insert(insert) => insert
            .source
            .iter_mut()
            .filter_map(|source| source.values.as_mut())
            .flat_map(|values| values.rows.iter_mut().flatten())
            .collect(),
        Tree::Query(query) => query.select.iter_mut().filter_map(|select| select.condition.as_mut()).collect(),
        Tree::Update(update) => {
            let values = update.assignments.iter_mut().map(|assignment| &mut assignment.value);
            values.chain(update.condition.iter_mut()).collect()
        }
        Tree::Delete(delete) => delete.condition.iter_mut().collect(),
        _ => Vec::new(),
    }
}

fn some_expression<'a>(rng: &mut Rng, draft: &'a mut Draft) -> Option<&'a mut Expression> {
    let focus = draft.focus;
    let all = expressions(&mut draft.statement.tree);
    let place = if rng.once_in(3) { rng.below(all.len().max(1)) } else { focus % all.len().max(1) };
    all.into_iter().nth(place)
}

fn condition_slot(tree: &mut Tree) -> Option<&mut Option<Expression>> {
    match tree {
        Tree::Query(query) => Some(&mut query.select.as_mut()?.condition),
        Tree::Update(update) => Some(&mut update.condition),
        Tree::Delete(delete) => Some(&mut delete.condition),
        _ => None,
    }
}

// ---- names ----

fn set_some_name(rng: &mut Rng, draft: &mut Draft, make: impl Fn(&mut Rng) -> Name) -> bool {
    let mut all = draft.statement.tree.names_mut();
    if all.is_empty() {
        return false;
    }
    let place = rng.below(all.len());
    *all[place] = make(rng);
    true
}

fn change_table_name(rng: &mut Rng, draft: &mut Draft, make: impl Fn(&mut Rng, &str) -> Name) -> bool {
    match object_name(&mut draft.statement.tree) {
        Some(ObjectName::One(name)) => {
            *name = make(rng, &canonical(name));
            true
        }
        _ => false,
    }
}

// ---- the catalogue and the sizes of images ----

fn unsound_catalogue(rng: &mut Rng, draft: &mut Draft) -> bool {
    let tables = &mut draft.catalogue.tables;
    if tables.is_empty() {
        return false;
    }
    let place = rng.below(tables.len());
    let rule = rng.below(9);
    if rule < 2 {
        let mut copy = catalogues::tiny_table(0);
        if rule == 0 {
            copy.id = tables[place].id;
        } else {
            copy.name = tables[place].name.clone();
        }
        tables.push(copy);
        return true;
    }
    let table = &mut tables[place];
    let some = rng.below(table.columns.len());
    let again = Column { id: u64::MAX - 1, ..table.columns[some].clone() };
    match rule {
        2 => table.columns[some].id = 0,
        3 => table.columns.push(Column { id: table.columns[some].id, name: "again".to_string(), ..again }),
        4 => table.columns.push(again),
        5 => table.key.clear(),
        6 => table.key.extend(table.key.first().copied()),
        7 => table.key.push(u64::MAX - 2),
        _ => {
            let key = table.key.first().copied();
            table.columns.iter_mut().filter(|column| Some(column.id) == key).for_each(|column| column.nullable = true);
        }
    }
    true
}

fn long_catalogue_name(rng: &mut Rng, draft: &mut Draft) -> bool {
    let Some(table) = draft.catalogue.tables.first_mut() else { return false };
    let name = long(rng);
    if rng.once_in(2) {
        table.name = name;
    } else {
        table.columns[0].name = name;
    }
    true
}

fn statement_at_limit(rng: &mut Rng, draft: &mut Draft) -> bool {
    let length = draft.statement.encode().map_or(0, |image| image.len());
    let target = limits::IMAGE_BYTES + rng.below(2) + if rng.once_in(4) { 100 } else { 0 };
    if length == 0 || target < length || draft.statement.raw.len() + target - length > usize::from(u16::MAX) {
        return false;
    }
    draft.statement.raw.push_str(&" ".repeat(target - length));
    true
}

fn catalogue_at_limit(rng: &mut Rng, draft: &mut Draft) -> bool {
    catalogues::fill_to(&mut draft.catalogue, limits::IMAGE_BYTES + rng.below(2));
    true
}

fn tables_at_limit(rng: &mut Rng, draft: &mut Draft) -> bool {
    let target = limits::TABLES + rng.below(2);
    let mut number = 0;
    while draft.catalogue.tables.len() < target {
        let place = rng.below(draft.catalogue.tables.len() + 1);
        draft.catalogue.tables.insert(place, catalogues::tiny_table(number));
        number += 1;
    }
    true
}

fn columns_at_limit(rng: &mut Rng, draft: &mut Draft) -> bool {
    let target = limits::LIST_ENTRIES + rng.below(2);
    let Some(table) = draft.catalogue.tables.first_mut() else { return false };
    while table.columns.len() < target {
        catalogues::add_column(rng, table);
    }
    true
}

// ---- expressions ----

/// Puts another expression where a random node's subtree was.
fn replace_node(rng: &mut Rng, draft: &mut Draft, make: impl Fn(&mut Rng) -> Expression) -> bool {
    wrap_node(rng, draft, |rng, _| make(rng))
}

fn wrap_node(rng: &mut Rng, draft: &mut Draft, wrap: impl Fn(&mut Rng, Expression) -> Expression) -> bool {
    let Some(whole) = some_expression(rng, draft) else { return false };
    let Ok(spans) = spans(&whole.nodes) else { return false };
    let last = rng.below(spans.len());
    let first = last + 1 - spans[last];
    let inner = Expression { nodes: whole.nodes[first..=last].to_vec() };
    whole.nodes.splice(first..=last, wrap(rng, inner).nodes);
    true
}

fn change_operator(rng: &mut Rng, draft: &mut Draft) -> bool {
    let Some(whole) = some_expression(rng, draft) else { return false };
    let mut operators: Vec<&mut Node> = whole.nodes.iter_mut().filter(|node| matches!(node, Node::Binary(_))).collect();
    if operators.is_empty() {
        return false;
    }
    let place = rng.below(operators.len());
    *operators[place] = Node::Binary(*rng.pick(&Operator::ALL));
    true
}

/// One of the 13 operators over two expressions of any types, as the condition or a part of it.
fn any_operator(rng: &mut Rng, draft: &mut Draft) -> bool {
    let Some(table) = statement_table(draft) else { return false };
    let mut operand = || {
        let wanted = Wanted::any(*rng.pick(&ExpressionType::ALL));
        let depth = rng.between(1, 3);
        expression(rng, &table, wanted, depth)
    };
    let (left, right) = (operand(), operand());
    let whole = Expression::binary(Node::Binary(*rng.pick(&Operator::ALL)), left, right);
    with(condition_slot(&mut draft.statement.tree), |condition| *condition = Some(whole))
}

fn compare_with_null(rng: &mut Rng, inner: Expression) -> Expression {
    let node = Node::Binary(Operator::ALL[rng.between(5, 10)]);
    let null = Expression::leaf(Node::Null);
    if rng.once_in(2) { Expression::binary(node, inner, null) } else { Expression::binary(node, null, inner) }
}

/// Makes an expression 64 or 65 deep, in a way that keeps its type.
fn depth_at_limit(rng: &mut Rng, draft: &mut Draft) -> bool {
    let target = limits::DEPTH + rng.below(2);
    let Some(whole) = some_expression(rng, draft) else { return false };
    let int = matches!(whole.nodes.last(), Some(Node::Number(_) | Node::Minus | Node::Plus));
    let way = rng.below(4);
    let mut deep = whole.clone();
    while deep.depth() < target {
        let short = Expression::leaf(if int { Node::Number("1".to_string()) } else { Node::True });
        let node = Node::Binary(if int { Operator::Add } else { Operator::And });
        deep = match way {
            0 => Expression::unary(Node::Parentheses, deep),
            1 => Expression::unary(if int { Node::Minus } else { Node::Not }, deep),
            2 => Expression::binary(node, deep, short),
            _ => Expression::binary(node, short, deep),
        };
    }
    *whole = deep;
    true
}

fn wide_expression(rng: &mut Rng, draft: &mut Draft) -> bool {
    let Some(table) = statement_table(draft) else { return false };
    let wide = expression(rng, &table, Wanted::any(ExpressionType::Bool), 8);
    with(condition_slot(&mut draft.statement.tree), |condition| *condition = Some(wide))
}

fn condition_of_another_type(rng: &mut Rng, draft: &mut Draft) -> bool {
    let Some(table) = statement_table(draft) else { return false };
    let data_type = *rng.pick(&[ExpressionType::Int, ExpressionType::Text, ExpressionType::Null]);
    let other = expression(rng, &table, Wanted::any(data_type), 3);
    with(condition_slot(&mut draft.statement.tree), |condition| *condition = Some(other))
}

// ---- CREATE TABLE ----

fn some_column<'a>(rng: &mut Rng, draft: &'a mut Draft) -> Option<&'a mut ColumnDefinition> {
    let focus = draft.focus;
    some_of(rng, focus, &mut create(draft)?.columns)
}

fn some_option<'a>(rng: &mut Rng, draft: &'a mut Draft) -> Option<&'a mut ColumnOption> {
    let mut all: Vec<_> = create(draft)?.columns.iter_mut().flat_map(|column| column.options.iter_mut()).collect();
    if all.is_empty() { None } else { Some(all.swap_remove(rng.below(all.len()))) }
}

fn add_option(rng: &mut Rng, draft: &mut Draft, kind: OptionKind) -> bool {
    let place = rng.draw() as usize;
    with(some_column(rng, draft), |column| {
        let place = place % (column.options.len() + 1);
        column.options.insert(place, option(kind));
    })
}

/// Two to four things that a column may be refused for, so that their order shows.
fn crowded_column(rng: &mut Rng, draft: &mut Draft) -> bool {
    let Some(mut crowded) = some_column(rng, draft).map(|column| column.clone()) else { return false };
    for _ in 0..rng.between(2, 4) {
        match rng.below(8) {
            0 => crowded.collation = true,
            1..=2 => crowded.data_type = DataType::Other,
            _ => {
                let place = rng.below(crowded.options.len() + 1);
                let named = rng.once_in(8);
                crowded.options.insert(place, ColumnOption { named, kind: *rng.pick(&OptionKind::ALL) });
            }
        }
    }
    with(some_column(rng, draft), |column| *column = ColumnDefinition { name: column.name.clone(), ..crowded })
}

fn create_existing(rng: &mut Rng, draft: &mut Draft) -> bool {
    if draft.catalogue.tables.is_empty() {
        return false;
    }
    let name = rng.pick(&draft.catalogue.tables).name.clone();
    let name = ObjectName::One(spell(rng, &name));
    with(create(draft), |create| create.name = name)
}

fn repeated_column(rng: &mut Rng, draft: &mut Draft) -> bool {
    let Some(create) = create(draft).filter(|create| !create.columns.is_empty()) else { return false };
    let name = canonical(&rng.pick(&create.columns).name);
    let again = column(rng, &name);
    let place = rng.below(create.columns.len() + 1);
    create.columns.insert(place, again);
    true
}

fn add_constraint(rng: &mut Rng, draft: &mut Draft, constraint: Constraint) -> bool {
    let place = rng.draw() as usize;
    with(create(draft), |create| {
        let place = place % (create.constraints.len() + 1);
        create.constraints.insert(place, constraint);
    })
}

fn another_key(rng: &mut Rng, draft: &mut Draft) -> bool {
    let Some(name) = some_column(rng, draft).map(|column| column.name.clone()) else { return false };
    add_constraint(rng, draft, Constraint::PrimaryKey { features: false, names: vec![name] })
}

fn key_features(rng: &mut Rng, draft: &mut Draft) -> bool {
    if create(draft).is_some_and(|create| create.constraints.is_empty()) {
        another_key(rng, draft);
    }
    with(create(draft), |create| {
        for constraint in &mut create.constraints {
            if let Constraint::PrimaryKey { features, .. } = constraint {
                *features = true;
            }
        }
    })
}

fn no_key(_: &mut Rng, draft: &mut Draft) -> bool {
    with(create(draft), |create| {
        create.constraints.retain(|constraint| matches!(constraint, Constraint::Other));
        for column in &mut create.columns {
            column.options.retain(|option| option.kind != OptionKind::Key);
        }
    })
}

/// Changes the names of the key constraint, and makes one where the key stands on a column.
fn change_key_names(rng: &mut Rng, draft: &mut Draft, change: impl FnOnce(&mut Vec<Name>)) -> bool {
    let found = create(draft).is_some_and(|create| {
        create.constraints.iter().any(|constraint| matches!(constraint, Constraint::PrimaryKey { .. }))
    });
    let made = found || no_key(rng, draft) && another_key(rng, draft);
    if !made {
        return false;
    }
    let names = create(draft).and_then(|create| {
        create.constraints.iter_mut().find_map(|constraint| match constraint {
            Constraint::PrimaryKey { names, .. } => Some(names),
            Constraint::Other => None,
        })
    });
    with(names, change)
}

fn create_lists_at_limit(rng: &mut Rng, draft: &mut Draft) -> bool {
    let target = limits::LIST_ENTRIES + rng.below(2);
    let way = rng.below(4);
    let Some(create) = create(draft).filter(|create| !create.columns.is_empty()) else { return false };
    match way {
        0 => {
            for number in create.columns.len()..target {
                create.columns.push(column(rng, &format!("column{number}")));
            }
        }
        1 => create.columns[0].options.resize(target, option(OptionKind::Key)),
        2 => create.constraints.resize(target, Constraint::Other),
        _ => {
            let name = create.columns[0].name.clone();
            create.constraints.push(Constraint::PrimaryKey { features: false, names: vec![name; target] });
        }
    }
    true
}

// ---- INSERT ----

fn missing_insert_column(rng: &mut Rng, draft: &mut Draft) -> bool {
    let insert = insert(draft).filter(|insert| insert.columns.len() > 1);
    with(insert, |insert| {
        let place = rng.below(insert.columns.len());
        insert.columns.remove(place);
        let rows = insert.source.iter_mut().filter_map(|source| source.values.as_mut());
        for row in rows.flat_map(|values| values.rows.iter_mut()).filter(|row| place < row.len()) {
            row.remove(place);
        }
    })
}

fn some_row<'a>(rng: &mut Rng, draft: &'a mut Draft) -> Option<&'a mut Vec<Expression>> {
    let focus = draft.focus;
    some_of(rng, focus, &mut values(draft)?.rows)
}

fn row_of_another_length(rng: &mut Rng, draft: &mut Draft) -> bool {
    let longer = rng.once_in(2);
    with(some_row(rng, draft), |row| if longer { row.push(Expression::leaf(Node::Null)) } else { drop(row.pop()) })
}

fn change_value(rng: &mut Rng, draft: &mut Draft, make: impl Fn(&mut Rng) -> Expression) -> bool {
    let value = make(rng);
    let place = if rng.once_in(2) { rng.draw() as usize } else { draft.focus };
    with(some_row(rng, draft).filter(|row| !row.is_empty()), |row| {
        let place = place % row.len();
        row[place] = value;
    })
}

fn no_literal(rng: &mut Rng) -> Expression {
    let number = || Expression::leaf(Node::Number("1".to_string()));
    match rng.below(8) {
        0 => Expression::leaf(Node::Name(Name::unquoted("temp"))),
        1 => Expression::unary(Node::Parentheses, number()),
        2 => Expression::unary(Node::Minus, Expression::unary(Node::Minus, number())),
        3 => Expression::unary(Node::Minus, Expression::unary(Node::Parentheses, number())),
        4 => Expression::unary(Node::Not, Expression::leaf(Node::True)),
        5 => Expression::unary(Node::Plus, Expression::leaf(Node::Text("1".to_string()))),
        6 => Expression::leaf(if rng.once_in(2) { Node::OtherLiteral } else { Node::OtherExpression }),
        _ => any_expression(rng),
    }
}

fn rows_at_limit(rng: &mut Rng, draft: &mut Draft) -> bool {
    let target = limits::INSERT_ROWS + rng.below(2);
    let values = values(draft).filter(|values| values.rows.first().is_some_and(|row| row.len() <= 3));
    with(values, |values| {
        let row = values.rows[0].clone();
        values.rows.resize(target, row);
    })
}

fn values_at_limit(rng: &mut Rng, draft: &mut Draft) -> bool {
    let target = limits::LIST_ENTRIES + rng.below(2);
    with(some_row(rng, draft), |row| row.resize(target, Expression::leaf(Node::Null)))
}

/// A table of 64 or 65 columns, all of them given.
fn insert_columns_at_limit(rng: &mut Rng, draft: &mut Draft) -> bool {
    let Some(place) = statement_table_place(draft) else { return false };
    if insert(draft).is_none() {
        return false;
    }
    let target = limits::LIST_ENTRIES + rng.below(2);
    let table = &mut draft.catalogue.tables[place];
    while table.columns.len() < limits::LIST_ENTRIES {
        catalogues::add_column(rng, table);
    }
    let table = table.clone();
    with(insert(draft), |insert| {
        insert.columns = table.columns.iter().map(|column| spell(rng, &column.name)).collect();
        insert.columns.resize(target, Name::unquoted("more"));
        let mut row: Vec<Expression> = table.columns.iter().map(|column| literal(rng, column)).collect();
        row.truncate(limits::LIST_ENTRIES);
        insert.source = Some(Source { clauses: false, values: Some(Values { explicit_row: false, rows: vec![row] }) });
    })
}

// ---- SELECT ----

fn add_item(rng: &mut Rng, draft: &mut Draft, make: impl Fn(&mut Rng) -> Item) -> bool {
    let made = make(rng);
    let place = rng.draw() as usize;
    with(select(draft), |select| {
        let place = place % (select.items.len() + 1);
        select.items.insert(place, made);
    })
}

fn items_at_limit(rng: &mut Rng, draft: &mut Draft) -> bool {
    let Some(table) = statement_table(draft) else { return false };
    let target = limits::LIST_ENTRIES + rng.below(2);
    with(select(draft), |select| {
        while select.items.len() < target {
            select.items.push(item(rng, &table));
        }
    })
}

// ---- UPDATE ----

fn some_assignment<'a>(rng: &mut Rng, draft: &'a mut Draft) -> Option<&'a mut Assignment> {
    let focus = draft.focus;
    some_of(rng, focus, &mut update(draft)?.assignments)
}

fn change_target(rng: &mut Rng, draft: &mut Draft, make: impl Fn(&mut Rng) -> Target) -> bool {
    let target = make(rng);
    with(some_assignment(rng, draft), |assignment| assignment.target = target)
}

fn insert_assignment(rng: &mut Rng, draft: &mut Draft, column: &Column) -> bool {
    let Some(table) = statement_table(draft) else { return false };
    let made = assignment(rng, &table, column);
    with(update(draft), |update| {
        let place = rng.below(update.assignments.len() + 1);
        update.assignments.insert(place, made);
    })
}

/// One of the columns of the statement's table that are, or are not, in its key.
fn some_table_column(rng: &mut Rng, draft: &mut Draft, key: bool) -> Option<Column> {
    update(draft)?;
    let table = statement_table(draft)?;
    let columns: Vec<&Column> = table.columns.iter().filter(|column| table.key.contains(&column.id) == key).collect();
    if columns.is_empty() { None } else { Some((*rng.pick(&columns)).clone()) }
}

fn repeated_target(rng: &mut Rng, draft: &mut Draft) -> bool {
    match some_table_column(rng, draft, false) {
        Some(column) => insert_assignment(rng, draft, &column) && insert_assignment(rng, draft, &column),
        None => false,
    }
}

fn key_target(rng: &mut Rng, draft: &mut Draft) -> bool {
    match some_table_column(rng, draft, true) {
        Some(column) => insert_assignment(rng, draft, &column),
        None => false,
    }
}

fn value_of_another_type(rng: &mut Rng, draft: &mut Draft) -> bool {
    let Some(table) = statement_table(draft) else { return false };
    let data_type = *rng.pick(&ExpressionType::ALL);
    let value = expression(rng, &table, Wanted::any(data_type), 3);
    with(some_assignment(rng, draft), |assignment| assignment.value = value)
}

/// A value of the right type that may be null, for a column that takes no NULL.
fn value_that_may_be_null(rng: &mut Rng, draft: &mut Draft) -> bool {
    let Some(place) = statement_table_place(draft) else { return false };
    if update(draft).is_none() {
        return false;
    }
    let table = &mut draft.catalogue.tables[place];
    let Some(target) = table.columns.iter().find(|column| !column.nullable && !table.key.contains(&column.id)) else {
        return false;
    };
    let target = target.clone();
    let name = "maybe".to_string();
    if table.column(&name).is_none() {
        table.columns.push(Column { id: u64::MAX - 7, data_type: target.data_type, nullable: true, name });
    }
    let column = Expression::leaf(Node::Name(Name::unquoted("maybe")));
    let value = match target.data_type {
        ColumnType::Int => {
            Expression::binary(Node::Binary(Operator::Add), column, Expression::leaf(Node::Number("1".to_string())))
        }
        ColumnType::Bool => Expression::binary(Node::Binary(Operator::And), Expression::leaf(Node::False), column),
        ColumnType::Text => Expression::unary(Node::Parentheses, column),
    };
    let target = Target::Column(ObjectName::One(spell(rng, &target.name)));
    with(update(draft), |update| {
        update.assignments.retain(|assignment| assignment.target != target);
        update.assignments.push(Assignment { target, value });
    })
}

fn assignments_at_limit(rng: &mut Rng, draft: &mut Draft) -> bool {
    let target = limits::LIST_ENTRIES + rng.below(2);
    let Some(column) = some_table_column(rng, draft, false) else { return false };
    while update(draft).is_some_and(|update| update.assignments.len() < target) {
        if !insert_assignment(rng, draft, &column) {
            return false;
        }
    }
    true
}
