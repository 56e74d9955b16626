//! A statement from SQL text.

use super::Parsed;
use super::expression::{expression, name, object_name, peek_name};
use super::tokens::{Cursor, Kind};
use crate::statement::{
    Assignment, ColumnDefinition, ColumnOption, Constraint, CreateTable, DataType, Delete, DeleteFrom, Expression,
    Insert, Item, Node, OptionKind, Query, Relation, Select, Source, Statement, Table, Target, Tree, Update, Values,
};

/// Reads one statement. Its raw text is `text` without the white space around it, as the original's `parse_one` keeps
/// it.
pub fn statement(text: &str) -> Parsed<Statement> {
    let mut cursor = Cursor::new(text)?;
    while cursor.eat_sign(";") {}
    if cursor.at_end() {
        return cursor.fail("a statement");
    }
    let tree = tree(&mut cursor)?;
    let ended = cursor.at_end() || cursor.is_sign(";");
    if !ended {
        return cursor.fail("the end of the statement");
    }
    while cursor.eat_sign(";") {}
    if !cursor.at_end() {
        return cursor.fail("only one statement");
    }
    Ok(Statement { raw: text.trim().to_string(), tree })
}

fn tree(cursor: &mut Cursor) -> Parsed<Tree> {
    let Kind::Word(word) = cursor.kind().clone() else {
        return query_or_other(cursor);
    };
    match word.to_ascii_uppercase().as_str() {
        "CREATE" => create(cursor),
        "INSERT" | "REPLACE" => insert(cursor),
        "SELECT" | "WITH" | "VALUES" => Ok(Tree::Query(query(cursor)?)),
        "UPDATE" => update(cursor),
        "DELETE" => delete(cursor),
        "BEGIN" => begin(cursor),
        "START" if cursor.is_word_later(1, "TRANSACTION") => begin(cursor),
        "COMMIT" | "END" => commit(cursor),
        "ROLLBACK" => rollback(cursor),
        "SHOW" => show(cursor),
        _ => other(cursor),
    }
}

fn query_or_other(cursor: &mut Cursor) -> Parsed<Tree> {
    if cursor.is_sign("(") { Ok(Tree::Query(query(cursor)?)) } else { other(cursor) }
}

fn other(cursor: &mut Cursor) -> Parsed<Tree> {
    while !cursor.at_end() && !cursor.is_sign(";") {
        cursor.step();
    }
    Ok(Tree::Other)
}

// ---- CREATE TABLE ----

fn create(cursor: &mut Cursor) -> Parsed<Tree> {
    const MODIFIERS: [&str; 8] =
        ["TEMPORARY", "TEMP", "EXTERNAL", "GLOBAL", "LOCAL", "TRANSIENT", "VOLATILE", "UNLOGGED"];
    cursor.step();
    let mut features = cursor.eat_words(&["OR", "REPLACE"]);
    while cursor.eat_any_word(&MODIFIERS) {
        features = true;
    }
    if !cursor.eat_word("TABLE") {
        return other(cursor);
    }
    let if_not_exists = cursor.eat_words(&["IF", "NOT", "EXISTS"]);
    let mut create = CreateTable {
        if_not_exists,
        query: false,
        features,
        name: object_name(cursor)?,
        columns: Vec::new(),
        constraints: Vec::new(),
    };
    if cursor.is_sign("(") {
        cursor.parenthesized(|cursor| table_element(cursor, &mut create))?;
    }
    while !cursor.at_end() && !cursor.is_sign(";") {
        if cursor.is_word("AS") {
            create.query = true;
            cursor.skip_until(&[])?;
        } else {
            create.features = true;
            cursor.skip_one()?;
        }
    }
    Ok(Tree::CreateTable(create))
}

fn table_element(cursor: &mut Cursor, create: &mut CreateTable) -> Parsed<()> {
    let constraint = cursor.is_any_word(&["CONSTRAINT", "CHECK", "FOREIGN", "UNIQUE"])
        || cursor.is_word("PRIMARY") && cursor.is_word_later(1, "KEY");
    if constraint {
        create.constraints.push(table_constraint(cursor)?);
    } else {
        create.columns.push(column(cursor)?);
    }
    Ok(())
}

fn table_constraint(cursor: &mut Cursor) -> Parsed<Constraint> {
    let mut features = cursor.eat_word("CONSTRAINT");
    if features {
        name(cursor)?;
    }
    if !cursor.eat_words(&["PRIMARY", "KEY"]) {
        cursor.skip_entry(&[])?;
        return Ok(Constraint::Other);
    }
    while !cursor.is_sign("(") && !cursor.at_end() {
        features = true;
        cursor.step();
    }
    let names = cursor.parenthesized(name)?;
    while !cursor.is_sign(",") && !cursor.is_sign(")") && !cursor.at_end() {
        features = true;
        cursor.skip_one()?;
    }
    Ok(Constraint::PrimaryKey { features, names })
}

const OPTION_STARTS: [&str; 14] = [
    "CONSTRAINT",
    "NOT",
    "NULL",
    "PRIMARY",
    "UNIQUE",
    "DEFAULT",
    "CHECK",
    "REFERENCES",
    "COMMENT",
    "COLLATE",
    "AUTO_INCREMENT",
    "AUTOINCREMENT",
    "GENERATED",
    "ON",
];

fn column(cursor: &mut Cursor) -> Parsed<ColumnDefinition> {
    let name = name(cursor)?;
    let data_type = data_type(cursor)?;
    let mut column = ColumnDefinition { collation: false, name, options: Vec::new(), data_type };
    while !cursor.is_sign(",") && !cursor.is_sign(")") {
        if cursor.eat_word("COLLATE") {
            object_name(cursor)?;
            column.collation = true;
        } else {
            let option = column_option(cursor)?;
            column.options.push(option);
        }
    }
    Ok(column)
}

fn data_type(cursor: &mut Cursor) -> Parsed<DataType> {
    if cursor.is_sign(",") || cursor.is_sign(")") || cursor.is_any_word(&OPTION_STARTS) {
        return Ok(DataType::Other);
    }
    let Kind::Word(word) = cursor.kind().clone() else {
        return cursor.fail("a type");
    };
    cursor.step();
    let mut data_type = match word.to_ascii_uppercase().as_str() {
        "INT" | "INTEGER" => DataType::Int,
        "TEXT" => DataType::Text,
        "BOOL" | "BOOLEAN" => DataType::Bool,
        _ => DataType::Other,
    };
    if cursor.is_sign("(") {
        cursor.skip_one()?;
        if data_type != DataType::Int {
            data_type = DataType::Other;
        }
    }
    // More words, as in INT UNSIGNED or DOUBLE PRECISION, make it another type.
    while matches!(cursor.kind(), Kind::Word(_)) && !cursor.is_any_word(&OPTION_STARTS) {
        cursor.skip_one()?;
        data_type = DataType::Other;
    }
    Ok(data_type)
}

fn column_option(cursor: &mut Cursor) -> Parsed<ColumnOption> {
    let named = cursor.eat_word("CONSTRAINT");
    if named {
        name(cursor)?;
    }
    let kind = if cursor.eat_words(&["NOT", "NULL"]) {
        OptionKind::NotNull
    } else if cursor.eat_word("NULL") {
        OptionKind::Null
    } else if cursor.eat_words(&["PRIMARY", "KEY"]) {
        if characteristics(cursor) { OptionKind::KeyWithCharacteristics } else { OptionKind::Key }
    } else if cursor.is_any_word(&OPTION_STARTS) {
        other_option(cursor)?;
        OptionKind::Other
    } else {
        return cursor.fail("a column option");
    };
    Ok(ColumnOption { named, kind })
}

fn characteristics(cursor: &mut Cursor) -> bool {
    let mut found = false;
    while cursor.eat_words(&["NOT", "DEFERRABLE"])
        || cursor.eat_word("DEFERRABLE")
        || cursor.eat_words(&["INITIALLY", "DEFERRED"])
        || cursor.eat_words(&["INITIALLY", "IMMEDIATE"])
        || cursor.eat_words(&["NOT", "ENFORCED"])
        || cursor.eat_word("ENFORCED")
    {
        found = true;
    }
    found
}

fn other_option(cursor: &mut Cursor) -> Parsed<()> {
    if cursor.eat_word("DEFAULT") {
        expression(cursor)?;
        return Ok(());
    }
    cursor.skip_one()?;
    cursor.skip_entry(&OPTION_STARTS)
}

// ---- INSERT ----

fn insert(cursor: &mut Cursor) -> Parsed<Tree> {
    let mut features = cursor.is_word("REPLACE");
    cursor.step();
    if cursor.eat_word("OR") {
        cursor.step();
        features = true;
    }
    while cursor.eat_any_word(&["IGNORE", "LOW_PRIORITY", "DELAYED", "HIGH_PRIORITY", "OVERWRITE"]) {
        features = true;
    }
    features |= !cursor.eat_word("INTO");
    features |= cursor.eat_word("TABLE");
    let table = object_name(cursor)?;
    if cursor.eat_word("AS") {
        name(cursor)?;
        features = true;
    }
    let columns = if cursor.is_sign("(") { cursor.parenthesized(name)? } else { Vec::new() };
    if cursor.is_word("PARTITION") {
        cursor.step();
        cursor.skip_one()?;
        features = true;
    }
    let source = source(cursor)?;
    while !cursor.at_end() && !cursor.is_sign(";") {
        if !cursor.is_any_word(&["ON", "RETURNING", "AS"]) {
            return cursor.fail("ON, RETURNING or the end");
        }
        cursor.skip_until(&[])?;
        features = true;
    }
    Ok(Tree::Insert(Insert { features, table, columns, source }))
}

const QUERY_CLAUSES: [&str; 8] = ["ORDER", "LIMIT", "OFFSET", "FETCH", "FOR", "SETTINGS", "FORMAT", "LOCK"];
const INSERT_TAIL: [&str; 2] = ["ON", "RETURNING"];

fn source(cursor: &mut Cursor) -> Parsed<Option<Source>> {
    if cursor.eat_words(&["DEFAULT", "VALUES"]) {
        return Ok(None);
    }
    if cursor.eat_word("VALUES") {
        let values = Some(values(cursor)?);
        return Ok(Some(Source { clauses: query_clauses(cursor, &INSERT_TAIL)?, values }));
    }
    if cursor.is_any_word(&["SELECT", "WITH", "TABLE"]) || cursor.is_sign("(") {
        let with = cursor.is_word("WITH");
        let stops = [&QUERY_CLAUSES[..], &INSERT_TAIL].concat();
        cursor.skip_until(&stops)?;
        return Ok(Some(Source { clauses: query_clauses(cursor, &INSERT_TAIL)? || with, values: None }));
    }
    cursor.fail("VALUES, SELECT or DEFAULT VALUES")
}

/// Passes over the clauses behind the body of a query, and says whether there were any.
fn query_clauses(cursor: &mut Cursor, stops: &[&str]) -> Parsed<bool> {
    let found = cursor.is_any_word(&QUERY_CLAUSES);
    if found {
        cursor.skip_until(stops)?;
    }
    Ok(found)
}

fn values(cursor: &mut Cursor) -> Parsed<Values> {
    let mut values = Values { explicit_row: false, rows: Vec::new() };
    loop {
        values.explicit_row |= cursor.eat_word("ROW");
        if !cursor.is_sign("(") {
            return Ok(values);
        }
        values.rows.push(cursor.parenthesized(expression)?);
        if !cursor.eat_sign(",") {
            return Ok(values);
        }
    }
}

// ---- SELECT ----

const SET_OPERATIONS: [&str; 4] = ["UNION", "EXCEPT", "INTERSECT", "MINUS"];

fn query(cursor: &mut Cursor) -> Parsed<Query> {
    let mut clauses = cursor.is_word("WITH");
    if clauses {
        cursor.skip_until(&["SELECT", "VALUES", "INSERT", "UPDATE"])?;
    }
    let mut body = None;
    if cursor.eat_word("SELECT") {
        body = Some(select(cursor)?);
    }
    if body.is_none() || cursor.is_any_word(&SET_OPERATIONS) {
        body = None;
        cursor.skip_until(&QUERY_CLAUSES)?;
    }
    clauses |= query_clauses(cursor, &[])?;
    Ok(Query { clauses, select: body })
}

const SELECT_FEATURES: [&str; 12] = [
    "INTO",
    "LATERAL",
    "PREWHERE",
    "GROUP",
    "CLUSTER",
    "DISTRIBUTE",
    "SORT",
    "HAVING",
    "WINDOW",
    "QUALIFY",
    "CONNECT",
    "START",
];

fn select(cursor: &mut Cursor) -> Parsed<Select> {
    let mut features = false;
    if cursor.eat_word("DISTINCT") {
        features = true;
        if cursor.eat_word("ON") {
            cursor.skip_one()?;
        }
    }
    cursor.eat_word("ALL");
    if cursor.eat_word("TOP") {
        features = true;
        cursor.skip_one()?;
    }
    let stops = [&QUERY_CLAUSES[..], &SET_OPERATIONS, &SELECT_FEATURES, &["FROM", "WHERE"]].concat();
    let items = if ends_here(cursor, &stops) { Vec::new() } else { items(cursor)? };
    let mut select = Select { features, from: None, items, condition: None };
    while !ends_here(cursor, &[&QUERY_CLAUSES[..], &SET_OPERATIONS].concat()) {
        if cursor.eat_word("FROM") {
            select.from = one_table(cursor)?;
        } else if cursor.eat_word("WHERE") {
            select.condition = Some(expression(cursor)?);
        } else if cursor.is_any_word(&SELECT_FEATURES) {
            select.features = true;
            cursor.step();
            cursor.skip_until(&stops)?;
        } else {
            return cursor.fail("FROM, WHERE or the end");
        }
    }
    Ok(select)
}

fn ends_here(cursor: &Cursor, words: &[&str]) -> bool {
    cursor.at_end() || cursor.is_sign(";") || cursor.is_sign(")") || cursor.is_any_word(words)
}

fn items(cursor: &mut Cursor) -> Parsed<Vec<Item>> {
    let mut items = vec![item(cursor)?];
    while cursor.eat_sign(",") {
        items.push(item(cursor)?);
    }
    Ok(items)
}

fn item(cursor: &mut Cursor) -> Parsed<Item> {
    const WILDCARD_OPTIONS: [&str; 5] = ["ILIKE", "EXCLUDE", "EXCEPT", "REPLACE", "RENAME"];
    if cursor.eat_sign("*") {
        let set_operation = cursor.is_word("EXCEPT") && !cursor.is_sign_later(1, "(");
        if !cursor.is_any_word(&WILDCARD_OPTIONS) || set_operation {
            return Ok(Item::Wildcard);
        }
        cursor.step();
        cursor.skip_one()?;
        return Ok(Item::Other);
    }
    let value = expression(cursor)?;
    let alias = cursor.eat_word("AS") || peek_name(cursor).is_some();
    if alias {
        name(cursor)?;
        return Ok(Item::Other);
    }
    Ok(match value.nodes.as_slice() {
        [Node::Name(name)] => Item::Name(name.clone()),
        _ => Item::Other,
    })
}

/// Tables with commas between: the one, if it is one.
fn one_table(cursor: &mut Cursor) -> Parsed<Option<Table>> {
    let first = table(cursor)?;
    let mut one = true;
    while cursor.eat_sign(",") {
        table(cursor)?;
        one = false;
    }
    Ok(one.then_some(first))
}

fn table(cursor: &mut Cursor) -> Parsed<Table> {
    let relation = relation(cursor)?;
    let mut joins = false;
    while join_starts(cursor) {
        joins = true;
        while !cursor.eat_word("JOIN") {
            cursor.step();
        }
        self::relation(cursor)?;
        if cursor.eat_word("ON") {
            expression(cursor)?;
        } else if cursor.eat_word("USING") {
            cursor.skip_one()?;
        }
    }
    Ok(Table { joins, relation })
}

fn join_starts(cursor: &Cursor) -> bool {
    let starts = cursor.is_any_word(&["JOIN", "INNER", "LEFT", "RIGHT", "FULL", "CROSS", "NATURAL"]);
    starts && (0..4).any(|steps| cursor.is_word_later(steps, "JOIN"))
}

fn relation(cursor: &mut Cursor) -> Parsed<Option<Relation>> {
    let direct = !cursor.is_sign("(") && !cursor.is_any_word(&["LATERAL", "UNNEST", "TABLE"]);
    if !direct {
        while !cursor.is_sign("(") && !cursor.at_end() {
            cursor.step();
        }
        cursor.skip_one()?;
        alias(cursor)?;
        return Ok(None);
    }
    let name = object_name(cursor)?;
    let mut features = false;
    if cursor.is_sign("(") {
        cursor.skip_one()?;
        features = true;
    }
    if cursor.eat_word("PARTITION") {
        cursor.skip_one()?;
        features = true;
    }
    features |= cursor.eat_words(&["WITH", "ORDINALITY"]);
    features |= alias(cursor)?;
    if cursor.eat_word("WITH") {
        cursor.skip_one()?;
        features = true;
    }
    Ok(Some(Relation { features, name }))
}

fn alias(cursor: &mut Cursor) -> Parsed<bool> {
    if !cursor.eat_word("AS") && peek_name(cursor).is_none() {
        return Ok(false);
    }
    name(cursor)?;
    if cursor.is_sign("(") {
        cursor.skip_one()?;
    }
    Ok(true)
}

// ---- UPDATE and DELETE ----

fn update(cursor: &mut Cursor) -> Parsed<Tree> {
    cursor.step();
    let conflict = cursor.eat_word("OR");
    if conflict {
        cursor.step();
    }
    let table = table(cursor)?;
    cursor.expect_word("SET")?;
    let mut update =
        Update { from: false, returning: false, conflict, table, assignments: Vec::new(), condition: None };
    if !ends_here(cursor, &["FROM", "WHERE", "RETURNING"]) {
        update.assignments.push(assignment(cursor)?);
        while cursor.eat_sign(",") {
            update.assignments.push(assignment(cursor)?);
        }
    }
    if cursor.eat_word("FROM") {
        self::table(cursor)?;
        update.from = true;
    }
    update.condition = condition(cursor)?;
    update.returning = returning(cursor)?;
    Ok(Tree::Update(update))
}

fn assignment(cursor: &mut Cursor) -> Parsed<Assignment> {
    let target = if cursor.is_sign("(") {
        cursor.skip_one()?;
        Target::Tuple
    } else {
        Target::Column(object_name(cursor)?)
    };
    cursor.expect_sign("=")?;
    Ok(Assignment { target, value: expression(cursor)? })
}

fn condition(cursor: &mut Cursor) -> Parsed<Option<Expression>> {
    if cursor.eat_word("WHERE") { Ok(Some(expression(cursor)?)) } else { Ok(None) }
}

fn returning(cursor: &mut Cursor) -> Parsed<bool> {
    let found = cursor.eat_word("RETURNING");
    if found {
        items(cursor)?;
    }
    Ok(found)
}

fn delete(cursor: &mut Cursor) -> Parsed<Tree> {
    cursor.step();
    let mut tables = false;
    if cursor.eat_sign("{") {
        cursor.expect_word("tables")?;
        cursor.expect_sign("}")?;
        tables = true;
    }
    let (several, from) = delete_from(cursor)?;
    let mut delete = Delete {
        tables: tables || several,
        using: cursor.eat_word("USING"),
        returning: false,
        order_by: false,
        limit: false,
        from,
        condition: None,
    };
    if delete.using {
        one_table(cursor)?;
    }
    delete.condition = condition(cursor)?;
    delete.returning = returning(cursor)?;
    delete.order_by = cursor.eat_words(&["ORDER", "BY"]);
    if delete.order_by {
        cursor.skip_until(&["LIMIT"])?;
    }
    delete.limit = cursor.eat_word("LIMIT");
    if delete.limit {
        expression(cursor)?;
    }
    Ok(Tree::Delete(delete))
}

/// Whether tables stand before FROM, and what stands behind it.
fn delete_from(cursor: &mut Cursor) -> Parsed<(bool, DeleteFrom)> {
    if cursor.eat_word("FROM") {
        return Ok((false, delete_target(cursor)?));
    }
    one_table(cursor)?;
    if cursor.eat_word("FROM") {
        return Ok((true, delete_target(cursor)?));
    }
    Ok((false, DeleteFrom::WithoutKeyword))
}

fn delete_target(cursor: &mut Cursor) -> Parsed<DeleteFrom> {
    Ok(one_table(cursor)?.map_or(DeleteFrom::NotOne, DeleteFrom::Table))
}

// ---- transactions and SHOW ----

fn begin(cursor: &mut Cursor) -> Parsed<Tree> {
    cursor.step();
    let mut modes = cursor.eat_any_word(&["DEFERRED", "IMMEDIATE", "EXCLUSIVE", "TRY", "CATCH"]);
    cursor.eat_any_word(&["TRANSACTION", "WORK"]);
    if !ends_here(cursor, &[]) {
        modes = true;
        cursor.skip_until(&[])?;
    }
    Ok(Tree::Begin { modes })
}

fn commit(cursor: &mut Cursor) -> Parsed<Tree> {
    cursor.step();
    cursor.eat_any_word(&["TRANSACTION", "WORK"]);
    Ok(Tree::Commit { chain: chain(cursor)? })
}

fn chain(cursor: &mut Cursor) -> Parsed<bool> {
    if !cursor.eat_word("AND") {
        return Ok(false);
    }
    let chain = !cursor.eat_word("NO");
    cursor.expect_word("CHAIN")?;
    Ok(chain)
}

fn rollback(cursor: &mut Cursor) -> Parsed<Tree> {
    cursor.step();
    cursor.eat_any_word(&["TRANSACTION", "WORK"]);
    let chain = chain(cursor)?;
    let savepoint = cursor.eat_word("TO");
    if savepoint {
        cursor.eat_word("SAVEPOINT");
        name(cursor)?;
    }
    Ok(Tree::Rollback { chain, savepoint })
}

fn show(cursor: &mut Cursor) -> Parsed<Tree> {
    cursor.step();
    let mut options = false;
    while cursor.eat_any_word(&["TERSE", "EXTENDED", "FULL", "EXTERNAL"]) {
        options = true;
    }
    if !cursor.eat_word("TABLES") {
        return other(cursor);
    }
    if !ends_here(cursor, &[]) {
        options = true;
        cursor.skip_until(&[])?;
    }
    Ok(Tree::ShowTables { options })
}
