//! The statement image: the raw text and the tree.

use crate::bytes::{Field, Log, Read, Reader, Width, Written, bundle, damage, list, marks};
use crate::run::{self, RunNode};
use crate::value::Operator;

const WIDTH: Width = Width::Two;

#[derive(Debug, Clone, PartialEq, Eq)]
pub struct Statement {
    pub raw: String,
    pub tree: Tree,
}

#[derive(Debug, Clone, PartialEq, Eq)]
pub enum Tree {
    CreateTable(CreateTable),
    Insert(Insert),
    Query(Query),
    Update(Update),
    Delete(Delete),
    /// The mark: modes or a modifier.
    Begin {
        modes: bool,
    },
    Commit {
        chain: bool,
    },
    Rollback {
        chain: bool,
        savepoint: bool,
    },
    /// The mark: any modifier or option.
    ShowTables {
        options: bool,
    },
    Other,
}

#[derive(Debug, Clone, PartialEq, Eq)]
pub struct CreateTable {
    pub if_not_exists: bool,
    pub query: bool,
    pub features: bool,
    pub name: ObjectName,
    pub columns: Vec<ColumnDefinition>,
    pub constraints: Vec<Constraint>,
}

#[derive(Debug, Clone, PartialEq, Eq)]
pub struct Insert {
    pub features: bool,
    pub table: ObjectName,
    pub columns: Vec<Name>,
    pub source: Option<Source>,
}

/// The query that an INSERT takes its rows from.
#[derive(Debug, Clone, PartialEq, Eq)]
pub struct Source {
    pub clauses: bool,
    /// None: the body is no VALUES.
    pub values: Option<Values>,
}

#[derive(Debug, Clone, PartialEq, Eq)]
pub struct Values {
    pub explicit_row: bool,
    pub rows: Vec<Vec<Expression>>,
}

#[derive(Debug, Clone, PartialEq, Eq)]
pub struct Query {
    pub clauses: bool,
    /// None: the body is no plain SELECT.
    pub select: Option<Select>,
}

#[derive(Debug, Clone, PartialEq, Eq)]
pub struct Select {
    pub features: bool,
    /// None: other than one entry.
    pub from: Option<Table>,
    pub items: Vec<Item>,
    pub condition: Option<Expression>,
}

#[derive(Debug, Clone, PartialEq, Eq)]
pub enum Item {
    Other,
    Wildcard,
    Name(Name),
}

#[derive(Debug, Clone, PartialEq, Eq)]
pub struct Update {
    pub from: bool,
    pub returning: bool,
    pub conflict: bool,
    pub table: Table,
    pub assignments: Vec<Assignment>,
    pub condition: Option<Expression>,
}

#[derive(Debug, Clone, PartialEq, Eq)]
pub struct Assignment {
    pub target: Target,
    pub value: Expression,
}

#[derive(Debug, Clone, PartialEq, Eq)]
pub enum Target {
    Tuple,
    Column(ObjectName),
}

#[derive(Debug, Clone, PartialEq, Eq)]
pub struct Delete {
    pub tables: bool,
    pub using: bool,
    pub returning: bool,
    pub order_by: bool,
    pub limit: bool,
    pub from: DeleteFrom,
    pub condition: Option<Expression>,
}

#[derive(Debug, Clone, PartialEq, Eq)]
pub enum DeleteFrom {
    WithoutKeyword,
    NotOne,
    Table(Table),
}

#[derive(Debug, Clone, PartialEq, Eq)]
pub struct Table {
    pub joins: bool,
    /// None: the relation is no direct table.
    pub relation: Option<Relation>,
}

#[derive(Debug, Clone, PartialEq, Eq)]
pub struct Relation {
    pub features: bool,
    pub name: ObjectName,
}

#[derive(Debug, Clone, PartialEq, Eq)]
pub struct ColumnDefinition {
    pub collation: bool,
    pub name: Name,
    pub options: Vec<ColumnOption>,
    pub data_type: DataType,
}

#[derive(Debug, Clone, Copy, PartialEq, Eq)]
pub enum DataType {
    Int,
    Text,
    Bool,
    Other,
}

impl DataType {
    pub const ALL: [DataType; 4] = [DataType::Int, DataType::Text, DataType::Bool, DataType::Other];
}

#[derive(Debug, Clone, Copy, PartialEq, Eq)]
pub struct ColumnOption {
    pub named: bool,
    pub kind: OptionKind,
}

#[derive(Debug, Clone, Copy, PartialEq, Eq)]
pub enum OptionKind {
    Null,
    NotNull,
    Key,
    KeyWithCharacteristics,
    Other,
}

impl OptionKind {
    pub const ALL: [OptionKind; 5] =
        [OptionKind::Null, OptionKind::NotNull, OptionKind::Key, OptionKind::KeyWithCharacteristics, OptionKind::Other];
}

#[derive(Debug, Clone, PartialEq, Eq)]
pub enum Constraint {
    Other,
    PrimaryKey { features: bool, names: Vec<Name> },
}

#[derive(Debug, Clone, PartialEq, Eq)]
pub struct Name {
    pub quoted: bool,
    pub text: String,
}

impl Name {
    pub fn unquoted(text: impl Into<String>) -> Self {
        Name { quoted: false, text: text.into() }
    }

    pub fn quoted(text: impl Into<String>) -> Self {
        Name { quoted: true, text: text.into() }
    }
}

#[derive(Debug, Clone, PartialEq, Eq)]
pub enum ObjectName {
    /// Other than one part.
    Other,
    One(Name),
}

/// Nodes with children before parents.
#[derive(Debug, Clone, PartialEq, Eq)]
pub struct Expression {
    pub nodes: Vec<Node>,
}

#[derive(Debug, Clone, PartialEq, Eq)]
pub enum Node {
    Name(Name),
    Number(String),
    Text(String),
    True,
    False,
    Null,
    OtherLiteral,
    OtherExpression,
    Parentheses,
    IsNull,
    IsNotNull,
    Plus,
    Minus,
    Not,
    OtherUnary,
    Binary(Operator),
    OtherBinary,
}

impl Expression {
    pub fn leaf(node: Node) -> Self {
        Expression { nodes: vec![node] }
    }

    pub fn unary(node: Node, operand: Expression) -> Self {
        let mut nodes = operand.nodes;
        nodes.push(node);
        Expression { nodes }
    }

    pub fn binary(node: Node, left: Expression, right: Expression) -> Self {
        let mut nodes = left.nodes;
        nodes.extend(right.nodes);
        nodes.push(node);
        Expression { nodes }
    }

    pub fn depth(&self) -> usize {
        run::depth(&self.nodes)
    }
}

const NODE_KINDS: usize = 30;

impl Node {
    pub fn code(&self) -> u8 {
        match self {
            Node::Name(name) => u8::from(name.quoted),
            Node::Number(_) => 2,
            Node::Text(_) => 3,
            Node::True => 4,
            Node::False => 5,
            Node::Null => 6,
            Node::OtherLiteral => 7,
            Node::OtherExpression => 8,
            Node::Parentheses => 9,
            Node::IsNull => 10,
            Node::IsNotNull => 11,
            Node::Plus => 12,
            Node::Minus => 13,
            Node::Not => 14,
            Node::OtherUnary => 15,
            Node::Binary(operator) => 16 + operator.code(),
            Node::OtherBinary => 29,
        }
    }

    /// The node of a kind that has no content.
    fn plain(code: usize) -> Node {
        match code {
            4 => Node::True,
            5 => Node::False,
            6 => Node::Null,
            7 => Node::OtherLiteral,
            8 => Node::OtherExpression,
            9 => Node::Parentheses,
            10 => Node::IsNull,
            11 => Node::IsNotNull,
            12 => Node::Plus,
            13 => Node::Minus,
            14 => Node::Not,
            15 => Node::OtherUnary,
            29 => Node::OtherBinary,
            _ => Node::Binary(Operator::ALL[code - 16]),
        }
    }
}

impl RunNode for Node {
    const WIDTH: Width = WIDTH;
    const HEAD: usize = 1;

    fn operands(&self) -> usize {
        match self.code() {
            0..=8 => 0,
            9..=15 => 1,
            _ => 2,
        }
    }

    fn head(&self) -> Vec<u8> {
        vec![self.code()]
    }

    fn content(&self) -> Vec<u8> {
        match self {
            Node::Name(Name { text, .. }) | Node::Number(text) | Node::Text(text) => text.clone().into_bytes(),
            _ => Vec::new(),
        }
    }

    fn read(mut head: Reader, mut content: Reader) -> Read<Self> {
        let at = head.at();
        let code = head.number(1, "kind of a node")? as usize;
        let node = match code {
            0 => Node::Name(Name::unquoted(content.text("name")?)),
            1 => Node::Name(Name::quoted(content.text("name")?)),
            2 => Node::Number(content.text("digits")?),
            3 => Node::Text(content.text("string")?),
            4..NODE_KINDS => Node::plain(code),
            _ => return damage(at, format!("{code} is no kind of node, the last is {}", NODE_KINDS - 1)),
        };
        if code >= 4 && !content.is_empty() {
            return damage(content.at(), format!("a node of kind {code} has no content"));
        }
        Ok(node)
    }

    fn label(&self) -> String {
        match self {
            Node::Name(name) if name.quoted => format!("quoted name {:?}", name.text),
            Node::Name(name) => format!("name {:?}", name.text),
            Node::Number(text) => format!("number {text:?}"),
            Node::Text(text) => format!("string {text:?}"),
            Node::True => "TRUE".to_string(),
            Node::False => "FALSE".to_string(),
            Node::Null => "NULL".to_string(),
            Node::OtherLiteral => "other literal".to_string(),
            Node::OtherExpression => "other expression".to_string(),
            Node::Parentheses => "parentheses".to_string(),
            Node::IsNull => "IS NULL".to_string(),
            Node::IsNotNull => "IS NOT NULL".to_string(),
            Node::Plus => "unary +".to_string(),
            Node::Minus => "unary -".to_string(),
            Node::Not => "NOT".to_string(),
            Node::OtherUnary => "other unary operator".to_string(),
            Node::Binary(operator) => operator.sign().to_string(),
            Node::OtherBinary => "other binary operator".to_string(),
        }
    }
}

// ---- encoding ----

impl Statement {
    pub fn encode(&self) -> Written {
        bundle(WIDTH, "statement", &[self.raw.clone().into_bytes(), self.tree.encode()?])
    }
}

impl Tree {
    /// The kind's number.
    pub fn kind(&self) -> u8 {
        match self {
            Tree::CreateTable(_) => 0,
            Tree::Insert(_) => 1,
            Tree::Query(_) => 2,
            Tree::Update(_) => 3,
            Tree::Delete(_) => 4,
            Tree::Begin { .. } => 5,
            Tree::Commit { .. } => 6,
            Tree::Rollback { .. } => 7,
            Tree::ShowTables { .. } => 8,
            Tree::Other => 9,
        }
    }

    /// Every name of the statement.
    pub fn names_mut(&mut self) -> Vec<&mut Name> {
        fn one(name: &mut ObjectName) -> Option<&mut Name> {
            match name {
                ObjectName::One(name) => Some(name),
                ObjectName::Other => None,
            }
        }
        fn in_expression(expression: &mut Expression) -> impl Iterator<Item = &mut Name> {
            expression.nodes.iter_mut().filter_map(|node| match node {
                Node::Name(name) => Some(name),
                _ => None,
            })
        }
        fn of_table(table: &mut Table) -> Option<&mut Name> {
            one(&mut table.relation.as_mut()?.name)
        }
        match self {
            Tree::CreateTable(create) => {
                let columns = create.columns.iter_mut().map(|column| &mut column.name);
                let keys = create.constraints.iter_mut().flat_map(|constraint| match constraint {
                    Constraint::PrimaryKey { names, .. } => names.iter_mut().collect(),
                    Constraint::Other => Vec::new(),
                });
                one(&mut create.name).into_iter().chain(columns).chain(keys).collect()
            }
            Tree::Insert(insert) => {
                let rows = insert.source.iter_mut().filter_map(|source| source.values.as_mut());
                let values = rows.flat_map(|values| values.rows.iter_mut().flatten()).flat_map(in_expression);
                one(&mut insert.table).into_iter().chain(insert.columns.iter_mut()).chain(values).collect()
            }
            Tree::Query(query) => {
                let Some(select) = query.select.as_mut() else { return Vec::new() };
                let items = select.items.iter_mut().filter_map(|item| match item {
                    Item::Name(name) => Some(name),
                    _ => None,
                });
                let condition = select.condition.iter_mut().flat_map(in_expression);
                select.from.as_mut().and_then(of_table).into_iter().chain(items).chain(condition).collect()
            }
            Tree::Update(update) => {
                let assignments = update.assignments.iter_mut().flat_map(|assignment| {
                    let target = match &mut assignment.target {
                        Target::Column(name) => one(name),
                        Target::Tuple => None,
                    };
                    target.into_iter().chain(in_expression(&mut assignment.value))
                });
                let condition = update.condition.iter_mut().flat_map(in_expression);
                of_table(&mut update.table).into_iter().chain(assignments).chain(condition).collect()
            }
            Tree::Delete(delete) => {
                let from = match &mut delete.from {
                    DeleteFrom::Table(table) => of_table(table),
                    _ => None,
                };
                from.into_iter().chain(delete.condition.iter_mut().flat_map(in_expression)).collect()
            }
            _ => Vec::new(),
        }
    }

    fn encode(&self) -> Written {
        let body = match self {
            Tree::CreateTable(create) => create.encode()?,
            Tree::Insert(insert) => insert.encode()?,
            Tree::Query(query) => query.encode()?,
            Tree::Update(update) => update.encode()?,
            Tree::Delete(delete) => delete.encode()?,
            Tree::Begin { modes } => marks(&[*modes]),
            Tree::Commit { chain } => marks(&[*chain]),
            Tree::Rollback { chain, savepoint } => marks(&[*chain, *savepoint]),
            Tree::ShowTables { options } => marks(&[*options]),
            Tree::Other => Vec::new(),
        };
        Ok(behind(&[self.kind()], body))
    }
}

fn behind(head: &[u8], body: Vec<u8>) -> Vec<u8> {
    [head, &body].concat()
}

impl CreateTable {
    fn encode(&self) -> Written {
        let parts = [
            marks(&[self.if_not_exists, self.query, self.features]),
            self.name.encode(),
            list(WIDTH, "columns", &self.columns, ColumnDefinition::encode)?,
            list(WIDTH, "constraints", &self.constraints, Constraint::encode)?,
        ];
        bundle(WIDTH, "CREATE TABLE", &parts)
    }
}

impl ColumnDefinition {
    fn encode(&self) -> Written {
        let parts = [
            marks(&[self.collation]),
            self.name.encode(),
            list(WIDTH, "options", &self.options, |option| Ok(option.encode()))?,
            vec![self.data_type as u8],
        ];
        bundle(WIDTH, "column", &parts)
    }
}

impl ColumnOption {
    fn encode(&self) -> Vec<u8> {
        vec![u8::from(self.named), self.kind as u8]
    }
}

impl Constraint {
    fn encode(&self) -> Written {
        match self {
            Constraint::Other => Ok(vec![0]),
            Constraint::PrimaryKey { features, names } => {
                let names = list(WIDTH, "key names", names, |name| Ok(name.encode()))?;
                Ok(behind(&[1, u8::from(*features)], names))
            }
        }
    }
}

impl Name {
    fn encode(&self) -> Vec<u8> {
        behind(&[u8::from(self.quoted)], self.text.clone().into_bytes())
    }
}

impl ObjectName {
    fn encode(&self) -> Vec<u8> {
        match self {
            ObjectName::Other => vec![0],
            ObjectName::One(name) => behind(&[1], name.encode()),
        }
    }
}

impl Insert {
    fn encode(&self) -> Written {
        let parts = [
            marks(&[self.features]),
            self.table.encode(),
            list(WIDTH, "INSERT columns", &self.columns, |name| Ok(name.encode()))?,
            self.source.as_ref().map_or(Ok(Vec::new()), Source::encode)?,
        ];
        bundle(WIDTH, "INSERT", &parts)
    }
}

impl Source {
    fn encode(&self) -> Written {
        let Some(values) = &self.values else {
            return Ok(vec![u8::from(self.clauses), 0]);
        };
        let rows = list(WIDTH, "rows", &values.rows, |row| list(WIDTH, "row", row, Expression::encode))?;
        Ok(behind(&[u8::from(self.clauses), 1, u8::from(values.explicit_row)], rows))
    }
}

impl Expression {
    fn encode(&self) -> Written {
        run::encode(&self.nodes)
    }
}

fn encode_condition(condition: &Option<Expression>) -> Written {
    condition.as_ref().map_or(Ok(Vec::new()), Expression::encode)
}

impl Query {
    fn encode(&self) -> Written {
        let Some(select) = &self.select else {
            return Ok(vec![u8::from(self.clauses), 0]);
        };
        let parts = [
            marks(&[select.features]),
            select.from.as_ref().map_or(vec![0], |table| behind(&[1], table.encode())),
            list(WIDTH, "items", &select.items, |item| Ok(item.encode()))?,
            encode_condition(&select.condition)?,
        ];
        Ok(behind(&[u8::from(self.clauses), 1], bundle(WIDTH, "SELECT", &parts)?))
    }
}

impl Item {
    fn encode(&self) -> Vec<u8> {
        match self {
            Item::Other => vec![0],
            Item::Wildcard => vec![1],
            Item::Name(name) => behind(&[2], name.encode()),
        }
    }
}

impl Table {
    fn encode(&self) -> Vec<u8> {
        match &self.relation {
            None => vec![u8::from(self.joins), 0],
            Some(relation) => behind(&[u8::from(self.joins), 1, u8::from(relation.features)], relation.name.encode()),
        }
    }
}

impl Update {
    fn encode(&self) -> Written {
        let parts = [
            marks(&[self.from, self.returning, self.conflict]),
            self.table.encode(),
            list(WIDTH, "assignments", &self.assignments, Assignment::encode)?,
            encode_condition(&self.condition)?,
        ];
        bundle(WIDTH, "UPDATE", &parts)
    }
}

impl Assignment {
    fn encode(&self) -> Written {
        let target = match &self.target {
            Target::Tuple => vec![0],
            Target::Column(name) => behind(&[1], name.encode()),
        };
        bundle(WIDTH, "assignment", &[target, self.value.encode()?])
    }
}

impl Delete {
    fn encode(&self) -> Written {
        let from = match &self.from {
            DeleteFrom::WithoutKeyword => vec![0],
            DeleteFrom::NotOne => vec![1],
            DeleteFrom::Table(table) => behind(&[2], table.encode()),
        };
        let parts = [
            marks(&[self.tables, self.using, self.returning, self.order_by, self.limit]),
            from,
            encode_condition(&self.condition)?,
        ];
        bundle(WIDTH, "DELETE", &parts)
    }
}

// ---- decoding ----

pub fn decode(image: &[u8]) -> Read<Statement> {
    let log = Log::off();
    decode_part(Reader::new(image, &log))
}

/// The value, and every field up to its end or to the damage.
pub fn explain(image: &[u8]) -> (Vec<Field>, Read<Statement>) {
    let log = Log::on();
    let value = decode_part(Reader::new(image, &log));
    (log.into_fields(), value)
}

fn decode_part(reader: Reader) -> Read<Statement> {
    let [mut raw, tree] = reader.record(WIDTH, "statement")?;
    Ok(Statement { raw: raw.text("raw text")?, tree: decode_tree(tree)? })
}

const KINDS: [&str; 10] = [
    "CREATE TABLE",
    "INSERT",
    "query",
    "UPDATE",
    "DELETE",
    "BEGIN",
    "COMMIT",
    "ROLLBACK",
    "SHOW TABLES",
    "any other kind",
];

/// A kind's name, by its number.
pub fn kind_name(kind: u8) -> &'static str {
    KINDS[usize::from(kind)]
}

fn decode_tree(mut reader: Reader) -> Read<Tree> {
    let kind = reader.code("kind", &KINDS)?;
    let tree = match kind {
        0 => return Ok(Tree::CreateTable(decode_create_table(reader)?)),
        1 => return Ok(Tree::Insert(decode_insert(reader)?)),
        2 => return Ok(Tree::Query(decode_query(reader)?)),
        3 => return Ok(Tree::Update(decode_update(reader)?)),
        4 => return Ok(Tree::Delete(decode_delete(reader)?)),
        5 => Tree::Begin { modes: reader.mark("mark 1, modes or modifier")? },
        6 => Tree::Commit { chain: reader.mark("mark 1, chain")? },
        7 => Tree::Rollback { chain: reader.mark("mark 1, chain")?, savepoint: reader.mark("mark 2, savepoint")? },
        8 => Tree::ShowTables { options: reader.mark("mark 1, modifiers or options")? },
        _ => Tree::Other,
    };
    reader.finish(KINDS[kind])?;
    Ok(tree)
}

/// Reads one part to its end.
fn whole<'a, T>(mut part: Reader<'a>, what: &str, read: impl FnOnce(&mut Reader<'a>) -> Read<T>) -> Read<T> {
    let value = read(&mut part)?;
    part.finish(what)?;
    Ok(value)
}

fn decode_create_table(reader: Reader) -> Read<CreateTable> {
    let [three_marks, name, columns, constraints] = reader.record(WIDTH, "CREATE TABLE")?;
    let (if_not_exists, query, features) = whole(three_marks, "marks of CREATE TABLE", |marks| {
        Ok((
            marks.mark("mark 1, IF NOT EXISTS")?,
            marks.mark("mark 2, AS query")?,
            marks.mark("mark 3, other features")?,
        ))
    })?;
    Ok(CreateTable {
        if_not_exists,
        query,
        features,
        name: decode_object_name(name, "table name")?,
        columns: columns.list(WIDTH, "columns", "column", decode_column)?,
        constraints: constraints.list(WIDTH, "constraints", "constraint", decode_constraint)?,
    })
}

fn decode_column(reader: Reader) -> Read<ColumnDefinition> {
    let [mark, name, options, data_type] = reader.record(WIDTH, "column")?;
    Ok(ColumnDefinition {
        collation: whole(mark, "mark of a column", |mark| mark.mark("mark 1, collation"))?,
        name: decode_name(name, "column name")?,
        options: options.list(WIDTH, "options", "option", decode_option)?,
        data_type: whole(data_type, "type", |part| {
            Ok(DataType::ALL[part.code("type", &["INT", "TEXT", "BOOL", "any other"])?])
        })?,
    })
}

fn decode_option(reader: Reader) -> Read<ColumnOption> {
    const MEANINGS: [&str; 5] = ["NULL", "NOT NULL", "PRIMARY KEY", "PRIMARY KEY with characteristics", "any other"];
    whole(reader, "option", |part| {
        Ok(ColumnOption { named: part.mark("mark 1, named")?, kind: OptionKind::ALL[part.code("option", &MEANINGS)?] })
    })
}

fn decode_constraint(mut reader: Reader) -> Read<Constraint> {
    if reader.code("constraint", &["no primary key", "PRIMARY KEY"])? == 0 {
        reader.finish("constraint")?;
        return Ok(Constraint::Other);
    }
    let features = reader.mark("mark 1, named or special")?;
    Ok(Constraint::PrimaryKey { features, names: decode_names(reader, "key names")? })
}

fn decode_names(reader: Reader, what: &str) -> Read<Vec<Name>> {
    reader.list(WIDTH, what, "name", |part| decode_name(part, "name"))
}

fn decode_name(mut reader: Reader, what: &str) -> Read<Name> {
    Ok(Name { quoted: reader.mark("quoted")?, text: reader.text(what)? })
}

fn decode_object_name(mut reader: Reader, what: &str) -> Read<ObjectName> {
    if reader.code("object name", &["other than one part", "one part"])? == 0 {
        reader.finish("object name")?;
        return Ok(ObjectName::Other);
    }
    Ok(ObjectName::One(decode_name(reader, what)?))
}

fn decode_insert(reader: Reader) -> Read<Insert> {
    let [mark, table, columns, source] = reader.record(WIDTH, "INSERT")?;
    Ok(Insert {
        features: whole(mark, "mark of INSERT", |mark| mark.mark("mark 1, features"))?,
        table: decode_object_name(table, "table name")?,
        columns: decode_names(columns, "columns")?,
        source: if source.is_empty() { None } else { Some(decode_source(source)?) },
    })
}

fn decode_source(mut reader: Reader) -> Read<Source> {
    let clauses = reader.mark("mark 1, clauses of the source")?;
    if reader.code("source", &["no VALUES", "VALUES"])? == 0 {
        reader.finish("source")?;
        return Ok(Source { clauses, values: None });
    }
    let explicit_row = reader.mark("mark 1, ROW form")?;
    let rows = reader.list(WIDTH, "rows", "row", |row| row.list(WIDTH, "values", "value", decode_expression))?;
    Ok(Source { clauses, values: Some(Values { explicit_row, rows }) })
}

fn decode_expression(reader: Reader) -> Read<Expression> {
    Ok(Expression { nodes: run::decode(reader)? })
}

fn decode_condition(reader: Reader) -> Read<Option<Expression>> {
    if reader.is_empty() {
        return Ok(None);
    }
    reader.inside(|| "condition".to_string(), || decode_expression(reader)).map(Some)
}

fn decode_query(mut reader: Reader) -> Read<Query> {
    let clauses = reader.mark("mark 1, clauses of the query")?;
    if reader.code("body", &["no plain SELECT", "plain SELECT"])? == 0 {
        reader.finish("body of a query")?;
        return Ok(Query { clauses, select: None });
    }
    let [mark, from, items, condition] = reader.record(WIDTH, "SELECT")?;
    let select = Select {
        features: whole(mark, "mark of SELECT", |mark| mark.mark("mark 1, features"))?,
        from: decode_select_from(from)?,
        items: items.list(WIDTH, "items", "item", decode_item)?,
        condition: decode_condition(condition)?,
    };
    Ok(Query { clauses, select: Some(select) })
}

fn decode_select_from(mut reader: Reader) -> Read<Option<Table>> {
    if reader.code("FROM", &["other than one entry", "one entry"])? == 0 {
        reader.finish("FROM")?;
        return Ok(None);
    }
    Ok(Some(decode_table(reader)?))
}

fn decode_item(mut reader: Reader) -> Read<Item> {
    match reader.code("item", &["any other", "plain *", "a name"])? {
        2 => Ok(Item::Name(decode_name(reader, "column name")?)),
        code => {
            reader.finish("item")?;
            Ok(if code == 1 { Item::Wildcard } else { Item::Other })
        }
    }
}

fn decode_table(mut reader: Reader) -> Read<Table> {
    let joins = reader.mark("mark 1, joins")?;
    if reader.code("relation", &["no direct table", "a direct table"])? == 0 {
        reader.finish("table")?;
        return Ok(Table { joins, relation: None });
    }
    let features = reader.mark("mark 2, alias or other features")?;
    let name = decode_object_name(reader, "table name")?;
    Ok(Table { joins, relation: Some(Relation { features, name }) })
}

fn decode_update(reader: Reader) -> Read<Update> {
    let [three_marks, table, assignments, condition] = reader.record(WIDTH, "UPDATE")?;
    let (from, returning, conflict) = whole(three_marks, "marks of UPDATE", |marks| {
        Ok((marks.mark("mark 1, FROM")?, marks.mark("mark 2, RETURNING")?, marks.mark("mark 3, OR")?))
    })?;
    Ok(Update {
        from,
        returning,
        conflict,
        table: decode_table(table)?,
        assignments: assignments.list(WIDTH, "assignments", "assignment", decode_assignment)?,
        condition: decode_condition(condition)?,
    })
}

fn decode_assignment(reader: Reader) -> Read<Assignment> {
    let [target, value] = reader.record(WIDTH, "assignment")?;
    Ok(Assignment { target: decode_target(target)?, value: decode_expression(value)? })
}

fn decode_target(mut reader: Reader) -> Read<Target> {
    if reader.code("target", &["a tuple", "a name"])? == 0 {
        reader.finish("target")?;
        return Ok(Target::Tuple);
    }
    Ok(Target::Column(decode_object_name(reader, "column name")?))
}

fn decode_delete(reader: Reader) -> Read<Delete> {
    let [mut five_marks, from, condition] = reader.record(WIDTH, "DELETE")?;
    let delete = Delete {
        tables: five_marks.mark("mark 1, several tables")?,
        using: five_marks.mark("mark 2, USING")?,
        returning: five_marks.mark("mark 3, RETURNING")?,
        order_by: five_marks.mark("mark 4, ORDER BY")?,
        limit: five_marks.mark("mark 5, LIMIT")?,
        from: decode_delete_from(from)?,
        condition: decode_condition(condition)?,
    };
    five_marks.finish("marks of DELETE")?;
    Ok(delete)
}

fn decode_delete_from(mut reader: Reader) -> Read<DeleteFrom> {
    match reader.code("FROM", &["no keyword FROM", "other than one entry", "one entry"])? {
        2 => Ok(DeleteFrom::Table(decode_table(reader)?)),
        code => {
            reader.finish("FROM")?;
            Ok(if code == 1 { DeleteFrom::NotOne } else { DeleteFrom::WithoutKeyword })
        }
    }
}
