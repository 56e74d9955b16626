//! From images back to the values that the Rust works on.
//!
//! A mark stands for many fields; any one of them sets it. Which one is left to a `Choice`, so that a long run sets
//! each of them some time.

use std::sync::Arc;

use images::statement as image;
use images::value::{ColumnType, ExpressionType, Operator, Value as ImageValue};
use images::{bound as image_bound, catalogue as image_catalogue};
use ragnordb_catalog::{Catalog, ColumnSchema, TableSchema};
use ragnordb_common::catalog_codec::DataType as CatalogType;
use ragnordb_common::codec::Value as BoundValue;
use ragnordb_common::ids::{ColumnId, TableId};
use sqlparser::ast::*;

use crate::bound::{
    BoundAssignment, BoundBinaryOperator, BoundColumnRef, BoundCreateTable, BoundDelete, BoundExpr, BoundExprKind,
    BoundInsert, BoundSelect, BoundStatement, BoundTableRef, BoundUnaryOperator, BoundUpdate,
    ExpressionType as BoundType,
};
use crate::parser;

/// Picks one of several ways to say the same thing.
pub struct Choice {
    state: u64,
}

impl Choice {
    pub fn new(seed: u64) -> Self {
        Choice { state: seed }
    }

    fn of(&mut self, ways: u64) -> u64 {
        self.state = self.state.wrapping_mul(6364136223846793005).wrapping_add(1442695040888963407);
        (self.state >> 33) % ways
    }
}

/// A catalogue that holds whatever tables it is given, also those that the original's own would not install.
pub struct PlainCatalog {
    tables: Vec<Arc<TableSchema>>,
}

impl PlainCatalog {
    pub fn new(tables: Vec<TableSchema>) -> Self {
        PlainCatalog { tables: tables.into_iter().map(Arc::new).collect() }
    }
}

impl Catalog for PlainCatalog {
    fn table_by_name(&self, name: &str) -> Option<Arc<TableSchema>> {
        self.tables.iter().find(|table| table.name == name).cloned()
    }

    fn table_by_id(&self, id: TableId) -> Option<Arc<TableSchema>> {
        self.tables.iter().find(|table| table.id == id).cloned()
    }

    fn list_tables(&self) -> Vec<Arc<TableSchema>> {
        let mut tables = self.tables.clone();
        tables.sort_by_key(|table| table.id);
        tables
    }
}

// ---- catalogues ----

pub fn tables(catalogue: &image_catalogue::Catalogue) -> Vec<TableSchema> {
    catalogue.tables.iter().map(table_schema).collect()
}

pub fn catalog(catalogue: &image_catalogue::Catalogue) -> PlainCatalog {
    PlainCatalog::new(tables(catalogue))
}

fn table_schema(table: &image_catalogue::Table) -> TableSchema {
    TableSchema {
        id: TableId(table.id),
        name: table.name.clone(),
        columns: table.columns.iter().map(column_schema).collect(),
        primary_key_column_ids: table.key.iter().map(|id| ColumnId(*id)).collect(),
        schema_version: table.version,
        tablet_count: table.tablets,
    }
}

fn column_schema(column: &image_catalogue::Column) -> ColumnSchema {
    ColumnSchema {
        id: ColumnId(column.id),
        name: column.name.clone(),
        ty: column_type(column.data_type),
        nullable: column.nullable,
    }
}

fn column_type(data_type: ColumnType) -> CatalogType {
    match data_type {
        ColumnType::Int => CatalogType::Int,
        ColumnType::Text => CatalogType::Text,
        ColumnType::Bool => CatalogType::Bool,
    }
}

// ---- statements ----

/// A statement whose image is that of `statement`. Its expressions must be within the limit of depth.
pub fn statement(statement: &image::Statement, choice: &mut Choice) -> parser::Statement {
    parser::Statement { raw: statement.raw.clone(), ast: Maker { choice }.tree(&statement.tree) }
}

struct Maker<'a> {
    choice: &'a mut Choice,
}

impl Maker<'_> {
    fn tree(&mut self, tree: &image::Tree) -> Statement {
        match tree {
            image::Tree::CreateTable(create) => Statement::CreateTable(self.create_table(create)),
            image::Tree::Insert(insert) => Statement::Insert(self.insert(insert)),
            image::Tree::Query(query) => Statement::Query(Box::new(self.query(query))),
            image::Tree::Update(update) => self.update(update),
            image::Tree::Delete(delete) => Statement::Delete(self.delete(delete)),
            image::Tree::Begin { modes } => self.begin(*modes),
            image::Tree::Commit { chain } => Statement::Commit { chain: *chain },
            image::Tree::Rollback { chain, savepoint } => {
                Statement::Rollback { chain: *chain, savepoint: savepoint.then(|| Ident::new("s")) }
            }
            image::Tree::ShowTables { options } => self.show_tables(*options),
            image::Tree::Other => Statement::ShowVariable { variable: vec![Ident::new("TRANSACTIONS")] },
        }
    }

    fn begin(&mut self, marked: bool) -> Statement {
        let way = if marked { 1 + self.choice.of(2) } else { 0 };
        Statement::StartTransaction {
            modes: if way == 1 { vec![TransactionMode::ReadOnly] } else { Vec::new() },
            begin: self.choice.of(2) == 0,
            modifier: (way == 2).then_some(TransactionModifier::Immediate),
        }
    }

    fn show_tables(&mut self, marked: bool) -> Statement {
        let way = if marked { 1 + self.choice.of(10) } else { 0 };
        Statement::ShowTables {
            terse: way == 1,
            history: way == 2,
            extended: way == 3,
            full: way == 4,
            external: way == 5,
            show_options: ShowStatementOptions {
                show_in: (way == 6).then_some(Unseen),
                starts_with: (way == 7).then_some(Value::Null),
                limit: (way == 8).then_some(Expr::Wildcard),
                limit_from: (way == 9).then_some(Value::Null),
                filter_position: (way == 10).then_some(Unseen),
            },
        }
    }

    fn create_table(&mut self, create: &image::CreateTable) -> CreateTable {
        let mut made = CreateTable {
            if_not_exists: create.if_not_exists,
            query: create.query.then(|| Box::new(some_query())),
            columns: create.columns.iter().map(|column| self.column(column)).collect(),
            constraints: create.constraints.iter().map(|constraint| self.constraint(constraint)).collect(),
            // The real parser leaves an empty format even where none was written.
            hive_formats: (self.choice.of(2) == 0).then(HiveFormat::default),
            ..plain_create_table(self.object_name(&create.name))
        };
        if create.features {
            self.set_create_feature(&mut made);
        }
        made
    }

    fn set_create_feature(&mut self, made: &mut CreateTable) {
        let hive = |format: HiveFormat| Some(format);
        match self.choice.of(41) {
            0 => made.or_replace = true,
            1 => made.temporary = true,
            2 => made.external = true,
            3 => made.global = Some(false),
            4 => made.transient = true,
            5 => made.volatile = true,
            6 => made.hive_distribution = HiveDistributionStyle::PARTITIONED { columns: Vec::new() },
            7 => made.hive_formats = hive(HiveFormat { row_format: Some(Unseen), ..HiveFormat::default() }),
            8 => made.hive_formats = hive(HiveFormat { serde_properties: Some(Vec::new()), ..HiveFormat::default() }),
            9 => made.hive_formats = hive(HiveFormat { storage: Some(Unseen), ..HiveFormat::default() }),
            10 => made.hive_formats = hive(HiveFormat { location: Some(String::new()), ..HiveFormat::default() }),
            11 => made.table_properties = vec![Unseen],
            12 => made.with_options = vec![Unseen],
            13 => made.file_format = Some(Unseen),
            14 => made.location = Some(String::new()),
            15 => made.without_rowid = true,
            16 => made.like = Some(ObjectName(Vec::new())),
            17 => made.clone = Some(ObjectName(Vec::new())),
            18 => made.engine = Some(Unseen),
            19 => made.comment = Some(Unseen),
            20 => made.auto_increment_offset = Some(0),
            21 => made.default_charset = Some(String::new()),
            22 => made.collation = Some(String::new()),
            23 => made.on_commit = Some(Unseen),
            24 => made.on_cluster = Some(Ident::new("c")),
            25 => made.primary_key = Some(Box::new(Expr::Wildcard)),
            26 => made.order_by = Some(Unseen),
            27 => made.partition_by = Some(Box::new(Expr::Wildcard)),
            28 => made.cluster_by = Some(Unseen),
            29 => made.clustered_by = Some(Unseen),
            30 => made.options = Some(Vec::new()),
            31 => made.strict = true,
            32 => made.copy_grants = true,
            33 => made.enable_schema_evolution = Some(false),
            34 => made.change_tracking = Some(false),
            35 => made.data_retention_time_in_days = Some(0),
            36 => made.max_data_extension_time_in_days = Some(0),
            37 => made.default_ddl_collation = Some(String::new()),
            38 => made.with_aggregation_policy = Some(ObjectName(Vec::new())),
            39 => made.with_row_access_policy = Some(Unseen),
            _ => made.with_tags = Some(Vec::new()),
        }
    }

    fn column(&mut self, column: &image::ColumnDefinition) -> ColumnDef {
        let length = (self.choice.of(2) == 0).then_some(11);
        let second = self.choice.of(2) == 0;
        ColumnDef {
            name: name(&column.name),
            data_type: match column.data_type {
                image::DataType::Int if second => DataType::Integer(length),
                image::DataType::Int => DataType::Int(length),
                image::DataType::Text => DataType::Text,
                image::DataType::Bool if second => DataType::Boolean,
                image::DataType::Bool => DataType::Bool,
                image::DataType::Other => self.other_type(length),
            },
            collation: column.collation.then(|| ObjectName(vec![Ident::new("c")])),
            options: column.options.iter().map(|option| self.option(option)).collect(),
        }
    }

    fn other_type(&mut self, length: Option<u64>) -> DataType {
        match self.choice.of(3) {
            0 => DataType::BigInt(length),
            1 => DataType::Varchar(length),
            _ => DataType::Date,
        }
    }

    fn option(&mut self, option: &image::ColumnOption) -> ColumnOptionDef {
        let key = |characteristics| ColumnOption::Unique { is_primary: true, characteristics };
        ColumnOptionDef {
            name: option.named.then(|| Ident::new("c")),
            option: match option.kind {
                image::OptionKind::Null => ColumnOption::Null,
                image::OptionKind::NotNull => ColumnOption::NotNull,
                image::OptionKind::Key => key(None),
                image::OptionKind::KeyWithCharacteristics => key(Some(ConstraintCharacteristics::default())),
                image::OptionKind::Other => self.other_option(),
            },
        }
    }

    fn other_option(&mut self) -> ColumnOption {
        let characteristics = Some(ConstraintCharacteristics::default());
        match self.choice.of(4) {
            0 => ColumnOption::Default(Expr::Wildcard),
            1 => ColumnOption::Unique { is_primary: false, characteristics: None },
            2 => ColumnOption::Unique { is_primary: false, characteristics },
            _ => ColumnOption::Comment(String::new()),
        }
    }

    fn constraint(&mut self, constraint: &image::Constraint) -> TableConstraint {
        match constraint {
            image::Constraint::Other => TableConstraint::Check { name: None, expr: Box::new(Expr::Wildcard) },
            image::Constraint::PrimaryKey { features, names } => {
                let way = if *features { 1 + self.choice.of(5) } else { 0 };
                TableConstraint::PrimaryKey {
                    name: (way == 1).then(|| Ident::new("k")),
                    index_name: (way == 2).then(|| Ident::new("i")),
                    index_type: (way == 3).then_some(IndexType::BTree),
                    columns: names.iter().map(name).collect(),
                    index_options: if way == 4 { vec![IndexOption::Using(IndexType::Hash)] } else { Vec::new() },
                    characteristics: (way == 5).then(ConstraintCharacteristics::default),
                }
            }
        }
    }

    fn object_name(&mut self, object: &image::ObjectName) -> ObjectName {
        match object {
            image::ObjectName::One(one) => ObjectName(vec![name(one)]),
            image::ObjectName::Other => {
                let parts = [0, 2, 3][self.choice.of(3) as usize];
                ObjectName((0..parts).map(|_| Ident::new("part")).collect())
            }
        }
    }

    fn insert(&mut self, insert: &image::Insert) -> Insert {
        let way = if insert.features { 1 + self.choice.of(13) } else { 0 };
        Insert {
            or: (way == 1).then_some(SqliteOnConflict::Replace),
            ignore: way == 2,
            into: way != 3,
            table_name: self.object_name(&insert.table),
            table_alias: (way == 4).then(|| Ident::new("a")),
            columns: insert.columns.iter().map(name).collect(),
            overwrite: way == 5,
            source: insert.source.as_ref().map(|source| Box::new(self.source(source))),
            partitioned: (way == 6).then(Vec::new),
            after_columns: if way == 7 { vec![Ident::new("c")] } else { Vec::new() },
            table: way == 8,
            on: (way == 9).then_some(Unseen),
            returning: (way == 10).then(Vec::new),
            replace_into: way == 11,
            priority: (way == 12).then_some(Unseen),
            insert_alias: (way == 13).then_some(Unseen),
        }
    }

    fn source(&mut self, source: &image::Source) -> Query {
        let body = match &source.values {
            None => SetExpr::Select(Box::new(plain_select())),
            Some(values) => SetExpr::Values(Values {
                explicit_row: values.explicit_row,
                rows: values.rows.iter().map(|row| row.iter().map(|value| self.expression(value)).collect()).collect(),
            }),
        };
        self.query_around(body, source.clauses)
    }

    fn query_around(&mut self, body: SetExpr, clauses: bool) -> Query {
        let way = if clauses { 1 + self.choice.of(10) } else { 0 };
        Query {
            with: (way == 1).then_some(Unseen),
            body: Box::new(body),
            order_by: (way == 2).then_some(Unseen),
            limit: (way == 3).then_some(Expr::Wildcard),
            limit_by: if way == 4 { vec![Expr::Wildcard] } else { Vec::new() },
            offset: (way == 5).then_some(Unseen),
            fetch: (way == 6).then_some(Unseen),
            locks: if way == 7 { vec![Unseen] } else { Vec::new() },
            for_clause: (way == 8).then_some(Unseen),
            settings: (way == 9).then(Vec::new),
            format_clause: (way == 10).then_some(Unseen),
        }
    }

    fn query(&mut self, query: &image::Query) -> Query {
        let body = match &query.select {
            Some(select) => SetExpr::Select(Box::new(self.select(select))),
            None if self.choice.of(2) == 0 => SetExpr::Query(Box::new(some_query())),
            None => SetExpr::Values(Values { explicit_row: false, rows: Vec::new() }),
        };
        self.query_around(body, query.clauses)
    }

    fn select(&mut self, select: &image::Select) -> Select {
        let mut made = Select {
            projection: select.items.iter().map(|item| self.item(item)).collect(),
            from: match &select.from {
                Some(table) => vec![self.table(table)],
                None => self.other_than_one_table(),
            },
            selection: select.condition.as_ref().map(|condition| self.expression(condition)),
            ..plain_select()
        };
        if select.features {
            self.set_select_feature(&mut made);
        }
        made
    }

    fn set_select_feature(&mut self, made: &mut Select) {
        match self.choice.of(18) {
            0 => made.distinct = Some(Unseen),
            1 => made.top = Some(Unseen),
            2 => made.top_before_distinct = true,
            3 => made.into = Some(Unseen),
            4 => made.lateral_views = vec![Unseen],
            5 => made.prewhere = Some(Expr::Wildcard),
            6 => made.group_by = GroupByExpr::All(Vec::new()),
            7 => made.group_by = GroupByExpr::Expressions(vec![Expr::Wildcard], Vec::new()),
            8 => made.group_by = GroupByExpr::Expressions(Vec::new(), vec![Unseen]),
            9 => made.cluster_by = vec![Expr::Wildcard],
            10 => made.distribute_by = vec![Expr::Wildcard],
            11 => made.sort_by = vec![Expr::Wildcard],
            12 => made.having = Some(Expr::Wildcard),
            13 => made.named_window = vec![Unseen],
            14 => made.qualify = Some(Expr::Wildcard),
            15 => made.window_before_qualify = true,
            16 => made.value_table_mode = Some(Unseen),
            _ => made.connect_by = Some(Unseen),
        }
    }

    fn item(&mut self, item: &image::Item) -> SelectItem {
        match item {
            image::Item::Wildcard => SelectItem::Wildcard(WildcardAdditionalOptions::default()),
            image::Item::Name(one) => SelectItem::UnnamedExpr(Expr::Identifier(name(one))),
            image::Item::Other => self.other_item(),
        }
    }

    fn other_item(&mut self) -> SelectItem {
        let plain = WildcardAdditionalOptions::default;
        match self.choice.of(8) {
            0 => SelectItem::Wildcard(WildcardAdditionalOptions { opt_ilike: Some(Unseen), ..plain() }),
            1 => SelectItem::Wildcard(WildcardAdditionalOptions { opt_exclude: Some(Unseen), ..plain() }),
            2 => SelectItem::Wildcard(WildcardAdditionalOptions { opt_except: Some(Unseen), ..plain() }),
            3 => SelectItem::Wildcard(WildcardAdditionalOptions { opt_replace: Some(Unseen), ..plain() }),
            4 => SelectItem::Wildcard(WildcardAdditionalOptions { opt_rename: Some(Unseen), ..plain() }),
            5 => SelectItem::QualifiedWildcard(ObjectName(vec![Ident::new("t")]), plain()),
            6 => SelectItem::ExprWithAlias { expr: Expr::Wildcard, alias: Ident::new("a") },
            _ => SelectItem::UnnamedExpr(Expr::Value(Value::Null)),
        }
    }

    fn other_than_one_table(&mut self) -> Vec<TableWithJoins> {
        let one = || TableWithJoins { relation: derived(), joins: Vec::new() };
        if self.choice.of(2) == 0 { Vec::new() } else { vec![one(), one()] }
    }

    fn table(&mut self, table: &image::Table) -> TableWithJoins {
        let relation = match &table.relation {
            None => derived(),
            Some(relation) => {
                let way = if relation.features { 1 + self.choice.of(7) } else { 0 };
                TableFactor::Table {
                    name: self.object_name(&relation.name),
                    alias: (way == 1).then_some(Unseen),
                    args: (way == 2).then_some(Unseen),
                    with_hints: if way == 3 { vec![Expr::Wildcard] } else { Vec::new() },
                    version: (way == 4).then_some(Unseen),
                    with_ordinality: way == 5,
                    partitions: if way == 6 { vec![Ident::new("p")] } else { Vec::new() },
                    json_path: (way == 7).then_some(Unseen),
                }
            }
        };
        TableWithJoins { relation, joins: if table.joins { vec![Unseen] } else { Vec::new() } }
    }

    fn update(&mut self, update: &image::Update) -> Statement {
        let plain_table = || TableWithJoins { relation: derived(), joins: Vec::new() };
        Statement::Update {
            table: self.table(&update.table),
            assignments: update.assignments.iter().map(|assignment| self.assignment(assignment)).collect(),
            from: update.from.then(plain_table),
            selection: update.condition.as_ref().map(|condition| self.expression(condition)),
            returning: update.returning.then(Vec::new),
            or: update.conflict.then_some(SqliteOnConflict::Ignore),
        }
    }

    fn assignment(&mut self, assignment: &image::Assignment) -> Assignment {
        Assignment {
            target: match &assignment.target {
                image::Target::Tuple => AssignmentTarget::Tuple(Vec::new()),
                image::Target::Column(column) => AssignmentTarget::ColumnName(self.object_name(column)),
            },
            value: self.expression(&assignment.value),
        }
    }

    fn delete(&mut self, delete: &image::Delete) -> Delete {
        Delete {
            tables: if delete.tables { vec![ObjectName(Vec::new())] } else { Vec::new() },
            from: match &delete.from {
                image::DeleteFrom::WithoutKeyword => FromTable::WithoutKeyword(Vec::new()),
                image::DeleteFrom::NotOne => FromTable::WithFromKeyword(self.other_than_one_table()),
                image::DeleteFrom::Table(table) => FromTable::WithFromKeyword(vec![self.table(table)]),
            },
            using: delete.using.then(Vec::new),
            selection: delete.condition.as_ref().map(|condition| self.expression(condition)),
            returning: delete.returning.then(Vec::new),
            order_by: if delete.order_by { vec![Unseen] } else { Vec::new() },
            limit: delete.limit.then_some(Expr::Wildcard),
        }
    }

    /// Builds the tree bottom up: an operand waits until its parent comes.
    fn expression(&mut self, expression: &image::Expression) -> Expr {
        let mut waiting: Vec<Expr> = Vec::new();
        for node in &expression.nodes {
            let made = self.node(node, &mut waiting);
            waiting.push(made);
        }
        waiting.pop().expect("an expression has a root")
    }

    fn node(&mut self, node: &image::Node, waiting: &mut Vec<Expr>) -> Expr {
        match node {
            image::Node::Name(one) => Expr::Identifier(name(one)),
            image::Node::Number(text) => Expr::Value(Value::Number(text.clone(), self.choice.of(2) == 0)),
            image::Node::Text(text) => Expr::Value(Value::SingleQuotedString(text.clone())),
            image::Node::True => Expr::Value(Value::Boolean(true)),
            image::Node::False => Expr::Value(Value::Boolean(false)),
            image::Node::Null => Expr::Value(Value::Null),
            image::Node::OtherLiteral => Expr::Value(self.other_literal()),
            image::Node::OtherExpression => self.other_expression(),
            image::Node::Parentheses => Expr::Nested(take(waiting)),
            image::Node::IsNull => Expr::IsNull(take(waiting)),
            image::Node::IsNotNull => Expr::IsNotNull(take(waiting)),
            image::Node::Plus => Expr::UnaryOp { op: UnaryOperator::Plus, expr: take(waiting) },
            image::Node::Minus => Expr::UnaryOp { op: UnaryOperator::Minus, expr: take(waiting) },
            image::Node::Not => Expr::UnaryOp { op: UnaryOperator::Not, expr: take(waiting) },
            image::Node::OtherUnary => {
                let op = if self.choice.of(2) == 0 { UnaryOperator::PGBitwiseNot } else { UnaryOperator::PGAbs };
                Expr::UnaryOp { op, expr: take(waiting) }
            }
            image::Node::Binary(operator) => binary(binary_operator(*operator), waiting),
            image::Node::OtherBinary => {
                let others = [BinaryOperator::StringConcat, BinaryOperator::Spaceship, BinaryOperator::Xor];
                binary(others[self.choice.of(3) as usize], waiting)
            }
        }
    }

    fn other_literal(&mut self) -> Value {
        match self.choice.of(3) {
            0 => Value::DoubleQuotedString("d".to_string()),
            1 => Value::HexStringLiteral("00".to_string()),
            _ => Value::Placeholder("?".to_string()),
        }
    }

    fn other_expression(&mut self) -> Expr {
        match self.choice.of(3) {
            0 => Expr::CompoundIdentifier(vec![Ident::new("t"), Ident::new("c")]),
            1 => Expr::IsTrue(Box::new(Expr::Value(Value::Null))),
            _ => Expr::Wildcard,
        }
    }
}

fn take(waiting: &mut Vec<Expr>) -> Box<Expr> {
    Box::new(waiting.pop().expect("operands come before their operator"))
}

fn binary(op: BinaryOperator, waiting: &mut Vec<Expr>) -> Expr {
    let right = take(waiting);
    let left = take(waiting);
    Expr::BinaryOp { left, op, right }
}

fn binary_operator(operator: Operator) -> BinaryOperator {
    match operator {
        Operator::Add => BinaryOperator::Plus,
        Operator::Subtract => BinaryOperator::Minus,
        Operator::Multiply => BinaryOperator::Multiply,
        Operator::Divide => BinaryOperator::Divide,
        Operator::Modulo => BinaryOperator::Modulo,
        Operator::Equal => BinaryOperator::Eq,
        Operator::NotEqual => BinaryOperator::NotEq,
        Operator::Greater => BinaryOperator::Gt,
        Operator::GreaterOrEqual => BinaryOperator::GtEq,
        Operator::Less => BinaryOperator::Lt,
        Operator::LessOrEqual => BinaryOperator::LtEq,
        Operator::And => BinaryOperator::And,
        Operator::Or => BinaryOperator::Or,
    }
}

fn name(one: &image::Name) -> Ident {
    if one.quoted { Ident::with_quote('"', one.text.clone()) } else { Ident::new(one.text.clone()) }
}

fn derived() -> TableFactor {
    TableFactor::Derived { lateral: false, subquery: Box::new(some_query()), alias: None }
}

fn some_query() -> Query {
    Query {
        with: None,
        body: Box::new(SetExpr::Values(Values { explicit_row: false, rows: Vec::new() })),
        order_by: None,
        limit: None,
        limit_by: Vec::new(),
        offset: None,
        fetch: None,
        locks: Vec::new(),
        for_clause: None,
        settings: None,
        format_clause: None,
    }
}

fn plain_select() -> Select {
    Select {
        distinct: None,
        top: None,
        top_before_distinct: false,
        projection: Vec::new(),
        into: None,
        from: Vec::new(),
        lateral_views: Vec::new(),
        prewhere: None,
        selection: None,
        group_by: GroupByExpr::Expressions(Vec::new(), Vec::new()),
        cluster_by: Vec::new(),
        distribute_by: Vec::new(),
        sort_by: Vec::new(),
        having: None,
        named_window: Vec::new(),
        qualify: None,
        window_before_qualify: false,
        value_table_mode: None,
        connect_by: None,
    }
}

fn plain_create_table(name: ObjectName) -> CreateTable {
    CreateTable {
        or_replace: false,
        temporary: false,
        external: false,
        global: None,
        if_not_exists: false,
        transient: false,
        volatile: false,
        name,
        columns: Vec::new(),
        constraints: Vec::new(),
        hive_distribution: HiveDistributionStyle::NONE,
        hive_formats: None,
        table_properties: Vec::new(),
        with_options: Vec::new(),
        file_format: None,
        location: None,
        query: None,
        without_rowid: false,
        like: None,
        clone: None,
        engine: None,
        comment: None,
        auto_increment_offset: None,
        default_charset: None,
        collation: None,
        on_commit: None,
        on_cluster: None,
        primary_key: None,
        order_by: None,
        partition_by: None,
        cluster_by: None,
        clustered_by: None,
        options: None,
        strict: false,
        copy_grants: false,
        enable_schema_evolution: None,
        change_tracking: None,
        data_retention_time_in_days: None,
        max_data_extension_time_in_days: None,
        default_ddl_collation: None,
        with_aggregation_policy: None,
        with_row_access_policy: None,
        with_tags: None,
    }
}

// ---- bound statements ----

/// The analyzer's answer back from its image. `None` where an ordinal does not fit this machine.
pub fn bound(bound: &image_bound::Bound) -> Option<BoundStatement> {
    Some(match bound {
        image_bound::Bound::CreateTable { name, columns, key } => BoundStatement::CreateTable(BoundCreateTable {
            table_name: name.clone(),
            columns: columns.iter().map(column_schema).collect(),
            primary_key_column_ids: key.iter().map(|id| ColumnId(*id)).collect(),
        }),
        image_bound::Bound::Insert { table, columns, rows } => BoundStatement::Insert(BoundInsert {
            table: table_ref(table),
            target_columns: columns.iter().map(column_ref).collect::<Option<_>>()?,
            rows: rows.iter().map(|row| row.iter().map(bound_literal).collect()).collect(),
        }),
        image_bound::Bound::Select { table, projection, filter } => BoundStatement::Select(BoundSelect {
            table: table_ref(table),
            projection: projection.iter().map(column_ref).collect::<Option<_>>()?,
            filter: match filter {
                Some(filter) => Some(bound_expression(filter)?),
                None => None,
            },
        }),
        image_bound::Bound::Update { table, assignments, filter } => BoundStatement::Update(BoundUpdate {
            table: table_ref(table),
            assignments: assignments.iter().map(bound_assignment).collect::<Option<_>>()?,
            filter: bound_expression(filter)?,
        }),
        image_bound::Bound::Delete { table, filter } => {
            BoundStatement::Delete(BoundDelete { table: table_ref(table), filter: bound_expression(filter)? })
        }
        image_bound::Bound::Begin => BoundStatement::Begin,
        image_bound::Bound::Commit => BoundStatement::Commit,
        image_bound::Bound::Rollback => BoundStatement::Rollback,
        image_bound::Bound::ShowTables => BoundStatement::ShowTables,
        image_bound::Bound::ShowTransactions => BoundStatement::ShowTransactions,
    })
}

fn table_ref(table: &image_bound::TableRef) -> BoundTableRef {
    BoundTableRef { table_id: TableId(table.id), name: table.name.clone(), schema_version: table.version }
}

fn column_ref(column: &image_bound::ColumnRef) -> Option<BoundColumnRef> {
    Some(BoundColumnRef {
        table_id: TableId(column.table_id),
        column_id: ColumnId(column.column_id),
        ordinal: usize::try_from(column.ordinal).ok()?,
        name: column.name.clone(),
        data_type: column_type(column.data_type),
        nullable: column.nullable,
    })
}

fn bound_assignment(assignment: &image_bound::Assignment) -> Option<BoundAssignment> {
    Some(BoundAssignment { column: column_ref(&assignment.column)?, value: bound_expression(&assignment.value)? })
}

fn bound_expression(expression: &image_bound::Expression) -> Option<BoundExpr> {
    let mut waiting: Vec<BoundExpr> = Vec::new();
    for node in &expression.nodes {
        let kind = bound_kind(&node.kind, &mut waiting)?;
        waiting.push(BoundExpr { kind, data_type: bound_type(node.data_type), nullable: node.nullable });
    }
    waiting.pop()
}

fn bound_kind(kind: &image_bound::NodeKind, waiting: &mut Vec<BoundExpr>) -> Option<BoundExprKind> {
    let mut operand = || waiting.pop().map(Box::new);
    Some(match kind {
        image_bound::NodeKind::Column(column) => BoundExprKind::Column(column_ref(column)?),
        image_bound::NodeKind::Literal(value) => BoundExprKind::Literal(bound_literal(value)),
        image_bound::NodeKind::Positive => {
            BoundExprKind::Unary { operator: BoundUnaryOperator::Positive, expression: operand()? }
        }
        image_bound::NodeKind::Negative => {
            BoundExprKind::Unary { operator: BoundUnaryOperator::Negative, expression: operand()? }
        }
        image_bound::NodeKind::Not => {
            BoundExprKind::Unary { operator: BoundUnaryOperator::Not, expression: operand()? }
        }
        image_bound::NodeKind::IsNull => BoundExprKind::IsNull { expression: operand()?, negated: false },
        image_bound::NodeKind::IsNotNull => BoundExprKind::IsNull { expression: operand()?, negated: true },
        image_bound::NodeKind::Binary(operator) => {
            let right = operand()?;
            let left = operand()?;
            BoundExprKind::Binary { left, operator: bound_operator(*operator), right }
        }
    })
}

fn bound_type(data_type: ExpressionType) -> BoundType {
    match data_type {
        ExpressionType::Int => BoundType::Int,
        ExpressionType::Text => BoundType::Text,
        ExpressionType::Bool => BoundType::Bool,
        ExpressionType::Null => BoundType::Null,
    }
}

fn bound_literal(value: &ImageValue) -> BoundValue {
    match value {
        ImageValue::Int(number) => BoundValue::Int(*number),
        ImageValue::Text(text) => BoundValue::Text(text.clone()),
        ImageValue::Bool(value) => BoundValue::Bool(*value),
        ImageValue::Null => BoundValue::Null,
    }
}

fn bound_operator(operator: Operator) -> BoundBinaryOperator {
    match operator {
        Operator::Add => BoundBinaryOperator::Add,
        Operator::Subtract => BoundBinaryOperator::Subtract,
        Operator::Multiply => BoundBinaryOperator::Multiply,
        Operator::Divide => BoundBinaryOperator::Divide,
        Operator::Modulo => BoundBinaryOperator::Modulo,
        Operator::Equal => BoundBinaryOperator::Equal,
        Operator::NotEqual => BoundBinaryOperator::NotEqual,
        Operator::Greater => BoundBinaryOperator::GreaterThan,
        Operator::GreaterOrEqual => BoundBinaryOperator::GreaterThanOrEqual,
        Operator::Less => BoundBinaryOperator::LessThan,
        Operator::LessOrEqual => BoundBinaryOperator::LessThanOrEqual,
        Operator::And => BoundBinaryOperator::And,
        Operator::Or => BoundBinaryOperator::Or,
    }
}
