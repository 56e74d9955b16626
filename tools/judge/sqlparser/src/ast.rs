//! The tree of a parsed statement, as far as the analyzer looks at it.
//!
//! A type that the analyzer never looks into, because it only asks whether something is there, is `Unseen`. Where a
//! test asks for "any other variant", a few of the real other variants are here to be that other one.

use std::fmt::{Display, Formatter, Result};

/// Whatever the real parser keeps here. The analyzer only asks whether there is one.
#[derive(Debug, Clone, PartialEq, Eq)]
pub struct Unseen;

#[derive(Debug, Clone, PartialEq, Eq)]
pub struct Ident {
    pub value: String,
    pub quote_style: Option<char>,
}

impl Ident {
    pub fn new(value: impl Into<String>) -> Self {
        Ident { value: value.into(), quote_style: None }
    }

    pub fn with_quote(quote: char, value: impl Into<String>) -> Self {
        Ident { value: value.into(), quote_style: Some(quote) }
    }
}

#[derive(Debug, Clone, PartialEq, Eq)]
pub struct ObjectName(pub Vec<Ident>);

#[derive(Debug, Clone, PartialEq, Eq)]
#[allow(clippy::large_enum_variant)]
pub enum Statement {
    CreateTable(CreateTable),
    Insert(Insert),
    Query(Box<Query>),
    Update {
        table: TableWithJoins,
        assignments: Vec<Assignment>,
        from: Option<TableWithJoins>,
        selection: Option<Expr>,
        returning: Option<Vec<SelectItem>>,
        or: Option<SqliteOnConflict>,
    },
    Delete(Delete),
    StartTransaction {
        modes: Vec<TransactionMode>,
        begin: bool,
        modifier: Option<TransactionModifier>,
    },
    Commit {
        chain: bool,
    },
    Rollback {
        chain: bool,
        savepoint: Option<Ident>,
    },
    ShowTables {
        terse: bool,
        history: bool,
        extended: bool,
        full: bool,
        external: bool,
        show_options: ShowStatementOptions,
    },
    ShowVariable {
        variable: Vec<Ident>,
    },
}

#[derive(Debug, Clone, PartialEq, Eq)]
pub struct CreateTable {
    pub or_replace: bool,
    pub temporary: bool,
    pub external: bool,
    pub global: Option<bool>,
    pub if_not_exists: bool,
    pub transient: bool,
    pub volatile: bool,
    pub name: ObjectName,
    pub columns: Vec<ColumnDef>,
    pub constraints: Vec<TableConstraint>,
    pub hive_distribution: HiveDistributionStyle,
    pub hive_formats: Option<HiveFormat>,
    pub table_properties: Vec<Unseen>,
    pub with_options: Vec<Unseen>,
    pub file_format: Option<Unseen>,
    pub location: Option<String>,
    pub query: Option<Box<Query>>,
    pub without_rowid: bool,
    pub like: Option<ObjectName>,
    pub clone: Option<ObjectName>,
    pub engine: Option<Unseen>,
    pub comment: Option<Unseen>,
    pub auto_increment_offset: Option<u32>,
    pub default_charset: Option<String>,
    pub collation: Option<String>,
    pub on_commit: Option<Unseen>,
    pub on_cluster: Option<Ident>,
    pub primary_key: Option<Box<Expr>>,
    pub order_by: Option<Unseen>,
    pub partition_by: Option<Box<Expr>>,
    pub cluster_by: Option<Unseen>,
    pub clustered_by: Option<Unseen>,
    pub options: Option<Vec<Unseen>>,
    pub strict: bool,
    pub copy_grants: bool,
    pub enable_schema_evolution: Option<bool>,
    pub change_tracking: Option<bool>,
    pub data_retention_time_in_days: Option<u64>,
    pub max_data_extension_time_in_days: Option<u64>,
    pub default_ddl_collation: Option<String>,
    pub with_aggregation_policy: Option<ObjectName>,
    pub with_row_access_policy: Option<Unseen>,
    pub with_tags: Option<Vec<Unseen>>,
}

#[derive(Debug, Clone, PartialEq, Eq)]
#[allow(clippy::upper_case_acronyms)]
pub enum HiveDistributionStyle {
    PARTITIONED { columns: Vec<ColumnDef> },
    SKEWED { columns: Vec<ColumnDef>, on: Vec<ColumnDef>, stored_as_directories: bool },
    NONE,
}

#[derive(Debug, Clone, PartialEq, Eq, Default)]
pub struct HiveFormat {
    pub row_format: Option<Unseen>,
    pub serde_properties: Option<Vec<Unseen>>,
    pub storage: Option<Unseen>,
    pub location: Option<String>,
}

#[derive(Debug, Clone, PartialEq, Eq)]
pub struct ColumnDef {
    pub name: Ident,
    pub data_type: DataType,
    pub collation: Option<ObjectName>,
    pub options: Vec<ColumnOptionDef>,
}

#[derive(Debug, Clone, PartialEq, Eq)]
pub struct ColumnOptionDef {
    pub name: Option<Ident>,
    pub option: ColumnOption,
}

#[derive(Debug, Clone, PartialEq, Eq)]
pub enum ColumnOption {
    Null,
    NotNull,
    Default(Expr),
    Unique { is_primary: bool, characteristics: Option<ConstraintCharacteristics> },
    Comment(String),
}

#[derive(Debug, Clone, Copy, PartialEq, Eq, Default)]
pub struct ConstraintCharacteristics {
    pub deferrable: Option<bool>,
}

#[derive(Debug, Clone, PartialEq, Eq)]
pub enum TableConstraint {
    PrimaryKey {
        name: Option<Ident>,
        index_name: Option<Ident>,
        index_type: Option<IndexType>,
        columns: Vec<Ident>,
        index_options: Vec<IndexOption>,
        characteristics: Option<ConstraintCharacteristics>,
    },
    Check {
        name: Option<Ident>,
        expr: Box<Expr>,
    },
}

#[derive(Debug, Clone, Copy, PartialEq, Eq)]
pub enum IndexType {
    BTree,
    Hash,
}

#[derive(Debug, Clone, PartialEq, Eq)]
pub enum IndexOption {
    Using(IndexType),
    Comment(String),
}

#[derive(Debug, Clone, PartialEq, Eq)]
pub enum DataType {
    Int(Option<u64>),
    Integer(Option<u64>),
    BigInt(Option<u64>),
    Text,
    Varchar(Option<u64>),
    Bool,
    Boolean,
    Date,
}

#[derive(Debug, Clone, PartialEq, Eq)]
pub struct Insert {
    pub or: Option<SqliteOnConflict>,
    pub ignore: bool,
    pub into: bool,
    pub table_name: ObjectName,
    pub table_alias: Option<Ident>,
    pub columns: Vec<Ident>,
    pub overwrite: bool,
    pub source: Option<Box<Query>>,
    pub partitioned: Option<Vec<Expr>>,
    pub after_columns: Vec<Ident>,
    pub table: bool,
    pub on: Option<Unseen>,
    pub returning: Option<Vec<SelectItem>>,
    pub replace_into: bool,
    pub priority: Option<Unseen>,
    pub insert_alias: Option<Unseen>,
}

#[derive(Debug, Clone, Copy, PartialEq, Eq)]
pub enum SqliteOnConflict {
    Rollback,
    Abort,
    Fail,
    Ignore,
    Replace,
}

#[derive(Debug, Clone, PartialEq, Eq)]
pub struct Delete {
    pub tables: Vec<ObjectName>,
    pub from: FromTable,
    pub using: Option<Vec<TableWithJoins>>,
    pub selection: Option<Expr>,
    pub returning: Option<Vec<SelectItem>>,
    pub order_by: Vec<Unseen>,
    pub limit: Option<Expr>,
}

#[derive(Debug, Clone, PartialEq, Eq)]
pub enum FromTable {
    WithFromKeyword(Vec<TableWithJoins>),
    WithoutKeyword(Vec<TableWithJoins>),
}

#[derive(Debug, Clone, PartialEq, Eq)]
pub struct TableWithJoins {
    pub relation: TableFactor,
    pub joins: Vec<Unseen>,
}

#[derive(Debug, Clone, PartialEq, Eq)]
pub enum TableFactor {
    Table {
        name: ObjectName,
        alias: Option<Unseen>,
        args: Option<Unseen>,
        with_hints: Vec<Expr>,
        version: Option<Unseen>,
        with_ordinality: bool,
        partitions: Vec<Ident>,
        json_path: Option<Unseen>,
    },
    Derived {
        lateral: bool,
        subquery: Box<Query>,
        alias: Option<Unseen>,
    },
}

#[derive(Debug, Clone, PartialEq, Eq)]
pub struct Assignment {
    pub target: AssignmentTarget,
    pub value: Expr,
}

#[derive(Debug, Clone, PartialEq, Eq)]
pub enum AssignmentTarget {
    ColumnName(ObjectName),
    Tuple(Vec<ObjectName>),
}

#[derive(Debug, Clone, Copy, PartialEq, Eq)]
pub enum TransactionMode {
    ReadOnly,
    Serializable,
}

#[derive(Debug, Clone, Copy, PartialEq, Eq)]
pub enum TransactionModifier {
    Deferred,
    Immediate,
}

#[derive(Debug, Clone, PartialEq, Eq, Default)]
pub struct ShowStatementOptions {
    pub show_in: Option<Unseen>,
    pub starts_with: Option<Value>,
    pub limit: Option<Expr>,
    pub limit_from: Option<Value>,
    pub filter_position: Option<Unseen>,
}

#[derive(Debug, Clone, PartialEq, Eq)]
pub struct Query {
    pub with: Option<Unseen>,
    pub body: Box<SetExpr>,
    pub order_by: Option<Unseen>,
    pub limit: Option<Expr>,
    pub limit_by: Vec<Expr>,
    pub offset: Option<Unseen>,
    pub fetch: Option<Unseen>,
    pub locks: Vec<Unseen>,
    pub for_clause: Option<Unseen>,
    pub settings: Option<Vec<Unseen>>,
    pub format_clause: Option<Unseen>,
}

#[derive(Debug, Clone, PartialEq, Eq)]
pub enum SetExpr {
    Select(Box<Select>),
    Query(Box<Query>),
    Values(Values),
}

#[derive(Debug, Clone, PartialEq, Eq)]
pub struct Values {
    pub explicit_row: bool,
    pub rows: Vec<Vec<Expr>>,
}

#[derive(Debug, Clone, PartialEq, Eq)]
pub struct Select {
    pub distinct: Option<Unseen>,
    pub top: Option<Unseen>,
    pub top_before_distinct: bool,
    pub projection: Vec<SelectItem>,
    pub into: Option<Unseen>,
    pub from: Vec<TableWithJoins>,
    pub lateral_views: Vec<Unseen>,
    pub prewhere: Option<Expr>,
    pub selection: Option<Expr>,
    pub group_by: GroupByExpr,
    pub cluster_by: Vec<Expr>,
    pub distribute_by: Vec<Expr>,
    pub sort_by: Vec<Expr>,
    pub having: Option<Expr>,
    pub named_window: Vec<Unseen>,
    pub qualify: Option<Expr>,
    pub window_before_qualify: bool,
    pub value_table_mode: Option<Unseen>,
    pub connect_by: Option<Unseen>,
}

#[derive(Debug, Clone, PartialEq, Eq)]
pub enum GroupByExpr {
    All(Vec<Unseen>),
    Expressions(Vec<Expr>, Vec<Unseen>),
}

#[derive(Debug, Clone, PartialEq, Eq)]
pub enum SelectItem {
    UnnamedExpr(Expr),
    ExprWithAlias { expr: Expr, alias: Ident },
    QualifiedWildcard(ObjectName, WildcardAdditionalOptions),
    Wildcard(WildcardAdditionalOptions),
}

#[derive(Debug, Clone, PartialEq, Eq, Default)]
pub struct WildcardAdditionalOptions {
    pub opt_ilike: Option<Unseen>,
    pub opt_exclude: Option<Unseen>,
    pub opt_except: Option<Unseen>,
    pub opt_replace: Option<Unseen>,
    pub opt_rename: Option<Unseen>,
}

#[derive(Debug, Clone, PartialEq, Eq)]
pub enum Expr {
    Identifier(Ident),
    CompoundIdentifier(Vec<Ident>),
    IsTrue(Box<Expr>),
    IsNull(Box<Expr>),
    IsNotNull(Box<Expr>),
    BinaryOp { left: Box<Expr>, op: BinaryOperator, right: Box<Expr> },
    UnaryOp { op: UnaryOperator, expr: Box<Expr> },
    Nested(Box<Expr>),
    Value(Value),
    Wildcard,
}

#[derive(Debug, Clone, PartialEq, Eq)]
pub enum Value {
    Number(String, bool),
    SingleQuotedString(String),
    DoubleQuotedString(String),
    HexStringLiteral(String),
    Boolean(bool),
    Null,
    Placeholder(String),
}

#[derive(Debug, Clone, Copy, PartialEq, Eq)]
pub enum UnaryOperator {
    Plus,
    Minus,
    Not,
    PGBitwiseNot,
    PGAbs,
}

#[derive(Debug, Clone, Copy, PartialEq, Eq)]
pub enum BinaryOperator {
    Plus,
    Minus,
    Multiply,
    Divide,
    Modulo,
    StringConcat,
    Gt,
    Lt,
    GtEq,
    LtEq,
    Spaceship,
    Eq,
    NotEq,
    And,
    Or,
    Xor,
}

// The analyzer writes these into its messages. Only the class of an error is compared, so the texts need not be the
// real parser's.

impl Display for Ident {
    fn fmt(&self, formatter: &mut Formatter<'_>) -> Result {
        match self.quote_style {
            Some(quote) => write!(formatter, "{quote}{}{quote}", self.value),
            None => formatter.write_str(&self.value),
        }
    }
}

impl Display for ObjectName {
    fn fmt(&self, formatter: &mut Formatter<'_>) -> Result {
        for (place, part) in self.0.iter().enumerate() {
            let dot = if place == 0 { "" } else { "." };
            write!(formatter, "{dot}{part}")?;
        }
        Ok(())
    }
}

impl Display for Expr {
    fn fmt(&self, formatter: &mut Formatter<'_>) -> Result {
        match self {
            Expr::Identifier(name) => write!(formatter, "{name}"),
            Expr::CompoundIdentifier(parts) => write!(formatter, "{}", ObjectName(parts.clone())),
            Expr::IsTrue(inner) => write!(formatter, "{inner} IS TRUE"),
            Expr::IsNull(inner) => write!(formatter, "{inner} IS NULL"),
            Expr::IsNotNull(inner) => write!(formatter, "{inner} IS NOT NULL"),
            Expr::BinaryOp { left, op, right } => write!(formatter, "{left} {op} {right}"),
            Expr::UnaryOp { op, expr } => write!(formatter, "{op} {expr}"),
            Expr::Nested(inner) => write!(formatter, "({inner})"),
            Expr::Value(value) => write!(formatter, "{value}"),
            Expr::Wildcard => formatter.write_str("*"),
        }
    }
}

impl Display for Value {
    fn fmt(&self, formatter: &mut Formatter<'_>) -> Result {
        match self {
            Value::Number(text, _) => formatter.write_str(text),
            Value::SingleQuotedString(text) => write!(formatter, "'{text}'"),
            Value::DoubleQuotedString(text) => write!(formatter, "\"{text}\""),
            Value::HexStringLiteral(text) => write!(formatter, "X'{text}'"),
            Value::Boolean(value) => write!(formatter, "{value}"),
            Value::Null => formatter.write_str("NULL"),
            Value::Placeholder(text) => formatter.write_str(text),
        }
    }
}

impl Display for UnaryOperator {
    fn fmt(&self, formatter: &mut Formatter<'_>) -> Result {
        formatter.write_str(match self {
            UnaryOperator::Plus => "+",
            UnaryOperator::Minus => "-",
            UnaryOperator::Not => "NOT",
            UnaryOperator::PGBitwiseNot => "~",
            UnaryOperator::PGAbs => "@",
        })
    }
}

impl Display for BinaryOperator {
    fn fmt(&self, formatter: &mut Formatter<'_>) -> Result {
        formatter.write_str(match self {
            BinaryOperator::Plus => "+",
            BinaryOperator::Minus => "-",
            BinaryOperator::Multiply => "*",
            BinaryOperator::Divide => "/",
            BinaryOperator::Modulo => "%",
            BinaryOperator::StringConcat => "||",
            BinaryOperator::Gt => ">",
            BinaryOperator::Lt => "<",
            BinaryOperator::GtEq => ">=",
            BinaryOperator::LtEq => "<=",
            BinaryOperator::Spaceship => "<=>",
            BinaryOperator::Eq => "=",
            BinaryOperator::NotEq => "<>",
            BinaryOperator::And => "AND",
            BinaryOperator::Or => "OR",
            BinaryOperator::Xor => "XOR",
        })
    }
}

/// The messages need some text for these. Their own form is text enough.
macro_rules! display_as_debug {
    ($($name:ident),*) => {
        $(impl Display for $name {
            fn fmt(&self, formatter: &mut Formatter<'_>) -> Result {
                write!(formatter, "{self:?}")
            }
        })*
    };
}

display_as_debug!(Statement, ColumnOption, TableConstraint, DataType, SelectItem);
