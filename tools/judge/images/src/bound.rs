//! The image of a bound statement.

use crate::bytes::{Field, Log, Read, Reader, Width, Written, bundle, damage, list};
use crate::catalogue::Column;
use crate::run::{self, RunNode};
use crate::value::{ColumnType, ExpressionType, Operator, Value};

const WIDTH: Width = Width::Four;

#[derive(Debug, Clone, PartialEq, Eq)]
pub enum Bound {
    CreateTable { name: String, columns: Vec<Column>, key: Vec<u64> },
    Insert { table: TableRef, columns: Vec<ColumnRef>, rows: Vec<Vec<Value>> },
    Select { table: TableRef, projection: Vec<ColumnRef>, filter: Option<Expression> },
    Update { table: TableRef, assignments: Vec<Assignment>, filter: Expression },
    Delete { table: TableRef, filter: Expression },
    Begin,
    Commit,
    Rollback,
    ShowTables,
    ShowTransactions,
}

#[derive(Debug, Clone, PartialEq, Eq)]
pub struct TableRef {
    pub id: u64,
    pub version: u64,
    pub name: String,
}

#[derive(Debug, Clone, PartialEq, Eq)]
pub struct ColumnRef {
    pub table_id: u64,
    pub column_id: u64,
    pub ordinal: u64,
    pub data_type: ColumnType,
    pub nullable: bool,
    pub name: String,
}

#[derive(Debug, Clone, PartialEq, Eq)]
pub struct Assignment {
    pub column: ColumnRef,
    pub value: Expression,
}

/// Nodes with children before parents.
#[derive(Debug, Clone, PartialEq, Eq)]
pub struct Expression {
    pub nodes: Vec<Node>,
}

#[derive(Debug, Clone, PartialEq, Eq)]
pub struct Node {
    pub kind: NodeKind,
    pub data_type: ExpressionType,
    pub nullable: bool,
}

#[derive(Debug, Clone, PartialEq, Eq)]
pub enum NodeKind {
    Column(ColumnRef),
    Literal(Value),
    Positive,
    Negative,
    Not,
    IsNull,
    IsNotNull,
    Binary(Operator),
}

const NODE_KINDS: usize = 20;

impl NodeKind {
    fn code(&self) -> u8 {
        match self {
            NodeKind::Column(_) => 0,
            NodeKind::Literal(_) => 1,
            NodeKind::Positive => 2,
            NodeKind::Negative => 3,
            NodeKind::Not => 4,
            NodeKind::IsNull => 5,
            NodeKind::IsNotNull => 6,
            NodeKind::Binary(operator) => 7 + operator.code(),
        }
    }

    /// The node of a kind that has no content.
    fn plain(code: usize) -> NodeKind {
        match code {
            2 => NodeKind::Positive,
            3 => NodeKind::Negative,
            4 => NodeKind::Not,
            5 => NodeKind::IsNull,
            6 => NodeKind::IsNotNull,
            _ => NodeKind::Binary(Operator::ALL[code - 7]),
        }
    }

    fn label(&self) -> String {
        match self {
            NodeKind::Column(column) => format!("column {:?}", column.name),
            NodeKind::Literal(value) => format!("literal {}", value.to_sql()),
            NodeKind::Positive => "unary +".to_string(),
            NodeKind::Negative => "unary -".to_string(),
            NodeKind::Not => "NOT".to_string(),
            NodeKind::IsNull => "IS NULL".to_string(),
            NodeKind::IsNotNull => "IS NOT NULL".to_string(),
            NodeKind::Binary(operator) => operator.sign().to_string(),
        }
    }
}

impl RunNode for Node {
    const WIDTH: Width = WIDTH;
    const HEAD: usize = 3;

    fn operands(&self) -> usize {
        match self.kind.code() {
            0..=1 => 0,
            2..=6 => 1,
            _ => 2,
        }
    }

    fn head(&self) -> Vec<u8> {
        vec![self.kind.code(), self.data_type.code(), u8::from(self.nullable)]
    }

    fn content(&self) -> Vec<u8> {
        match &self.kind {
            NodeKind::Column(column) => column.encode(),
            NodeKind::Literal(value) => value.encode(),
            _ => Vec::new(),
        }
    }

    fn read(mut head: Reader, content: Reader) -> Read<Self> {
        let at = head.at();
        let code = head.number(1, "kind of a node")? as usize;
        let data_type = head.number(1, "type of a node")? as usize;
        let Some(data_type) = ExpressionType::ALL.get(data_type) else {
            return damage(at + 1, format!("{data_type} is no type code, the last is 3"));
        };
        let nullable = head.mark("nullable")?;
        let kind = match code {
            0 => NodeKind::Column(ColumnRef::decode(content)?),
            1 => NodeKind::Literal(Value::decode(content)?),
            2..NODE_KINDS => NodeKind::plain(code),
            _ => return damage(at, format!("{code} is no kind of node, the last is {}", NODE_KINDS - 1)),
        };
        if code >= 2 && !content.is_empty() {
            return damage(content.at(), format!("a node of kind {code} has no content"));
        }
        Ok(Node { kind, data_type: *data_type, nullable })
    }

    fn label(&self) -> String {
        let null = if self.nullable { "may be null" } else { "never null" };
        format!("{}, {}, {null}", self.kind.label(), self.data_type.name())
    }
}

impl Bound {
    /// The kind's number.
    pub fn kind(&self) -> u8 {
        match self {
            Bound::CreateTable { .. } => 0,
            Bound::Insert { .. } => 1,
            Bound::Select { .. } => 2,
            Bound::Update { .. } => 3,
            Bound::Delete { .. } => 4,
            Bound::Begin => 5,
            Bound::Commit => 6,
            Bound::Rollback => 7,
            Bound::ShowTables => 8,
            Bound::ShowTransactions => 9,
        }
    }

    pub fn encode(&self) -> Written {
        let body = match self {
            Bound::CreateTable { name, columns, key } => {
                let parts = [
                    name.clone().into_bytes(),
                    list(WIDTH, "columns", columns, |column| column.encode(WIDTH))?,
                    list(WIDTH, "key", key, |id| Ok(id.to_le_bytes().to_vec()))?,
                ];
                bundle(WIDTH, "CREATE TABLE", &parts)?
            }
            Bound::Insert { table, columns, rows } => {
                let rows = list(WIDTH, "rows", rows, |row| list(WIDTH, "row", row, |value| Ok(value.encode())))?;
                bundle(WIDTH, "INSERT", &[table.encode(), encode_columns(columns)?, rows])?
            }
            Bound::Select { table, projection, filter } => {
                let filter = filter.as_ref().map_or(Ok(Vec::new()), Expression::encode)?;
                bundle(WIDTH, "SELECT", &[table.encode(), encode_columns(projection)?, filter])?
            }
            Bound::Update { table, assignments, filter } => {
                let assignments = list(WIDTH, "assignments", assignments, Assignment::encode)?;
                bundle(WIDTH, "UPDATE", &[table.encode(), assignments, filter.encode()?])?
            }
            Bound::Delete { table, filter } => bundle(WIDTH, "DELETE", &[table.encode(), filter.encode()?])?,
            _ => Vec::new(),
        };
        Ok([&[self.kind()][..], &body].concat())
    }
}

fn encode_columns(columns: &[ColumnRef]) -> Written {
    list(WIDTH, "columns", columns, |column| Ok(column.encode()))
}

impl TableRef {
    fn encode(&self) -> Vec<u8> {
        [&self.id.to_le_bytes()[..], &self.version.to_le_bytes(), self.name.as_bytes()].concat()
    }

    fn decode(mut reader: Reader) -> Read<Self> {
        Ok(TableRef {
            id: reader.number(8, "table id")?,
            version: reader.number(8, "schema version")?,
            name: reader.text("table name")?,
        })
    }
}

impl ColumnRef {
    fn encode(&self) -> Vec<u8> {
        [
            &self.table_id.to_le_bytes()[..],
            &self.column_id.to_le_bytes(),
            &self.ordinal.to_le_bytes(),
            &[self.data_type.code(), u8::from(self.nullable)],
            self.name.as_bytes(),
        ]
        .concat()
    }

    fn decode(mut reader: Reader) -> Read<Self> {
        Ok(ColumnRef {
            table_id: reader.number(8, "table id")?,
            column_id: reader.number(8, "column id")?,
            ordinal: reader.number(8, "ordinal")?,
            data_type: ColumnType::read(&mut reader)?,
            nullable: reader.mark("nullable")?,
            name: reader.text("column name")?,
        })
    }
}

impl Assignment {
    fn encode(&self) -> Written {
        bundle(WIDTH, "assignment", &[self.column.encode(), self.value.encode()?])
    }

    fn decode(reader: Reader) -> Read<Self> {
        let [column, value] = reader.record(WIDTH, "assignment")?;
        Ok(Assignment {
            column: column.inside(|| "column".to_string(), || ColumnRef::decode(column))?,
            value: Expression::decode(value, "value")?,
        })
    }
}

impl Expression {
    fn encode(&self) -> Written {
        run::encode(&self.nodes)
    }

    fn decode(reader: Reader, what: &str) -> Read<Self> {
        let nodes = reader.inside(|| what.to_string(), || run::decode(reader))?;
        Ok(Expression { nodes })
    }
}

pub fn decode(image: &[u8]) -> Read<Bound> {
    let log = Log::off();
    decode_part(Reader::new(image, &log))
}

/// The value, and every field up to its end or to the damage.
pub fn explain(image: &[u8]) -> (Vec<Field>, Read<Bound>) {
    let log = Log::on();
    let value = decode_part(Reader::new(image, &log));
    (log.into_fields(), value)
}

const KINDS: [&str; 10] = [
    "CREATE TABLE",
    "INSERT",
    "SELECT",
    "UPDATE",
    "DELETE",
    "BEGIN",
    "COMMIT",
    "ROLLBACK",
    "SHOW TABLES",
    "SHOW TRANSACTIONS",
];

fn decode_part(mut reader: Reader) -> Read<Bound> {
    let kind = reader.code("kind", &KINDS)?;
    match kind {
        0 => decode_create_table(reader),
        1 => decode_insert(reader),
        2 => decode_select(reader),
        3 => decode_update(reader),
        4 => decode_delete(reader),
        _ => {
            reader.finish(KINDS[kind])?;
            Ok([Bound::Begin, Bound::Commit, Bound::Rollback, Bound::ShowTables, Bound::ShowTransactions][kind - 5]
                .clone())
        }
    }
}

fn decode_create_table(reader: Reader) -> Read<Bound> {
    let [mut name, columns, key] = reader.record(WIDTH, "CREATE TABLE")?;
    Ok(Bound::CreateTable {
        name: name.text("table name")?,
        columns: columns.list(WIDTH, "columns", "column", |part| Column::decode(part, WIDTH))?,
        key: key.list(WIDTH, "key", "key column", |mut part| {
            let id = part.number(8, "column id")?;
            part.finish("id of a key column")?;
            Ok(id)
        })?,
    })
}

fn decode_table_ref(reader: Reader) -> Read<TableRef> {
    reader.inside(|| "table".to_string(), || TableRef::decode(reader))
}

fn decode_columns(reader: Reader, what: &str) -> Read<Vec<ColumnRef>> {
    reader.list(WIDTH, what, "column", ColumnRef::decode)
}

fn decode_insert(reader: Reader) -> Read<Bound> {
    let [table, columns, rows] = reader.record(WIDTH, "INSERT")?;
    Ok(Bound::Insert {
        table: decode_table_ref(table)?,
        columns: decode_columns(columns, "columns")?,
        rows: rows.list(WIDTH, "rows", "row", |row| row.list(WIDTH, "values", "value", Value::decode))?,
    })
}

fn decode_select(reader: Reader) -> Read<Bound> {
    let [table, projection, filter] = reader.record(WIDTH, "SELECT")?;
    Ok(Bound::Select {
        table: decode_table_ref(table)?,
        projection: decode_columns(projection, "projection")?,
        filter: if filter.is_empty() { None } else { Some(Expression::decode(filter, "filter")?) },
    })
}

fn decode_update(reader: Reader) -> Read<Bound> {
    let [table, assignments, filter] = reader.record(WIDTH, "UPDATE")?;
    Ok(Bound::Update {
        table: decode_table_ref(table)?,
        assignments: assignments.list(WIDTH, "assignments", "assignment", Assignment::decode)?,
        filter: Expression::decode(filter, "filter")?,
    })
}

fn decode_delete(reader: Reader) -> Read<Bound> {
    let [table, filter] = reader.record(WIDTH, "DELETE")?;
    Ok(Bound::Delete { table: decode_table_ref(table)?, filter: Expression::decode(filter, "filter")? })
}
