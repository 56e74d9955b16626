//! A seeded source of random numbers, and random values of every shape that has an image. The values need make no
//! sense: these are for round trips. What makes sense, almost, is made elsewhere.

use crate::bound;
use crate::catalogue::{Catalogue, Column, Table as CatalogueTable};
use crate::row::Row;
use crate::run::RunNode;
use crate::statement::{
    Assignment, ColumnDefinition, ColumnOption, Constraint, CreateTable, DataType, Delete, DeleteFrom, Expression,
    Insert, Item, Name, Node, ObjectName, OptionKind, Query, Relation, Select, Source, Statement, Table, Target, Tree,
    Update, Values,
};
use crate::value::{ColumnType, ExpressionType, Operator, Value};

/// SplitMix64: small, and the same everywhere.
#[derive(Debug, Clone)]
pub struct Rng {
    state: u64,
}

impl Rng {
    pub fn new(seed: u64) -> Self {
        Rng { state: seed }
    }

    /// The source of case `index` of a run: independent of the cases before it.
    pub fn of_case(seed: u64, index: u64) -> Self {
        let mut rng = Rng::new(seed);
        let mixed = rng.draw() ^ index.wrapping_mul(0xD6E8_FEB8_6659_FD93);
        Rng::new(Rng::new(mixed).draw())
    }

    pub fn draw(&mut self) -> u64 {
        self.state = self.state.wrapping_add(0x9E37_79B9_7F4A_7C15);
        let mut mixed = self.state;
        mixed = (mixed ^ (mixed >> 30)).wrapping_mul(0xBF58_476D_1CE4_E5B9);
        mixed = (mixed ^ (mixed >> 27)).wrapping_mul(0x94D0_49BB_1331_11EB);
        mixed ^ (mixed >> 31)
    }

    /// A number below `bound`, which is not 0.
    pub fn below(&mut self, bound: usize) -> usize {
        (self.draw() % bound as u64) as usize
    }

    pub fn between(&mut self, least: usize, most: usize) -> usize {
        least + self.below(most - least + 1)
    }

    /// Yes once in `times`.
    pub fn once_in(&mut self, times: usize) -> bool {
        self.below(times) == 0
    }

    pub fn pick<'a, T>(&mut self, from: &'a [T]) -> &'a T {
        &from[self.below(from.len())]
    }

    pub fn many<T>(&mut self, most: usize, mut make: impl FnMut(&mut Rng) -> T) -> Vec<T> {
        let count = self.between(0, most);
        (0..count).map(|_| make(self)).collect()
    }

    pub fn shuffle<T>(&mut self, list: &mut [T]) {
        for last in (1..list.len()).rev() {
            list.swap(last, self.below(last + 1));
        }
    }
}

/// Numbers where a width or a sign could be mistaken.
pub fn any_u64(rng: &mut Rng) -> u64 {
    match rng.below(6) {
        0 => 0,
        1 => u64::MAX,
        2 => 1 << rng.below(64),
        3 => rng.draw(),
        _ => rng.below(300) as u64,
    }
}

const PIECES: [&str; 20] = [
    "", "a", "A", "b", "runs", "serial", "Ok", "_", " ", "\"", "'", ";", "0", "9", "\u{0}", "é", "Å", "İ", "\u{2028}",
    "𝕏",
];

pub fn any_text(rng: &mut Rng) -> String {
    let count = rng.below(4);
    (0..count).map(|_| *rng.pick(&PIECES)).collect()
}

fn flip(rng: &mut Rng) -> bool {
    rng.once_in(2)
}

fn maybe<T>(rng: &mut Rng, make: impl FnOnce(&mut Rng) -> T) -> Option<T> {
    if flip(rng) { Some(make(rng)) } else { None }
}

pub fn any_statement(rng: &mut Rng) -> Statement {
    Statement { raw: any_text(rng), tree: any_tree(rng) }
}

fn any_tree(rng: &mut Rng) -> Tree {
    match rng.below(14) {
        0..=1 => Tree::CreateTable(any_create_table(rng)),
        2..=3 => Tree::Insert(any_insert(rng)),
        4..=5 => Tree::Query(any_query(rng)),
        6..=7 => Tree::Update(any_update(rng)),
        8 => Tree::Delete(any_delete(rng)),
        9 => Tree::Begin { modes: flip(rng) },
        10 => Tree::Commit { chain: flip(rng) },
        11 => Tree::Rollback { chain: flip(rng), savepoint: flip(rng) },
        12 => Tree::ShowTables { options: flip(rng) },
        _ => Tree::Other,
    }
}

fn any_name(rng: &mut Rng) -> Name {
    Name { quoted: flip(rng), text: any_text(rng) }
}

fn any_object_name(rng: &mut Rng) -> ObjectName {
    if rng.once_in(4) { ObjectName::Other } else { ObjectName::One(any_name(rng)) }
}

fn any_create_table(rng: &mut Rng) -> CreateTable {
    CreateTable {
        if_not_exists: flip(rng),
        query: flip(rng),
        features: flip(rng),
        name: any_object_name(rng),
        columns: rng.many(4, |rng| ColumnDefinition {
            collation: flip(rng),
            name: any_name(rng),
            options: rng.many(3, |rng| ColumnOption { named: flip(rng), kind: *rng.pick(&OptionKind::ALL) }),
            data_type: *rng.pick(&DataType::ALL),
        }),
        constraints: rng.many(3, |rng| {
            if rng.once_in(3) {
                Constraint::Other
            } else {
                Constraint::PrimaryKey { features: flip(rng), names: rng.many(3, any_name) }
            }
        }),
    }
}

fn any_insert(rng: &mut Rng) -> Insert {
    Insert {
        features: flip(rng),
        table: any_object_name(rng),
        columns: rng.many(4, any_name),
        source: maybe(rng, |rng| Source {
            clauses: flip(rng),
            values: maybe(rng, |rng| Values {
                explicit_row: flip(rng),
                rows: rng.many(3, |rng| rng.many(3, any_expression)),
            }),
        }),
    }
}

fn any_query(rng: &mut Rng) -> Query {
    Query {
        clauses: flip(rng),
        select: maybe(rng, |rng| Select {
            features: flip(rng),
            from: maybe(rng, any_table),
            items: rng.many(4, |rng| match rng.below(3) {
                0 => Item::Other,
                1 => Item::Wildcard,
                _ => Item::Name(any_name(rng)),
            }),
            condition: maybe(rng, any_expression),
        }),
    }
}

fn any_table(rng: &mut Rng) -> Table {
    Table { joins: flip(rng), relation: maybe(rng, |rng| Relation { features: flip(rng), name: any_object_name(rng) }) }
}

fn any_update(rng: &mut Rng) -> Update {
    Update {
        from: flip(rng),
        returning: flip(rng),
        conflict: flip(rng),
        table: any_table(rng),
        assignments: rng.many(3, |rng| Assignment {
            target: if rng.once_in(3) { Target::Tuple } else { Target::Column(any_object_name(rng)) },
            value: any_expression(rng),
        }),
        condition: maybe(rng, any_expression),
    }
}

fn any_delete(rng: &mut Rng) -> Delete {
    Delete {
        tables: flip(rng),
        using: flip(rng),
        returning: flip(rng),
        order_by: flip(rng),
        limit: flip(rng),
        from: match rng.below(3) {
            0 => DeleteFrom::WithoutKeyword,
            1 => DeleteFrom::NotOne,
            _ => DeleteFrom::Table(any_table(rng)),
        },
        condition: maybe(rng, any_expression),
    }
}

pub fn any_expression(rng: &mut Rng) -> Expression {
    let nodes = rng.between(1, 9);
    Expression { nodes: any_run(rng, nodes, any_node) }
}

/// Takes random nodes while their operands are there, then joins what is left over.
fn any_run<N: RunNode>(rng: &mut Rng, most: usize, make: impl Fn(&mut Rng, usize) -> N) -> Vec<N> {
    let mut nodes = vec![make(rng, 0)];
    let mut open = 1;
    while nodes.len() < most || open > 1 {
        let most_operands = if nodes.len() < most { rng.below(open.min(2) + 1) } else { 2 };
        let node = make(rng, most_operands);
        open = open - node.operands() + 1;
        nodes.push(node);
    }
    nodes
}

fn any_node(rng: &mut Rng, operands: usize) -> Node {
    let leaves = [Node::True, Node::False, Node::Null, Node::OtherLiteral, Node::OtherExpression];
    let unaries =
        [Node::Parentheses, Node::IsNull, Node::IsNotNull, Node::Plus, Node::Minus, Node::Not, Node::OtherUnary];
    match operands {
        0 => match rng.below(5) {
            0 => Node::Name(any_name(rng)),
            1 => Node::Number(any_u64(rng).to_string()),
            2 => Node::Number(any_text(rng)),
            3 => Node::Text(any_text(rng)),
            _ => rng.pick(&leaves).clone(),
        },
        1 => rng.pick(&unaries).clone(),
        _ if rng.once_in(14) => Node::OtherBinary,
        _ => Node::Binary(*rng.pick(&Operator::ALL)),
    }
}

/// A sound catalogue.
pub fn any_catalogue(rng: &mut Rng) -> Catalogue {
    let mut tables: Vec<CatalogueTable> = Vec::new();
    for table in rng.many(4, any_catalogue_table) {
        if tables.iter().all(|other| other.id != table.id && other.name != table.name) {
            tables.push(table);
        }
    }
    Catalogue { tables }
}

fn any_catalogue_table(rng: &mut Rng) -> CatalogueTable {
    let mut columns: Vec<Column> = vec![Column { nullable: false, ..any_column(rng) }];
    for column in rng.many(4, any_column) {
        if columns.iter().all(|other| other.id != column.id && other.name != column.name) {
            columns.push(column);
        }
    }
    rng.shuffle(&mut columns);
    let mut key: Vec<u64> = columns.iter().filter(|column| !column.nullable).map(|column| column.id).collect();
    rng.shuffle(&mut key);
    let keep = rng.between(1, key.len());
    key.truncate(keep);
    CatalogueTable {
        id: any_u64(rng),
        version: any_u64(rng),
        tablets: any_u64(rng) as u32,
        name: any_text(rng),
        columns,
        key,
    }
}

fn any_column(rng: &mut Rng) -> Column {
    Column { id: any_u64(rng).max(1), data_type: *rng.pick(&ColumnType::ALL), nullable: flip(rng), name: any_text(rng) }
}

pub fn any_value(rng: &mut Rng) -> Value {
    match rng.below(4) {
        0 => Value::Int(any_u64(rng) as i64),
        1 => Value::Text(any_text(rng)),
        2 => Value::Bool(flip(rng)),
        _ => Value::Null,
    }
}

pub fn any_row(rng: &mut Rng) -> Row {
    Row { values: rng.many(5, any_value) }
}

pub fn any_bound(rng: &mut Rng) -> bound::Bound {
    use bound::Bound;
    match rng.below(15) {
        0..=1 => {
            Bound::CreateTable { name: any_text(rng), columns: rng.many(3, any_column), key: rng.many(3, any_u64) }
        }
        2..=3 => Bound::Insert {
            table: any_table_ref(rng),
            columns: rng.many(3, any_column_ref),
            rows: rng.many(3, |rng| rng.many(3, any_value)),
        },
        4..=5 => Bound::Select {
            table: any_table_ref(rng),
            projection: rng.many(3, any_column_ref),
            filter: maybe(rng, any_bound_expression),
        },
        6..=7 => Bound::Update {
            table: any_table_ref(rng),
            assignments: rng
                .many(3, |rng| bound::Assignment { column: any_column_ref(rng), value: any_bound_expression(rng) }),
            filter: any_bound_expression(rng),
        },
        8..=9 => Bound::Delete { table: any_table_ref(rng), filter: any_bound_expression(rng) },
        10 => Bound::Begin,
        11 => Bound::Commit,
        12 => Bound::Rollback,
        13 => Bound::ShowTables,
        _ => Bound::ShowTransactions,
    }
}

fn any_table_ref(rng: &mut Rng) -> bound::TableRef {
    bound::TableRef { id: any_u64(rng), version: any_u64(rng), name: any_text(rng) }
}

fn any_column_ref(rng: &mut Rng) -> bound::ColumnRef {
    bound::ColumnRef {
        table_id: any_u64(rng),
        column_id: any_u64(rng),
        ordinal: any_u64(rng),
        data_type: *rng.pick(&ColumnType::ALL),
        nullable: flip(rng),
        name: any_text(rng),
    }
}

fn any_bound_expression(rng: &mut Rng) -> bound::Expression {
    let nodes = rng.between(1, 9);
    bound::Expression { nodes: any_run(rng, nodes, any_bound_node) }
}

fn any_bound_node(rng: &mut Rng, operands: usize) -> bound::Node {
    use bound::NodeKind;
    let unaries = [NodeKind::Positive, NodeKind::Negative, NodeKind::Not, NodeKind::IsNull, NodeKind::IsNotNull];
    let kind = match operands {
        0 if flip(rng) => NodeKind::Column(any_column_ref(rng)),
        0 => NodeKind::Literal(any_value(rng)),
        1 => rng.pick(&unaries).clone(),
        _ => NodeKind::Binary(*rng.pick(&Operator::ALL)),
    };
    bound::Node { kind, data_type: *rng.pick(&ExpressionType::ALL), nullable: flip(rng) }
}

/// Changes a few bytes, most of them in ways that a reader could overlook.
pub fn damage_bytes(rng: &mut Rng, bytes: &mut Vec<u8>) {
    for _ in 0..rng.between(1, 3) {
        let place = rng.below(bytes.len().max(1));
        match rng.below(8) {
            0 => bytes.truncate(place),
            1 => bytes.push(rng.draw() as u8),
            2 => bytes.insert(place.min(bytes.len()), rng.below(3) as u8),
            _ if bytes.is_empty() => {}
            3 => {
                bytes.remove(place);
            }
            4 => bytes[place] = bytes[place].wrapping_add(1),
            5 => bytes[place] = bytes[place].wrapping_sub(1),
            6 => bytes[place] ^= 1 << rng.below(8),
            _ => bytes[place] = *rng.pick(&[0, 1, 2, 3, 255, 128, 0xC0, 0xED]),
        }
    }
}
