//! Cases for a runner: mostly an UPDATE that binds and a row that obeys its table, with values where the rules could be
//! mistaken; some with faults planted in the statement, the catalogue, the row or the room. Case number i of a seed does
//! not depend on the cases before it.

use images::catalogue::{Catalogue, Column, Table};
use images::random::{Rng, any_row, any_text, any_value, damage_bytes};
use images::row::Row;
use images::statement::{Assignment, Expression, Name, Node, ObjectName, Statement, Target, Tree};
use images::text::print::tree_to_sql;
use images::value::{ColumnType, Operator, Value};
use judge::generate::{Draft, FAULTS, Room, catalogues, plant_some_fault, planted, statements};

use crate::judge_run::judge_run;
use crate::sql::position;

/// What both sides are asked.
#[derive(Debug, Clone, PartialEq, Eq, Hash)]
pub struct Case {
    pub statement: Vec<u8>,
    pub catalogue: Vec<u8>,
    pub row: Vec<u8>,
    pub room: usize,
}

impl Case {
    /// The bytes of the three images.
    pub fn size(&self) -> usize {
        self.statement.len() + self.catalogue.len() + self.row.len()
    }
}

/// A case and the faults planted in it.
pub struct Made {
    pub case: Case,
    pub faults: Vec<&'static str>,
}

pub fn made(seed: u64, index: u64) -> Made {
    let mut rng = Rng::of_case(seed, index);
    if rng.once_in(15) { any_statement(&mut rng) } else { update(&mut rng) }
}

/// Any case of the binder's comparison, with a row beside it.
fn any_statement(rng: &mut Rng) -> Made {
    let binding = planted(rng.draw(), 0);
    let tables = images::catalogue::decode(&binding.case.catalogue).map_or(Vec::new(), |catalogue| catalogue.tables);
    let row = match tables.as_slice() {
        [] => any_row(rng),
        tables => {
            let table = rng.pick(tables);
            obeying_row(rng, Temper::Mixed, table)
        }
    };
    let mut faults = binding.faults;
    faults.push("a case of the binder's");
    finish(rng, (binding.case.statement, binding.case.catalogue), row.encode().unwrap_or_default(), faults)
}

fn update(rng: &mut Rng) -> Made {
    let temper = *rng.pick(&[Temper::Calm, Temper::Calm, Temper::Mixed, Temper::Edgy]);
    let catalogue = catalogue(rng);
    let table = rng.pick(&catalogue.tables).clone();
    let row = obeying_row(rng, temper, &table);
    let tree = update_of(rng, temper, &table, &row);
    let mut draft = Draft {
        statement: Statement { raw: tree_to_sql(&tree), tree },
        catalogue,
        room: Room::Ample,
        focus: rng.below(60),
        statement_damage: None,
        catalogue_damage: None,
    };
    let mut faults = Vec::new();
    for _ in 0..[0, 0, 0, 0, 0, 0, 0, 0, 0, 0, 1, 2][rng.below(12)] {
        let fault_seed = rng.draw();
        faults.push(FAULTS[plant_some_fault(rng, fault_seed, &mut draft)].name);
    }
    let row = if rng.once_in(10) {
        let fault = rng.pick(ROW_FAULTS);
        faults.push(fault.0);
        (fault.1)(rng, &draft.catalogue, &table, row)
    } else {
        row.encode().unwrap_or_default()
    };
    finish(rng, draft.images(), row, faults)
}

/// Gives the case its room, by what the answer needs.
fn finish(rng: &mut Rng, images: (Vec<u8>, Vec<u8>), row: Vec<u8>, mut faults: Vec<&'static str>) -> Made {
    let (statement, catalogue) = images;
    let needed = judge_run(&statement, &catalogue, &row, usize::MAX).bytes().len();
    let (room, fault) = match rng.below(20) {
        0 => (0, Some("no room")),
        1 => (needed.saturating_sub(1), Some("room one short")),
        2 => (rng.below(needed.max(1)), Some("too little room")),
        3..=6 => (needed, None),
        _ => (needed + rng.below(100), None),
    };
    faults.extend(fault);
    Made { case: Case { statement, catalogue, row, room }, faults }
}

fn catalogue(rng: &mut Rng) -> Catalogue {
    let mut catalogue = Catalogue::default();
    for _ in 0..if rng.once_in(4) { 2 } else { 1 } {
        let columns = [1, 2, 3, 3, 4, 4, 5, 6, 7, 8][rng.below(10)];
        catalogues::add_table(rng, &mut catalogue, columns);
    }
    for table in &mut catalogue.tables {
        if rng.once_in(2) {
            small_ids(rng, table);
        }
    }
    catalogue
}

/// Ids that could be taken for positions: 1, 2, 3 .. in another order.
fn small_ids(rng: &mut Rng, table: &mut Table) {
    let mut ids: Vec<u64> = (1..=table.columns.len() as u64).collect();
    rng.shuffle(&mut ids);
    for id in &mut table.key {
        let place = table.columns.iter().position(|column| column.id == *id).expect("the key is of columns");
        *id = ids[place];
    }
    table.columns.iter_mut().zip(ids).for_each(|(column, id)| column.id = id);
}

// ---- values

/// How near the ends of 64 bits the numbers of a case lie. Among large numbers nearly every sum is a fault.
#[derive(Debug, Clone, Copy, PartialEq, Eq)]
enum Temper {
    Calm,
    Mixed,
    Edgy,
}

/// The least one is there more often: three operators have a rule of its own for it.
const EDGES: [i64; 18] = [
    i64::MIN,
    i64::MIN,
    i64::MIN,
    i64::MIN + 1,
    i64::MIN / 2,
    i64::MAX,
    i64::MAX - 1,
    i64::MAX / 2,
    -1,
    0,
    1,
    2,
    -2,
    1 << 32,
    -(1 << 31),
    // Its square is the largest one in 64 signed bits.
    3_037_000_499,
    3_037_000_500,
    -3_037_000_500,
];

fn int(rng: &mut Rng, temper: Temper) -> i64 {
    match (temper, rng.below(4)) {
        (Temper::Edgy, 0) => rng.draw() as i64,
        (Temper::Edgy, _) | (Temper::Mixed, 0) => *rng.pick(&EDGES),
        (_, 1) => rng.below(2_000) as i64 - 1_000,
        _ => rng.below(19) as i64 - 9,
    }
}

/// Prefixes of one another, letters of every length in bytes, and what looks like a number.
const TEXTS: [&str; 28] = [
    "", "a", "ab", "abc", "abd", "b", "A", "Ab", "e", "é", "éa", "ê", "z", "\u{7f}", "\u{80}", "\u{7ff}", "\u{800}",
    "\u{ffff}", "𝕏", "𝕏a", "a\u{0}", "a\u{0}b", "'", "a'b", "1", "10", "9", "1e1",
];

fn text(rng: &mut Rng) -> String {
    match rng.below(6) {
        0 => any_text(rng),
        1 => format!("{}{}", rng.pick(&TEXTS), rng.pick(&TEXTS)),
        _ => rng.pick(&TEXTS).to_string(),
    }
}

/// A text that stands close to one of the row's.
fn text_near(rng: &mut Rng, row: &Row) -> String {
    let texts: Vec<&String> =
        row.values.iter().filter_map(|value| if let Value::Text(text) = value { Some(text) } else { None }).collect();
    if texts.is_empty() || rng.once_in(3) {
        return text(rng);
    }
    let near = *rng.pick(&texts);
    match rng.below(3) {
        0 => near.clone(),
        1 => format!("{near}{}", rng.pick(&TEXTS)),
        _ => {
            let letters = near.chars().count();
            near.chars().take(rng.between(0, letters)).collect()
        }
    }
}

fn value(rng: &mut Rng, temper: Temper, column: &Column) -> Value {
    if column.nullable && rng.once_in(3) {
        return Value::Null;
    }
    match column.data_type {
        ColumnType::Int => Value::Int(int(rng, temper)),
        ColumnType::Text => Value::Text(text(rng)),
        ColumnType::Bool => Value::Bool(rng.once_in(2)),
    }
}

fn obeying_row(rng: &mut Rng, temper: Temper, table: &Table) -> Row {
    Row { values: table.columns.iter().map(|column| value(rng, temper, column)).collect() }
}

// ---- statements

/// An UPDATE that binds, whose literals suit the row. Of a table with nothing but its key a DELETE.
fn update_of(rng: &mut Rng, temper: Temper, table: &Table, row: &Row) -> Tree {
    let mut tree = statements::update(rng, table);
    if let Tree::Update(update) = &mut tree {
        // So that the values are worked out often enough.
        if rng.once_in(3) {
            update.condition = Some(Expression::leaf(Node::True));
        }
        let values = update.assignments.iter_mut().map(|assignment| &mut assignment.value);
        for expression in values.chain(&mut update.condition) {
            expression.nodes.iter_mut().for_each(|node| suit(rng, temper, row, node));
        }
        if rng.once_in(12) {
            update.assignments.iter_mut().for_each(|assignment| turn_sign(rng, table, assignment));
        }
    }
    tree
}

/// Makes the value of an INT column one that the least INT of another has a rule of its own for.
fn turn_sign(rng: &mut Rng, table: &Table, assignment: &mut Assignment) {
    let Target::Column(ObjectName::One(name)) = &assignment.target else { return };
    let Some(target) = position(name, table).map(|place| &table.columns[place]) else { return };
    let fits = |column: &&Column| column.data_type == ColumnType::Int && (target.nullable || !column.nullable);
    let operands: Vec<&Column> = table.columns.iter().filter(fits).collect();
    if target.data_type != ColumnType::Int || operands.is_empty() {
        return;
    }
    let operand = Expression::leaf(Node::Name(Name::quoted(rng.pick(&operands).name.clone())));
    let minus_one = Expression::unary(Node::Minus, Expression::leaf(Node::Number("1".to_string())));
    let operators = [Operator::Multiply, Operator::Divide, Operator::Modulo];
    assignment.value = match operators.get(rng.below(4)) {
        Some(operator) => Expression::binary(Node::Binary(*operator), operand, minus_one),
        None => Expression::unary(Node::Minus, operand),
    };
}

/// Changes most literals. A number stays one that a sign may stand before.
fn suit(rng: &mut Rng, temper: Temper, row: &Row, node: &mut Node) {
    match node {
        Node::Number(digits) if temper == Temper::Calm || !rng.once_in(4) => {
            *digits = int(rng, temper).saturating_abs().to_string();
        }
        Node::Text(text) if !rng.once_in(4) => *text = text_near(rng, row),
        _ => {}
    }
}

// ---- rows with faults

/// Makes the bytes of a row, given the table that it obeyed.
type RowFault = fn(&mut Rng, &Catalogue, &Table, Row) -> Vec<u8>;

pub const ROW_FAULTS: &[(&str, RowFault)] = &[
    ("row bytes damaged", |rng, _, _, row| {
        let mut bytes = bytes(row);
        damage_bytes(rng, &mut bytes);
        bytes
    }),
    ("row cut", |rng, _, _, row| {
        let mut bytes = bytes(row);
        bytes.truncate(rng.below(bytes.len()));
        bytes
    }),
    ("value left out of the row", |rng, _, _, mut row| {
        row.values.remove(rng.below(row.values.len()));
        bytes(row)
    }),
    ("value more in the row", |rng, _, _, mut row| {
        let place = rng.between(0, row.values.len());
        row.values.insert(place, any_value(rng));
        bytes(row)
    }),
    ("NULL in the row", |rng, _, _, mut row| {
        let place = rng.below(row.values.len());
        row.values[place] = Value::Null;
        bytes(row)
    }),
    ("NULL where the row must not have it", |rng, _, table, mut row| {
        let places: Vec<usize> = (0..row.values.len()).filter(|place| !table.columns[*place].nullable).collect();
        row.values[*rng.pick(&places)] = Value::Null;
        bytes(row)
    }),
    ("value of any type in the row", |rng, _, _, mut row| {
        let place = rng.below(row.values.len());
        row.values[place] = any_value(rng);
        bytes(row)
    }),
    ("row in another order", |rng, _, _, mut row| {
        rng.shuffle(&mut row.values);
        bytes(row)
    }),
    ("row of any table", |rng, catalogue, _, row| match catalogue.tables.as_slice() {
        [] => bytes(row),
        tables => {
            let table = rng.pick(tables);
            bytes(obeying_row(rng, Temper::Mixed, table))
        }
    }),
    ("any row", |rng, _, _, _| bytes(any_row(rng))),
];

fn bytes(row: Row) -> Vec<u8> {
    row.encode().unwrap_or_default()
}
