//! What a caller of a run must hear: binding's refusals but 9, then 12, 10, 11, 9.

use images::bound::{Assignment, Bound, Expression};
use images::row::Row;
use images::{bound, catalogue, row};
use judge::judge as binding;

use crate::evaluate::{Fault, Paper, Rules, evaluate};

#[derive(Debug, Clone, PartialEq, Eq)]
pub enum Answer {
    Refused(u8),
    /// The image of the row after.
    Row(Vec<u8>),
}

impl Answer {
    /// 0 where there is a row, else the number of the refusal.
    pub fn number(&self) -> u8 {
        match self {
            Answer::Refused(number) => *number,
            Answer::Row(_) => 0,
        }
    }

    /// The image of the row after; nothing where the run is refused.
    pub fn bytes(&self) -> &[u8] {
        match self {
            Answer::Refused(_) => &[],
            Answer::Row(image) => image,
        }
    }
}

/// A bound UPDATE, and the table that it is of.
pub struct Update {
    pub table: catalogue::Table,
    pub assignments: Vec<Assignment>,
    pub condition: Expression,
}

pub fn judge_run(statement: &[u8], catalogue: &[u8], row: &[u8], room: usize) -> Answer {
    judge_run_by(&Paper, statement, catalogue, row, room)
}

/// The same by other rules, for planted mistakes.
pub fn judge_run_by(rules: &dyn Rules, statement: &[u8], catalogue: &[u8], row: &[u8], room: usize) -> Answer {
    match judged(rules, statement, catalogue, row, room) {
        Ok(image) => Answer::Row(image),
        Err(number) => Answer::Refused(number),
    }
}

fn judged(rules: &dyn Rules, statement: &[u8], catalogue: &[u8], row: &[u8], room: usize) -> Result<Vec<u8>, u8> {
    let update = bound_update(statement, catalogue)?;
    let old = row::decode_of(row, &update.table).map_err(|_| 10)?;
    let new = ran(rules, &update, &old).map_err(|_| 11)?;
    fitted(&new, room)
}

/// What the Rust binds, with 12 for all but an UPDATE.
pub fn bound_update(statement: &[u8], catalogue: &[u8]) -> Result<Update, u8> {
    let image = match binding::judge(statement, catalogue, usize::MAX) {
        binding::Answer::Bound(image) => image,
        binding::Answer::Refused(number) => return Err(number),
    };
    match bound::decode(&image).expect("the judge answers with an image") {
        Bound::Update { table, assignments, filter } => {
            let tables = catalogue::decode(catalogue).expect("it was bound against").tables;
            let table = tables.into_iter().find(|other| other.id == table.id).expect("it was bound against");
            Ok(Update { table, assignments, condition: filter })
        }
        _ => Err(12),
    }
}

/// The row after.
pub fn ran(rules: &dyn Rules, update: &Update, old: &Row) -> Result<Row, Fault> {
    let mut new = old.clone();
    if !rules.holds(&evaluate(rules, &update.condition, old)?) {
        return Ok(new);
    }
    for Assignment { column, value } in &update.assignments {
        let value = evaluate(rules, value, rules.read_row(old, &new))?;
        new.values[column.ordinal as usize] = value;
    }
    Ok(new)
}

pub fn fitted(row: &Row, room: usize) -> Result<Vec<u8>, u8> {
    let image = row.encode().expect("the row after has an image, as its TEXT stands in the images before");
    if image.len() > room { Err(9) } else { Ok(image) }
}
