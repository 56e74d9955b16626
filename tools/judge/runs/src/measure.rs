//! What is measured of a run: the runs table's first UPDATE. A measurement is no test: it says nothing about answers.

use images::text;
use images::value::Value;
use judge::measure::nanoseconds;

use crate::generate::Case;
use crate::sqlite::{Database, Found};

const RUNS: &str = include_str!(concat!(env!("CARGO_MANIFEST_DIR"), "/../../../examples/runs.catalogue.txt"));
const BEFORE: &str = include_str!(concat!(env!("CARGO_MANIFEST_DIR"), "/../../../examples/before.row.txt"));
pub const UPDATE: &str = "UPDATE runs SET minutes = minutes + 1 WHERE ok";

/// More room than the row after needs.
const ROOM: usize = 1_024;

/// The UPDATE over the worked example's row.
pub fn case() -> Result<Case, String> {
    let catalogue = text::catalogue::catalogue(RUNS).map_err(|error| error.in_text(RUNS))?;
    let statement = text::sql::statement(UPDATE).map_err(|error| error.in_text(UPDATE))?;
    let row = text::row::row(BEFORE).map_err(|error| error.in_text(BEFORE))?;
    Ok(Case {
        statement: statement.encode().map_err(|error| error.0)?,
        catalogue: catalogue.encode().map_err(|error| error.0)?,
        row: row.encode().map_err(|error| error.0)?,
        room: ROOM,
    })
}

/// Nanoseconds that SQLite takes for a row: the UPDATE is prepared once, and stepped over an in-memory table of that one
/// row. None where SQLite was not found.
pub fn sqlite_nanoseconds() -> Option<Result<f64, String>> {
    Some(Database::open()?.and_then(|database| measured(&database)))
}

fn measured(database: &Database) -> Result<f64, String> {
    database.execute(
        "CREATE TABLE runs (serial TEXT NOT NULL PRIMARY KEY, minutes INTEGER NOT NULL, temp INTEGER, ok BOOL NOT NULL)",
    )?;
    let row = text::row::row(BEFORE).map_err(|error| error.in_text(BEFORE))?;
    let mut insert = database.prepare("INSERT INTO runs VALUES (?1, ?2, ?3, ?4)")?;
    for (place, value) in row.values.iter().enumerate() {
        insert.bind(place + 1, value)?;
    }
    insert.run()?;
    let mut update = database.prepare(UPDATE)?;
    let mut steps = 0;
    let mut failed = None;
    let nanoseconds = nanoseconds(|| {
        steps += 1;
        failed = failed.take().or(update.run().err());
    });
    match failed {
        Some(message) => Err(message),
        None => hold_to_steps(database, &row.values[1], steps).map(|()| nanoseconds),
    }
}

/// Every step changed the row.
fn hold_to_steps(database: &Database, before: &Value, steps: i64) -> Result<(), String> {
    let mut select = database.prepare("SELECT minutes FROM runs")?;
    select.step()?;
    match (select.found(0), before) {
        (Found::Int(after), Value::Int(before)) if after == before + steps => Ok(()),
        (found, before) => Err(format!("{steps} steps lead from {before:?} to {found:?}")),
    }
}

#[cfg(test)]
mod tests {
    use super::*;
    use crate::judge_run::{Answer, judge_run};

    #[test]
    fn what_is_measured_is_the_worked_example() {
        let case = case().unwrap();
        let after = include_str!(concat!(env!("CARGO_MANIFEST_DIR"), "/../../../examples/after.row.txt"));
        let after = text::row::row(after).unwrap().encode().unwrap();
        assert_eq!(judge_run(&case.statement, &case.catalogue, &case.row, case.room), Answer::Row(after));
    }
}
