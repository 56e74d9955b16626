//! How long calls take, and the cases that are measured. A measurement is no test: it says nothing about answers.

use std::process::Command;
use std::time::{Duration, Instant};

use images::catalogue::{Catalogue, Table};
use images::text;

use crate::generate::Case;

/// A case that binds, with a name for people.
pub struct Measured {
    pub name: &'static str,
    pub case: Case,
}

const RUNS: &str = include_str!(concat!(env!("CARGO_MANIFEST_DIR"), "/../../../examples/runs.catalogue.txt"));
const UPDATE: &str = "UPDATE runs SET minutes = minutes + 1 WHERE ok";

/// More room than any of the answers needs.
pub const ROOM: usize = 1 << 20;

const DEPTH: usize = 64;
const COLUMNS: usize = 64;
const ROWS: usize = 1_024;
const TABLES: u64 = 256;

/// An everyday statement, and one at each of the limits that the time could depend on.
pub fn cases() -> Result<Vec<Measured>, String> {
    let runs = text::catalogue::catalogue(RUNS).map_err(|error| error.in_text(RUNS))?;
    let many_tables = many_tables(&runs.tables[0]);
    let small = format!("UPDATE runs{} SET minutes = 1 WHERE ok", TABLES - 1);
    Ok(vec![
        measured("the runs table's first row", UPDATE, &runs)?,
        measured("UPDATE, 127 nodes, depth 64", &deep_update(), &runs)?,
        measured("CREATE TABLE, 64 columns", &wide_create(COLUMNS), &runs)?,
        measured("INSERT, 1,024 rows by 4 values", &long_insert(ROWS), &runs)?,
        measured("small UPDATE, 256 tables", &small, &many_tables)?,
    ])
}

/// Statements that grow: how the time does is to be seen.
pub fn growing() -> Result<Vec<Measured>, String> {
    let runs = text::catalogue::catalogue(RUNS).map_err(|error| error.in_text(RUNS))?;
    Ok(vec![
        measured("INSERT, 16 rows", &long_insert(16), &runs)?,
        measured("INSERT, 128 rows", &long_insert(128), &runs)?,
        measured("INSERT, 1,024 rows", &long_insert(ROWS), &runs)?,
        measured("UPDATE, 16 groups of AND", &wide_update(1), &runs)?,
        measured("UPDATE, 128 groups of AND", &wide_update(8), &runs)?,
        measured("UPDATE, 512 groups of AND", &wide_update(32), &runs)?,
        measured("CREATE TABLE, 4 columns", &wide_create(4), &runs)?,
        measured("CREATE TABLE, 16 columns", &wide_create(16), &runs)?,
        measured("CREATE TABLE, 64 columns", &wide_create(COLUMNS), &runs)?,
    ])
}

fn measured(name: &'static str, sql: &str, catalogue: &Catalogue) -> Result<Measured, String> {
    let statement = text::sql::statement(sql).map_err(|error| error.in_text(sql))?;
    let in_case = |error: images::bytes::NoImage| format!("{name}: {}", error.0);
    let case = Case {
        statement: statement.encode().map_err(in_case)?,
        catalogue: catalogue.encode().map_err(in_case)?,
        room: ROOM,
    };
    Ok(Measured { name, case })
}

/// Sums lean to the left, so that 64 operands are 64 levels and 127 nodes.
fn deep_update() -> String {
    format!("UPDATE runs SET minutes = minutes{} WHERE ok", " + 1".repeat(DEPTH - 1))
}

/// Some times 16 groups of four names each, none of them deep.
fn wide_update(times: usize) -> String {
    let group = vec!["(ok AND ok AND ok AND ok)"; 16].join(" AND ");
    format!("UPDATE runs SET minutes = 1 WHERE {}", vec![format!("({group})"); times].join(" AND "))
}

fn wide_create(columns: usize) -> String {
    let columns: Vec<String> = (1..columns).map(|place| format!("column_{place} INT")).collect();
    format!("CREATE TABLE wide (column_0 INT PRIMARY KEY, {})", columns.join(", "))
}

/// Written tight: with its raw text the statement has to stay below 65,536 bytes.
fn long_insert(rows: usize) -> String {
    format!("INSERT INTO runs (serial, minutes, temp, ok) VALUES {}", vec!["('a',1,2,TRUE)"; rows].join(","))
}

/// As many tables as a catalogue may have, like the given one but for name and id. The last is asked for.
fn many_tables(table: &Table) -> Catalogue {
    let numbered = |id: u64| Table { id, name: format!("{}{id}", table.name), ..table.clone() };
    Catalogue { tables: (0..TABLES).map(numbered).collect() }
}

/// Long enough that the clock's own time does not count, short enough that some batches are not interrupted.
const BATCH: Duration = Duration::from_millis(10);
const BATCHES: usize = 40;

/// Nanoseconds per call, by the fastest of many batches: what else runs on the machine only ever adds time.
pub fn nanoseconds(mut call: impl FnMut()) -> f64 {
    let mut calls = 1;
    while batch(calls, &mut call) < BATCH {
        calls *= 2;
    }
    let fastest = (0..BATCHES).map(|_| batch(calls, &mut call)).min().unwrap_or_default();
    fastest.as_nanos() as f64 / calls as f64
}

fn batch(calls: u64, call: &mut impl FnMut()) -> Duration {
    let start = Instant::now();
    (0..calls).for_each(|_| call());
    start.elapsed()
}

/// The instructions of one call of the function of this symbol and of what it calls, counted by valgrind, which runs this
/// program again with these words: behind them it makes the call once.
pub fn instructions(symbol: &str, words: &[&str]) -> Result<f64, String> {
    let in_words = |error: std::io::Error| format!("valgrind: {error}");
    let output = Command::new("valgrind")
        .args(["--tool=callgrind", "--callgrind-out-file=/dev/null"])
        .arg(format!("--toggle-collect={symbol}"))
        .arg(std::env::current_exe().map_err(in_words)?)
        .args(words)
        .output()
        .map_err(in_words)?;
    let said = String::from_utf8_lossy(&output.stderr).into_owned();
    let collected = said.lines().find_map(|line| line.split("Collected :").nth(1));
    collected.and_then(|number| number.trim().parse().ok()).ok_or(format!("valgrind counted nothing:\n{said}"))
}
