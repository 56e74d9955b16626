//! A record of runs with their answers, as bytes: what a proved program replays where there is no Rust.
//! `tools/judge/runs/RECORD` says how it is laid out.

use std::collections::{BTreeMap, HashSet};

use judge::compare::sample::in_turn;

use crate::compare::Comparison;
use crate::generate::{Case, Made, made};
use crate::judge_run::{Answer, judge_run};
use crate::tally::Tally;

/// No image of a recorded case is longer, so that a program replays it over a small buffer.
const LONGEST: usize = 1_500;

/// How many cases are looked at for each one that is taken.
const LOOKED_AT: u64 = 20;

/// The record's bytes, and for people what it holds.
pub struct Record {
    pub bytes: Vec<u8>,
    pub tally: Tally,
}

/// `count` cases, or what they do not reach.
pub fn record(seed: u64, count: usize) -> Result<Record, String> {
    let mut seen = HashSet::new();
    let mut found: BTreeMap<String, Vec<(usize, u64)>> = BTreeMap::new();
    for index in 0..count as u64 * LOOKED_AT {
        let made = made(seed, index);
        let answer = answer_of(&made.case);
        if is_short(&made.case, &answer) && seen.insert(made.case.clone()) {
            for key in keys(&made, &answer) {
                found.entry(key).or_default().push((made.case.size(), index));
            }
        }
    }
    let indices = in_turn(found, count);
    let mut bytes = number(indices.len())?;
    let mut comparison = Comparison::default();
    for index in indices {
        let case = made(seed, index).case;
        comparison.see(&case);
        bytes.extend(case_bytes(&case, &answer_of(&case))?);
    }
    match comparison.tally.missing().as_slice() {
        [] => Ok(Record { bytes, tally: comparison.tally }),
        missing => Err(format!("{count} cases of seed {seed} do not reach: {}", missing.join("; "))),
    }
}

fn answer_of(case: &Case) -> Answer {
    judge_run(&case.statement, &case.catalogue, &case.row, case.room)
}

fn is_short(case: &Case, answer: &Answer) -> bool {
    let lengths = [&case.statement, &case.catalogue, &case.row].map(Vec::len);
    lengths.into_iter().chain([answer.bytes().len(), case.room]).all(|length| length <= LONGEST)
}

/// What a record must reach: every planted fault, and every end of every operator, with every answer that it came to.
/// Binding has a record of its own, so that each of its refusals is one key here.
fn keys(made: &Made, answer: &Answer) -> Vec<String> {
    let number = answer.number();
    if (1..=8).contains(&number) {
        return vec![format!("{number}")];
    }
    let mut keys: Vec<String> = made.faults.iter().map(|fault| format!("{fault} {number}")).collect();
    let mut comparison = Comparison::default();
    comparison.see(&made.case);
    for (operator, ends) in comparison.tally.ends.iter().enumerate() {
        keys.extend((0..ends.len()).filter(|end| ends[*end] > 0).map(|end| format!("{operator} {end} {number}")));
    }
    keys.push(format!("{number}"));
    keys
}

fn case_bytes(case: &Case, answer: &Answer) -> Result<Vec<u8>, String> {
    let images = [&case.statement, &case.catalogue, &case.row, answer.bytes()];
    let mut bytes = vec![answer.number()];
    bytes.extend(number(case.room)?);
    for image in images {
        bytes.extend(number(image.len())?);
    }
    bytes.extend(images.concat());
    Ok(bytes)
}

/// Four bytes, the lowest first.
fn number(value: usize) -> Result<Vec<u8>, String> {
    let value = u32::try_from(value).map_err(|_| format!("{value} does not fit four bytes"))?;
    Ok(value.to_le_bytes().to_vec())
}
