//! A record of cases with the Rust's answers, as bytes: what the repository's own tests replay where there is no Rust.
//! `crates/replay/data/README` says how the record in the repository was made and how it is laid out.

use std::collections::{BTreeSet, HashSet};

use super::places::{PLACES, place_of};
use super::sample::{chosen, verdict_of};
use super::tally::{KINDS, NUMBERS, Tally, kind_of};
use crate::generate::{Case, planted};
use crate::judge::{Answer, Verdict};

/// No image of a recorded case is longer, so that a program replays it over a small buffer.
const LONGEST: usize = 1_500;

/// The most room that the program lends for an answer (`most` of crates/replay_record/specs/Layout.antt).
const MOST_ROOM: usize = 4_500;

/// The record's bytes, and for people what it holds.
pub struct Record {
    pub bytes: Vec<u8>,
    pub tally: Tally,
}

/// `count` cases, or what they do not reach.
pub fn record(seed: u64, count: usize) -> Result<Record, String> {
    let mut seen = HashSet::new();
    let indices = chosen(seed, count, |case, verdict| {
        is_short(case, verdict) && seen.insert((case.statement.clone(), case.catalogue.clone(), case.room))
    });
    let mut record = Record { bytes: number(indices.len())?, tally: Tally::default() };
    let mut reached = Reached::default();
    for index in indices {
        let made = planted(seed, index);
        let verdict = verdict_of(&made.case);
        record.bytes.extend(case_bytes(&made.case, &verdict.answer)?);
        record.tally.add(&made.case, &verdict);
        if let Some([one, two]) = made.alone() {
            record.tally.add_pair(one, two);
        }
        reached.add(&made.case, &verdict);
    }
    match reached.missing().as_slice() {
        [] => Ok(record),
        missing => Err(format!("{count} cases of seed {seed} do not reach: {}", missing.join("; "))),
    }
}

fn is_short(case: &Case, verdict: &Verdict) -> bool {
    let answer = bound_bytes(&verdict.answer).len();
    case.statement.len().max(case.catalogue.len()).max(answer) <= LONGEST && case.room <= MOST_ROOM
}

fn bound_bytes(answer: &Answer) -> &[u8] {
    match answer {
        Answer::Bound(image) => image,
        Answer::Refused(_) => &[],
    }
}

fn case_bytes(case: &Case, answer: &Answer) -> Result<Vec<u8>, String> {
    let images = [&case.statement, &case.catalogue, bound_bytes(answer)];
    let mut bytes = vec![answer.number()];
    bytes.extend(number(case.room)?);
    for image in images {
        bytes.extend(number(image.len())?);
    }
    bytes.extend(images.concat());
    Ok(bytes)
}

/// Four bytes, the lowest first.
fn number(value: usize) -> Result<Vec<u8>, String> {
    let value = u32::try_from(value).map_err(|_| format!("{value} does not fit four bytes"))?;
    Ok(value.to_le_bytes().to_vec())
}

/// What the cases of a record came to.
#[derive(Default)]
struct Reached {
    numbers: BTreeSet<usize>,
    kinds: BTreeSet<usize>,
    bound_kinds: BTreeSet<usize>,
    places: BTreeSet<usize>,
}

impl Reached {
    fn add(&mut self, case: &Case, verdict: &Verdict) {
        let number = verdict.answer.number();
        self.numbers.insert(usize::from(number));
        self.kinds.insert(kind_of(case));
        self.bound_kinds.extend(bound_bytes(&verdict.answer).first().map(|kind| usize::from(*kind)));
        if (1..=4).contains(&number) {
            self.places.extend(place_of(&verdict.reason));
        }
    }

    fn missing(&self) -> Vec<String> {
        let numbers = (0..NUMBERS).filter(|number| !self.numbers.contains(number)).map(|it| format!("answer {it}"));
        let kinds = (0..KINDS).filter(|kind| !self.kinds.contains(kind)).map(|it| format!("statement kind {it}"));
        let bound =
            (0..BOUND_KINDS).filter(|kind| !self.bound_kinds.contains(kind)).map(|it| format!("bound kind {it}"));
        let places = (0..PLACES.len()).filter(|place| !self.places.contains(place)).map(|it| PLACES[it].to_string());
        numbers.chain(kinds).chain(bound).chain(places).collect()
    }
}

/// The kinds of a bound statement.
const BOUND_KINDS: usize = 10;
