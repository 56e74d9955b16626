//! A sample of cases with the Rust's answers, as lines of hex.

use std::collections::{BTreeMap, BTreeSet};

use images::show::hex;

use super::places::{PLACES, place_of};
use super::tally::kind_of;
use crate::decode::Choice;
use crate::generate::{Case, Planted, planted};
use crate::judge::{Answer, Verdict, judge_with};

const HEADING: &str = "\
# A sample of the Rust analyzer's answers. Each line but these is one case, five words with one space between:
#   the answer's number in decimal: 0 where the statement binds, else the refusal, 1 to 9
#   the room for the answer in bytes, in decimal
#   the statement's bytes in hex, two lower-case digits a byte, or - where there are none
#   the catalogue's bytes, in the same way
#   the bytes of the bound statement, in the same way; - where it is refused
# 1 to 4 are the Rust's own; 5 to 8 come before it and 9 after it, by paper 01.
";

pub fn verdict_of(case: &Case) -> Verdict {
    judge_with(&case.statement, &case.catalogue, case.room, &mut Choice::new(0))
}

/// What a sample must reach: every answer from every place, of 1 to 4 for every kind of statement, and every planted
/// fault with every answer that it came to. A large case serves a fault only where it binds or passes a limit.
fn keys_of(made: &Planted, verdict: &Verdict) -> Vec<String> {
    let number = verdict.answer.number();
    let kind = if (5..=7).contains(&number) { 0 } else { kind_of(&made.case) };
    let mut keys = vec![format!("{kind} {number} {}", place_text(verdict))];
    if made.case.size() <= LARGE || number == 0 || number == 7 {
        keys.extend(made.faults.iter().map(|fault| format!("{fault} {number}")));
    }
    keys
}

/// Where the refusal came from, without names and numbers.
fn place_text(verdict: &Verdict) -> String {
    match verdict.answer.number() {
        1..=4 => place_of(&verdict.reason).map_or(String::new(), |place| PLACES[place].to_string()),
        5..=7 => {
            let outside_quotes = verdict.reason.split('"').step_by(2);
            outside_quotes.flat_map(str::chars).filter(|letter| !letter.is_ascii_digit()).collect()
        }
        _ => String::new(),
    }
}

/// How many cases are looked at for each one that is taken.
const LOOKED_AT: u64 = 20;

/// Of cases larger than this, each key takes one only.
const LARGE: usize = 4_000;

/// `count` cases, in turn for every key, small cases first.
pub fn sample(seed: u64, count: usize) -> String {
    let indices = chosen(seed, count, |_, _| true);
    let lines: String = indices.into_iter().map(|index| line(&planted(seed, index).case)).collect();
    format!("{HEADING}# Made by: tools/compare --seed {seed} --sample {count}\n{lines}")
}

/// The indices of `count` of the cases that are admitted, taken in turn for every key, small cases first.
pub fn chosen(seed: u64, count: usize, mut admits: impl FnMut(&Case, &Verdict) -> bool) -> BTreeSet<u64> {
    let mut found: BTreeMap<String, Vec<(usize, u64)>> = BTreeMap::new();
    for index in 0..count as u64 * LOOKED_AT {
        let made = planted(seed, index);
        let verdict = verdict_of(&made.case);
        if !admits(&made.case, &verdict) {
            continue;
        }
        for key in keys_of(&made, &verdict) {
            found.entry(key).or_default().push((made.case.size(), index));
        }
    }
    in_turn(found, count)
}

/// `count` numbers of cases, taken in turn for every key, small cases first. With each number stands the case's size.
pub fn in_turn(found: BTreeMap<String, Vec<(usize, u64)>>, count: usize) -> BTreeSet<u64> {
    let mut queues: Vec<Vec<u64>> = found.into_values().map(smallest_last).collect();
    let mut chosen = BTreeSet::new();
    while chosen.len() < count && queues.iter().any(|queue| !queue.is_empty()) {
        for queue in &mut queues {
            if chosen.len() < count {
                chosen.extend(queue.pop());
            }
        }
    }
    chosen
}

fn smallest_last(mut cases: Vec<(usize, u64)>) -> Vec<u64> {
    cases.sort_unstable();
    let small = cases.iter().filter(|(size, _)| *size <= LARGE).count();
    cases.truncate(small.max(1));
    cases.into_iter().rev().map(|(_, index)| index).collect()
}

fn line(case: &Case) -> String {
    let answer = verdict_of(case).answer;
    let word = |bytes: &[u8]| if bytes.is_empty() { "-".to_string() } else { hex(bytes) };
    let bound = match &answer {
        Answer::Bound(image) => word(image),
        Answer::Refused(_) => "-".to_string(),
    };
    format!("{} {} {} {} {bound}\n", answer.number(), case.room, word(&case.statement), word(&case.catalogue))
}
