//! The comparison itself: what the generator reaches, that SQLite agrees, that planted mistakes are caught, and that a
//! record reads back.

use runs::compare::Comparison;
use runs::generate::{Case, ROW_FAULTS, made};
use runs::judge_run::{Answer, judge_run};
use runs::mistakes::{mistaken, mistaken_rules, names};
use runs::record::record;
use runs::sqlite::OneRow;

#[test]
fn every_answer_and_every_end_of_every_operator_comes_up() {
    let mut comparison = Comparison::default();
    let mut row_faults: Vec<&str> = ROW_FAULTS.iter().map(|fault| fault.0).collect();
    for index in 0..20_000 {
        let made = made(5, index);
        assert_eq!(comparison.see(&made.case), None, "case {index}");
        row_faults.retain(|fault| !made.faults.contains(fault));
    }
    assert_eq!(comparison.tally.missing(), Vec::<String>::new());
    assert_eq!(row_faults, Vec::<&str>::new());
}

#[test]
fn a_case_does_not_depend_on_the_cases_before_it() {
    let cases: Vec<Case> = (0..200).map(|index| made(6, index).case).collect();
    assert!((0..200).rev().all(|index| made(6, index).case == cases[index as usize]));
    assert!(cases.iter().enumerate().all(|(place, case)| !cases[..place].contains(case)));
}

#[test]
fn sqlite_agrees() {
    let Some(sqlite) = OneRow::open() else {
        println!("SQLite: skipped (libsqlite3 is not found)");
        return;
    };
    let mut comparison = Comparison { sqlite: Some(sqlite.unwrap()), ..Comparison::default() };
    for index in 0..10_000 {
        assert_eq!(comparison.see(&made(7, index).case), None, "case {index}");
    }
    assert!(comparison.tally.expressions.alike > 10_000 && comparison.tally.updates.alike > 3_000);
    assert_eq!(comparison.tally.differences(), 0);
}

#[test]
fn planted_mistakes_are_caught() {
    for name in names() {
        let other = mistaken(name).expect("a listed mistake");
        let mut comparison = Comparison { other: Some(Box::new(other)), ..Comparison::default() };
        let caught = (0..300_000).find(|index| comparison.see(&made(8, *index).case).is_some());
        assert!(caught.is_some(), "{name} is not caught");
        println!("{name}: case {}", caught.unwrap_or_default());
    }
}

/// The second judge alone, without another runner.
#[test]
fn sqlite_catches_mistaken_value_rules() {
    for (name, rules) in mistaken_rules() {
        let Some(sqlite) = OneRow::open() else { return };
        let mut comparison = Comparison { rules, sqlite: Some(sqlite.unwrap()), ..Comparison::default() };
        let caught = (0..300_000).any(|index| comparison.see(&made(10, index).case).is_some());
        assert!(caught, "{name} is not caught");
    }
}

/// Takes a number of four bytes off the front.
fn take_number(bytes: &mut &[u8]) -> usize {
    let (number, rest) = bytes.split_first_chunk().expect("four bytes");
    *bytes = rest;
    u32::from_le_bytes(*number) as usize
}

fn take_bytes<'a>(bytes: &mut &'a [u8], length: usize) -> &'a [u8] {
    let (taken, rest) = bytes.split_at(length);
    *bytes = rest;
    taken
}

#[test]
fn a_record_reads_back_to_the_same_answers() {
    let record = record(9, 1_000).unwrap_or_else(|missing| panic!("{missing}"));
    let bytes = &mut record.bytes.as_slice();
    let mut numbers = [0; 13];
    for index in 0..take_number(bytes) {
        let number = take_bytes(bytes, 1)[0];
        let [room, statement, catalogue, row, after] = [(); 5].map(|()| take_number(bytes));
        let [statement, catalogue, row, after] =
            [statement, catalogue, row, after].map(|length| take_bytes(bytes, length));
        let expected = if number == 0 { Answer::Row(after.to_vec()) } else { Answer::Refused(number) };
        assert_eq!(judge_run(statement, catalogue, row, room), expected, "case {index}");
        numbers[usize::from(number)] += 1;
    }
    assert!(bytes.is_empty());
    assert!(numbers.iter().sum::<usize>() == 1_000 && numbers.iter().all(|count| *count > 0), "{numbers:?}");
}
