//! The comparison itself: what the generator reaches, that planted mistakes are caught and made small, and that a
//! sample can be read back.

use images::show::from_hex;
use judge::compare::mistakes::{mistaken, names};
use judge::compare::sample::sample;
use judge::compare::shrink::shrink;
use judge::compare::tally::{Tally, kind_of};
use judge::compare::{Side, run_case};
use judge::generate::{Case, planted};
use judge::judge::{Answer, judge};

#[test]
fn the_rust_answers_every_case_and_every_class_and_kind_comes_up() {
    let mut tally = Tally::default();
    let mut seen = [[false; 10]; 11];
    for index in 0..12_000 {
        let case = planted(5, index).case;
        let outcome = run_case(&case, &mut None, index);
        assert_eq!(outcome.difference, None, "case {index}");
        seen[kind_of(&case)][usize::from(outcome.verdict.answer.number())] = true;
        tally.add(&case, &outcome.verdict);
    }
    assert!((0..10).all(|number| seen.iter().any(|kind| kind[number])), "a class did not come up");
    assert!(seen.iter().all(|kind| kind.contains(&true)), "a kind did not come up");
    let report = tally.report(false);
    assert!(!report.contains("not reached"), "{report}");
    assert!(!report.contains("no known place"), "{report}");
}

#[test]
fn the_answer_does_not_depend_on_the_field_behind_a_mark() {
    for index in 0..2_000 {
        let case = planted(6, index).case;
        let answers: Vec<Answer> = (0..3).map(|choice| run_case(&case, &mut None, choice).verdict.answer).collect();
        assert!(answers.iter().all(|answer| *answer == answers[0]), "case {index}");
    }
}

/// The first case of a seed that shows a mistake.
fn first_difference(side: &mut Side) -> Option<Case> {
    (0..100_000).map(|index| planted(7, index).case).find(|case| run_case(case, side, 0).difference.is_some())
}

#[test]
fn planted_mistakes_are_caught_and_made_small() {
    for name in names() {
        let mut side: Side = Some(Box::new(mistaken(name).expect("a listed mistake")));
        let case = first_difference(&mut side).unwrap_or_else(|| panic!("{name} is not caught"));
        let small = shrink(&case, &mut |case| run_case(case, &mut side, 0).difference.is_some());
        assert!(run_case(&small, &mut side, 0).difference.is_some(), "{name}");
        let size = small.size();
        assert!(size <= 450, "{name}: the smallest case found has {size} bytes");
    }
}

#[test]
fn a_sample_reads_back_to_the_same_answers() {
    let text = sample(8, 300);
    let mut numbers = [0; 10];
    for line in text.lines().filter(|line| !line.starts_with('#')) {
        let words: Vec<&str> = line.split(' ').collect();
        let bytes = |word: &str| if word == "-" { Vec::new() } else { from_hex(word).unwrap() };
        let [number, room, statement, catalogue, bound] = words.as_slice() else { panic!("{line}") };
        let expected = match number.parse().unwrap() {
            0 => Answer::Bound(bytes(bound)),
            number => Answer::Refused(number),
        };
        numbers[usize::from(expected.number())] += 1;
        assert_eq!(judge(&bytes(statement), &bytes(catalogue), room.parse().unwrap()), expected);
    }
    assert_eq!(numbers.iter().sum::<usize>(), 300);
    assert!(numbers.iter().all(|count| *count > 0), "{numbers:?}");
}

/// Takes a number of four bytes off the front.
fn take_number(bytes: &mut &[u8]) -> usize {
    let (number, rest) = bytes.split_first_chunk().expect("four bytes");
    *bytes = rest;
    u32::from_le_bytes(*number) as usize
}

fn take_bytes<'a>(bytes: &mut &'a [u8], length: usize) -> &'a [u8] {
    let (taken, rest) = bytes.split_at(length);
    *bytes = rest;
    taken
}

#[test]
fn the_record_in_the_repository_is_what_the_rust_answers() {
    let file = std::fs::read(concat!(env!("CARGO_MANIFEST_DIR"), "/../../../crates/replay/data/binds")).unwrap();
    let bytes = &mut file.as_slice();
    let cases = take_number(bytes);
    for index in 0..cases {
        let number = take_bytes(bytes, 1)[0];
        let [room, statement, catalogue, bound] = [(); 4].map(|()| take_number(bytes));
        let [statement, catalogue, bound] = [statement, catalogue, bound].map(|length| take_bytes(bytes, length));
        let expected = if number == 0 { Answer::Bound(bound.to_vec()) } else { Answer::Refused(number) };
        assert_eq!(judge(statement, catalogue, room), expected, "case {index}");
    }
    assert!(cases >= 3_000 && bytes.is_empty());
}
