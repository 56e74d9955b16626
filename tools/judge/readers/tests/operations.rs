//! The two public operations answer damaged images as the Rust does, and a mistake on one side shows.

use readers::operations::Operation;
use readers::operations::binding::Binding;
use readers::operations::compare::compare;
use readers::operations::running::Running;

#[test]
fn bind_answers_damaged_images_as_the_rust_does() {
    let mut operation = Binding::default();
    let comparison = compare(&mut operation, 5, 100_000);
    assert_eq!((comparison.tally.all(), comparison.differences), (100_000, 0));
    assert!((0..=9).all(|number| comparison.tally.answered(number) > 0), "{}", comparison.tally.report());
}

#[test]
fn run_answers_damaged_images_as_the_rust_does() {
    let mut operation = Running::default();
    let comparison = compare(&mut operation, 5, 100_000);
    assert_eq!((comparison.tally.all(), comparison.differences), (100_000, 0));
    assert!((0..=12).all(|number| comparison.tally.answered(number) > 0), "{}", comparison.tally.report());
}

fn is_caught(mut operation: impl Operation) -> bool {
    compare(&mut operation, 3, 3_000).differences > 0
}

/// Mistakes about damage, order, rooms and the output. Those about the rules are caught by the comparisons of their own.
const AT_BIND: [&str; 10] = [
    "any-mark",
    "any-name",
    "any-sum-of-lengths",
    "any-type",
    "key-nullable",
    "names-up-to-129",
    "catalogue-before-statement",
    "letters-after-binding",
    "room-must-be-larger",
    "writes-on-refusal",
];

const AT_RUN: [&str; 13] = [
    "any-mark",
    "any-sum-of-lengths",
    "any-truth-value",
    "any-text-in-a-row",
    "bytes-behind-a-value",
    "sum-of-a-row's-lengths",
    "value-of-any-type",
    "any-number-of-values",
    "old-row-handed-back",
    "room-must-be-larger",
    "writes-on-refusal",
    "writes-past-the-length",
    "length-of-the-room",
];

#[test]
fn planted_mistakes_are_caught_at_bind() {
    for name in AT_BIND {
        assert!(is_caught(Binding::mistaken(name).expect("it is listed")), "{name} is not caught");
    }
}

#[test]
fn planted_mistakes_are_caught_at_run() {
    for name in AT_RUN {
        assert!(is_caught(Running::mistaken(name).expect("it is listed")), "{name} is not caught");
    }
}
