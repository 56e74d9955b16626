//! The proved readers and the Rust decoder agree, and a mistake on one side shows.

use readers::compare::compare;
use readers::edges::edges;
use readers::mistakes::MISTAKES;
use readers::sides::{Kind, rust};

#[test]
fn both_sides_agree() {
    let comparison = compare(None, 5, 50_000);
    assert_eq!(comparison.tally.all(), 50_000);
    assert_eq!(comparison.differences, 0);
}

#[test]
fn the_edges_are_on_both_sides() {
    let mut numbers = [[0; 9]; 2];
    for (asked, image) in edges() {
        let place = usize::from(asked.kind() == Kind::Catalogue);
        numbers[place][usize::from(rust(&asked, &image).number)] += 1;
    }
    let [statements, catalogues] = numbers;
    assert!(statements[0] > 50 && statements[5] == 0 && statements[7] > 50 && statements[8] > 50, "{statements:?}");
    assert!(catalogues[0] > 5 && catalogues[6] == 0 && catalogues[7] > 5, "{catalogues:?}");
}

#[test]
fn every_planted_mistake_is_caught() {
    for mistake in MISTAKES {
        let caught = |count| compare(Some(mistake), 3, count).differences > 0;
        assert!([3_000, 20_000, 100_000].into_iter().any(caught), "{} is not caught", mistake.name);
    }
}
