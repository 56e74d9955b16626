//! The refusals are said in the same words here, in the header for C and on the page for operators.

use sirklemet::Refusal;

fn read(path: &str) -> String {
    let file = format!("{}/../{path}", env!("CARGO_MANIFEST_DIR"));
    std::fs::read_to_string(&file).unwrap_or_else(|error| panic!("{file}: {error}"))
}

/// What the header calls this number.
fn name_in(header: &str, number: u8) -> &str {
    let value = format!(" = {number},");
    let line = header.lines().find(|line| line.ends_with(&value)).unwrap_or_else(|| panic!("the header has no {number}"));
    line.trim_end_matches(&value).trim()
}

#[test]
fn one_table_of_words() {
    let header = read("sirklemet.h");
    let page = read("../../docs/REFUSALS.md");
    for refusal in Refusal::ALL {
        let (number, words) = (refusal.number(), refusal.words());
        let case = format!("case {}: return\n        \"{words}\";", name_in(&header, number));
        assert!(header.contains(&case), "the header does not say of {number}: {words}");
        assert!(page.contains(&format!("| {number} | {words} |")), "the page does not say of {number}: {words}");
        assert_eq!(Refusal::of_number(number), Some(refusal));
    }
    assert_eq!(Refusal::of_number(0), None);
}
