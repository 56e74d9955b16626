//! Raw texts: what the client sent, and texts around SHOW TRANSACTIONS.

use images::random::{Rng, any_text};
use images::statement::Tree;
use images::text::print::tree_to_sql;

use super::names::mixed_case;

/// Every White_Space character, and some that only look like one.
const SPACES: [char; 25] = [
    '\u{9}', '\u{a}', '\u{b}', '\u{c}', '\u{d}', ' ', '\u{85}', '\u{a0}', '\u{1680}', '\u{2000}', '\u{2001}',
    '\u{2002}', '\u{2003}', '\u{2004}', '\u{2005}', '\u{2006}', '\u{2007}', '\u{2008}', '\u{2009}', '\u{200a}',
    '\u{2028}', '\u{2029}', '\u{202f}', '\u{205f}', '\u{3000}',
];
const NO_SPACES: [char; 10] =
    ['\u{8}', '\u{e}', '\u{1f}', '\u{84}', '\u{86}', '\u{180e}', '\u{200b}', '\u{2027}', '\u{2060}', '\u{feff}'];

pub fn raw(rng: &mut Rng, tree: &Tree) -> String {
    match rng.below(10) {
        0 => any_text(rng),
        1 => around_show_transactions(rng),
        _ => format!("{}{}{}", spaces(rng), tree_to_sql(tree), spaces(rng)),
    }
}

fn spaces(rng: &mut Rng) -> String {
    if rng.once_in(2) {
        return String::new();
    }
    (0..rng.between(1, 3)).map(|_| *rng.pick(&SPACES)).collect()
}

/// Mostly spaces that are trimmed.
fn edge(rng: &mut Rng) -> String {
    let mut edge = spaces(rng);
    if rng.once_in(8) {
        edge.push(*rng.pick(&NO_SPACES));
    }
    edge
}

pub fn around_show_transactions(rng: &mut Rng) -> String {
    let show = *rng.pick(&["SHOW", "SHOW", "SHOW", "SHOW", "SHOW", "SHOW", "SHO", "ſHOW", "SHOWS"]);
    let between = *rng.pick(&[" ", " ", " ", " ", " ", " ", "  ", "\t", "\u{a0}", ""]);
    let transactions = *rng.pick(&[
        "TRANSACTIONS",
        "TRANSACTIONS",
        "TRANSACTIONS",
        "TRANSACTIONS",
        "TRANSACTIONS",
        "TRANSACTION",
        "TRANSACTIONſ",
    ]);
    let end = *rng.pick(&["", "", ";", ";", ";", ";;", "; ;", ";\u{2028};", "--"]);
    let words = format!("{show}{between}{transactions}");
    format!("{}{}{}{end}{}", edge(rng), mixed_case(rng, &words), edge(rng), edge(rng))
}
