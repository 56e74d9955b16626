//! Names as a catalogue holds them and as a statement may spell them.

use images::random::Rng;
use images::statement::Name;

/// Names that fold to themselves.
const PLAIN: [&str; 16] = [
    "runs", "labels", "serial", "minutes", "temp", "ok", "a", "b", "c", "d", "x1", "_y", "sample", "note", "k", "batch",
];

/// Names that only quotes can spell.
const ODD: [&str; 12] = ["Runs", "Temp", "OK", "A", "B", "two words", "été", "İ", "Ω", "", "say \"x\"", "select;"];

/// A name for a catalogue.
pub fn canonical(rng: &mut Rng) -> String {
    if rng.once_in(5) { rng.pick(&ODD).to_string() } else { rng.pick(&PLAIN).to_string() }
}

/// A name for a catalogue that is none of `taken`.
pub fn fresh(rng: &mut Rng, taken: &[&str]) -> String {
    for _ in 0..20 {
        let name = canonical(rng);
        if !taken.contains(&name.as_str()) {
            return name;
        }
    }
    format!("n{}", first_free(taken))
}

/// The first number behind an n that no name has.
fn first_free(taken: &[&str]) -> usize {
    let mut free = vec![true; taken.len() + 1];
    for number in taken.iter().filter_map(|name| name.strip_prefix('n')?.parse::<usize>().ok()) {
        if let Some(free) = free.get_mut(number) {
            *free = false;
        }
    }
    free.into_iter().position(|free| free).expect("there are more numbers than names")
}

/// A way to write a catalogue's name: quoted as it is, or unquoted in any case where that folds to it.
pub fn spell(rng: &mut Rng, canonical: &str) -> Name {
    let folds = canonical.is_ascii() && !canonical.chars().any(|letter| letter.is_ascii_uppercase());
    if !folds || rng.once_in(4) {
        return Name::quoted(canonical);
    }
    match rng.below(4) {
        0 => Name::unquoted(canonical.to_ascii_uppercase()),
        1 => Name::unquoted(mixed_case(rng, canonical)),
        _ => Name::unquoted(canonical),
    }
}

pub fn mixed_case(rng: &mut Rng, text: &str) -> String {
    text.chars()
        .map(|letter| if rng.once_in(2) { letter.to_ascii_uppercase() } else { letter.to_ascii_lowercase() })
        .collect()
}

/// A name that no catalogue holds, or one that comes close to `canonical`.
pub fn misspell(rng: &mut Rng, canonical: &str) -> Name {
    match rng.below(5) {
        0 => Name::quoted(canonical.to_ascii_uppercase() + "Z"),
        1 => Name::quoted(mixed_case(rng, canonical) + "Q"),
        2 => Name::unquoted(format!("{canonical}_")),
        3 => Name::unquoted("nosuch"),
        _ => Name::quoted("No Such"),
    }
}

/// Unquoted letters past ASCII, some of which the Rust's own folding would change.
pub fn beyond_ascii(rng: &mut Rng) -> Name {
    Name::unquoted(*rng.pick(&["été", "Å", "İ", "ẞ", "tempé", "\u{80}", "K", "ſ"]))
}

/// A name of 128 or 129 bytes.
pub fn long(rng: &mut Rng) -> String {
    let length = rng.between(128, 129);
    let start = if rng.once_in(3) { "é" } else { "l" };
    format!("{start}{}", "o".repeat(length - start.len()))
}
