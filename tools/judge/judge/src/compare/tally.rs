//! Counts of what the cases were and how they were answered.

use images::statement::{self, kind_name};

use super::places::{PLACES, place_of};
use crate::generate::Case;
use crate::judge::Verdict;

/// 0 where a statement binds, and the refusals.
pub const NUMBERS: usize = 10;
/// The ten kinds, and bytes that are no statement.
pub const KINDS: usize = 11;

/// Of so many cases it is counted which faults met. It is no comparison, and takes as long as one.
pub const PAIRED: u64 = 100_000;

pub struct Tally {
    cases: usize,
    /// By kind, then by answer.
    answers: [[usize; NUMBERS]; KINDS],
    places: Vec<usize>,
    unknown_places: Vec<String>,
    /// How often two faults met in one case, by the answers that each gets alone.
    pairs: [[usize; NUMBERS]; NUMBERS],
    faults: Vec<(&'static str, usize)>,
}

impl Default for Tally {
    fn default() -> Self {
        Tally {
            cases: 0,
            answers: [[0; NUMBERS]; KINDS],
            places: vec![0; PLACES.len()],
            unknown_places: Vec::new(),
            pairs: [[0; NUMBERS]; NUMBERS],
            faults: Vec::new(),
        }
    }
}

/// The kind of a case's statement; 10 where its bytes are none.
pub fn kind_of(case: &Case) -> usize {
    statement::decode(&case.statement).map_or(KINDS - 1, |value| usize::from(value.tree.kind()))
}

impl Tally {
    pub fn add(&mut self, case: &Case, verdict: &Verdict) {
        self.cases += 1;
        let number = usize::from(verdict.answer.number());
        self.answers[kind_of(case)][number] += 1;
        if (1..=4).contains(&number) {
            match place_of(&verdict.reason) {
                Some(place) => self.places[place] += 1,
                None if self.unknown_places.len() < 5 => self.unknown_places.push(verdict.reason.clone()),
                None => {}
            }
        }
    }

    pub fn add_fault(&mut self, name: &'static str) {
        match self.faults.iter_mut().find(|(known, _)| *known == name) {
            Some((_, count)) => *count += 1,
            None => self.faults.push((name, 1)),
        }
    }

    pub fn add_pair(&mut self, first: u8, second: u8) {
        let (low, high) = (first.min(second), first.max(second));
        self.pairs[usize::from(low)][usize::from(high)] += 1;
    }

    /// Every class, kind and pair of classes. `places` lists every place of the Rust as well.
    pub fn report(&self, places: bool) -> String {
        let mut text = self.answers_table();
        text.push_str(&self.pairs_table());
        text.push_str(&self.places_line());
        if places {
            text.push_str(&self.places_list());
        }
        text
    }

    fn answers_table(&self) -> String {
        let mut text = format!("{:<16}", "answered with");
        (1..NUMBERS).for_each(|number| text.push_str(&format!("{number:>8}")));
        text.push_str(&format!("{:>8}{:>9}\n", "bound", "all"));
        for (kind, row) in self.answers.iter().enumerate() {
            let name = if kind == KINDS - 1 { "no statement" } else { kind_name(kind as u8) };
            text.push_str(&answers_row(name, row));
        }
        let mut sums = [0; NUMBERS];
        for row in &self.answers {
            row.iter().zip(&mut sums).for_each(|(count, sum)| *sum += count);
        }
        text.push_str(&answers_row("all", &sums));
        text
    }

    fn pairs_table(&self) -> String {
        let mut text = format!(
            "\ntwo faults in one case (of the first {PAIRED}), by what each alone is answered with (0: it binds)\n    "
        );
        (0..NUMBERS).for_each(|number| text.push_str(&format!("{number:>7}")));
        text.push('\n');
        for (low, row) in self.pairs.iter().enumerate() {
            text.push_str(&format!("{low:>4}"));
            for (high, count) in row.iter().enumerate() {
                text.push_str(&if high < low { " ".repeat(7) } else { format!("{count:>7}") });
            }
            text.push('\n');
        }
        text
    }

    fn places_line(&self) -> String {
        let reached = self.places.iter().filter(|count| **count > 0).count();
        let fewest = self.places.iter().min().unwrap_or(&0);
        let mut text = format!(
            "\nplaces where the Rust refuses: {reached} of {} reached, each at least {fewest} times\n",
            PLACES.len()
        );
        for (words, _) in PLACES.iter().zip(&self.places).filter(|(_, count)| **count == 0) {
            text.push_str(&format!("  not reached: {words}\n"));
        }
        for message in &self.unknown_places {
            text.push_str(&format!("  a message of no known place: {message}\n"));
        }
        text
    }

    fn places_list(&self) -> String {
        let places = PLACES.iter().zip(&self.places).map(|(words, count)| format!("{count:>9}  {words}\n"));
        let faults = self.faults.iter().map(|(name, count)| format!("{count:>9}  fault: {name}\n"));
        places.chain(faults).collect()
    }
}

fn answers_row(name: &str, row: &[usize; NUMBERS]) -> String {
    let mut text = format!("{name:<16}");
    row[1..].iter().for_each(|count| text.push_str(&format!("{count:>8}")));
    text.push_str(&format!("{:>8}{:>9}\n", row[0], row.iter().sum::<usize>()));
    text
}
