//! Counts of what was compared at an operation.

use std::collections::BTreeMap;
use std::ops::RangeInclusive;

use images::statement::{self, kind_name};

use super::Part;
use crate::copies::Way;
use crate::tally::{Counts, heads, line};

/// 0 where something is written, and the refusals.
const NUMBERS: RangeInclusive<u8> = 0..=12;

/// How much room is given, by what the answer needs.
#[derive(Debug, Clone, Copy, PartialEq, Eq, PartialOrd, Ord)]
pub enum Room {
    Ample,
    Exact,
    OneShort,
    None,
}

impl Room {
    fn name(self) -> &'static str {
        match self {
            Room::Ample => "more than the answer needs",
            Room::Exact => "exactly its length",
            Room::OneShort => "one byte less",
            Room::None => "no byte",
        }
    }
}

#[derive(Default)]
pub struct Tally {
    /// By the damaged part and what the Rust says with enough room, then by way of damage.
    counts: BTreeMap<(&'static str, u8), Counts>,
    /// Calls, by the room and what the Rust says with it.
    calls: BTreeMap<(Room, u8), u64>,
    /// The images of which every damaged copy was compared, and their bytes.
    whole: BTreeMap<Part, [u64; 2]>,
    /// Of these statements how many are of each kind.
    kinds: BTreeMap<u8, u64>,
}

impl Tally {
    pub fn add(&mut self, damaged: &[Part], number: u8, way: Way) {
        let name = match damaged {
            [] => "none",
            [part] => part.name(),
            _ => "each",
        };
        self.counts.entry((name, number)).or_default()[way as usize] += 1;
    }

    pub fn add_call(&mut self, room: Room, number: u8) {
        *self.calls.entry((room, number)).or_default() += 1;
    }

    pub fn add_whole(&mut self, part: Part, image: &[u8]) {
        let [images, bytes] = self.whole.entry(part).or_default();
        *images += 1;
        *bytes += image.len() as u64;
        if part == Part::Statement
            && let Ok(statement) = statement::decode(image)
        {
            *self.kinds.entry(statement.tree.kind()).or_default() += 1;
        }
    }

    pub fn all(&self) -> u64 {
        self.counts.values().flatten().sum()
    }

    pub fn calls(&self) -> u64 {
        self.calls.values().sum()
    }

    /// How many calls are answered with a number, 0 where something is written.
    pub fn answered(&self, number: u8) -> u64 {
        self.calls.iter().filter(|((_, other), _)| *other == number).map(|(_, count)| count).sum()
    }

    pub fn report(&self) -> String {
        let mut text = heads("damaged, and the answer");
        for ((name, number), counts) in &self.counts {
            let answer = if *number == 0 { "taken".to_string() } else { format!("refused {number}") };
            text.push_str(&line(&format!("{name}, {answer}"), counts));
        }
        text.push_str(&self.calls_table());
        for (part, [images, bytes]) in &self.whole {
            let name = part.name();
            text.push_str(&format!(
                "damaged at each byte and cut at each length: {images} {name} images of {bytes} bytes in all\n"
            ));
        }
        let kinds: Vec<String> =
            self.kinds.iter().map(|(kind, count)| format!("{} {count}", kind_name(*kind))).collect();
        text.push_str(&format!("these statements by kind: {}\n", kinds.join(", ")));
        text
    }

    fn calls_table(&self) -> String {
        let mut text = format!("{:<28}", "calls, by room and answer");
        NUMBERS.for_each(|number| text.push_str(&format!("{number:>9}")));
        text.push('\n');
        for room in [Room::Ample, Room::Exact, Room::OneShort, Room::None] {
            text.push_str(&format!("{:<28}", room.name()));
            NUMBERS.for_each(|number| {
                let count = self.calls.get(&(room, number)).copied().unwrap_or_default();
                text.push_str(&format!("{count:>9}"));
            });
            text.push('\n');
        }
        text
    }
}
