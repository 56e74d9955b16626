//! The comparison at an operation: generated images, damaged copies of them and images at the limits, in several rooms.

use images::random::Rng;
use images::text;
use runs::generate::Case;

use super::tally::{Room, Tally};
use super::{Judged, Operation, Part, in_room, number};
use crate::copies::{Way, every_copy, spliced};
use crate::edges::edges;
use crate::sides::Kind;

/// Small enough that a million copies are of some hundred cases, with every damage.
pub const SMALL: usize = 500;

/// A case that is answered differently.
pub struct Difference {
    pub case: Case,
    pub way: Way,
    pub words: String,
}

pub struct Comparison<'a> {
    operation: &'a mut dyn Operation,
    /// How many cases are still to be compared.
    left: u64,
    pub tally: Tally,
    pub differences: u64,
    pub first: Option<Difference>,
}

/// Of fifty cases one is compared as it was made, 39 have one image damaged at one place, and ten have one image spliced,
/// or each. To make a case takes much longer than to compare a copy of it.
pub fn compare(operation: &mut dyn Operation, seed: u64, count: u64) -> Comparison<'_> {
    let mut comparison = Comparison { operation, left: 0, tally: Tally::default(), differences: 0, first: None };
    let (made, splices) = ((count / 50).max(LEAST_AS_MADE).min(count), count / 5);
    comparison.cases_as_made(seed, made);
    comparison.every_copy(seed, (count - made).saturating_sub(splices));
    comparison.splices(seed, splices.min(count - made));
    comparison
}

/// With the images at the limits, of which there are some 300.
const LEAST_AS_MADE: u64 = 400;

const RUNS: &str = include_str!(concat!(env!("CARGO_MANIFEST_DIR"), "/../../../examples/runs.catalogue.txt"));
const BEFORE: &str = include_str!(concat!(env!("CARGO_MANIFEST_DIR"), "/../../../examples/before.row.txt"));
const UPDATE: &str = "UPDATE runs SET minutes = minutes + 1 WHERE ok";

/// The worked example.
pub fn example() -> Case {
    let statement = text::sql::statement(UPDATE).expect("it is SQL").encode();
    let catalogue = text::catalogue::catalogue(RUNS).expect("it is a catalogue").encode();
    let row = text::row::row(BEFORE).expect("it is a row").encode();
    let [statement, catalogue, row] = [statement, catalogue, row].map(|image| image.expect("it has an image"));
    Case { statement, catalogue, row, room: 0 }
}

/// Each image at a limit or past it, with the others of the worked example.
fn at_the_edges() -> impl Iterator<Item = (Part, Case)> {
    edges().into_iter().map(|(asked, image)| {
        let part = if asked.kind() == Kind::Statement { Part::Statement } else { Part::Catalogue };
        let mut case = example();
        part.put(&mut case, &image);
        (part, case)
    })
}

/// The rooms that a case is answered in. A refusal must not depend on it.
fn rooms(judged: &Judged) -> Vec<(Room, usize)> {
    match judged {
        Err(_) => vec![(Room::Ample, 64), (Room::None, 0)],
        Ok(image) => {
            let length = image.len();
            vec![(Room::Ample, length + 64), (Room::Exact, length), (Room::OneShort, length - 1), (Room::None, 0)]
        }
    }
}

impl Comparison<'_> {
    fn see(&mut self, damaged: &[Part], way: Way, case: &mut Case) {
        if self.left == 0 {
            return;
        }
        self.left -= 1;
        let judged = self.operation.judged(case);
        self.tally.add(damaged, number(&judged), way);
        for (room, bytes) in rooms(&judged) {
            case.room = bytes;
            self.tally.add_call(room, number(&in_room(&judged, bytes)));
            if let Some(words) = self.operation.differs(case, &judged) {
                self.differences += 1;
                self.first.get_or_insert_with(|| Difference { case: case.clone(), way, words });
            }
        }
    }

    fn cases_as_made(&mut self, seed: u64, count: u64) {
        self.left = count;
        for (part, mut case) in at_the_edges() {
            self.see(&[part], Way::Made, &mut case);
        }
        let mut index = 0;
        while self.left > 0 {
            let (mut case, _) = self.operation.small_case(seed, index);
            self.see(&[], Way::Made, &mut case);
            index += 1;
        }
    }

    fn every_copy(&mut self, seed: u64, count: u64) {
        self.left = count;
        let mut index = 0;
        while self.left > 0 {
            let (mut case, part) = self.operation.small_case(seed, index);
            let image = part.of(&case).to_vec();
            self.tally.add_whole(part, &image);
            every_copy(&mut Rng::of_case(seed, index), &image, &mut |way, bytes| {
                part.put(&mut case, bytes);
                self.see(&[part], way, &mut case);
            });
            index += 1;
        }
    }

    fn splices(&mut self, seed: u64, count: u64) {
        self.left = count;
        let mut index = 0;
        while self.left > 0 {
            // not the cases that every_copy took
            let (case, part) = self.operation.small_case(!seed, index);
            let (other, _) = self.operation.small_case(!seed, !index);
            let mut rng = Rng::of_case(!seed, index);
            for _ in 0..50 {
                let damaged = if rng.once_in(3) { self.operation.parts() } else { &[part] };
                let mut copy = case.clone();
                for part in damaged {
                    part.put(&mut copy, &spliced(&mut rng, part.of(&case), part.of(&other)));
                }
                self.see(damaged, Way::Spliced, &mut copy);
            }
            index += 1;
        }
    }
}
