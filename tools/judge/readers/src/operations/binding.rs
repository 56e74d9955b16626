//! `sirklemet_bind`, beside the Rust's decoder and analyzer.

use images::random::Rng;
use judge::compare::mistakes::{mistaken, names};
use judge::compare::other_side::OtherSide;
use judge::compare::reply_differs;
use judge::generate::{self, planted};
use judge::judge::{Answer, judge};
use runs::generate::Case;

use super::compare::SMALL;
use super::lacking::Lacking;
use super::linked::Linked;
use super::{Judged, Operation, Part, in_room};
use crate::mistakes::{MISTAKES, named};

pub struct Binding {
    other: Box<dyn OtherSide>,
}

impl Default for Binding {
    fn default() -> Self {
        Binding { other: Box::new(Linked) }
    }
}

impl Binding {
    /// In place of the library the Rust with a mistake.
    pub fn mistaken(name: &str) -> Option<Self> {
        let other: Box<dyn OtherSide> = match mistaken(name) {
            Some(binder) => Box::new(binder),
            None => Box::new(Lacking(named(name)?)),
        };
        Some(Binding { other })
    }

    pub fn mistakes() -> Vec<&'static str> {
        let of_images = MISTAKES.iter().filter(|mistake| !mistake.of_rows()).map(|mistake| mistake.name);
        of_images.chain(names()).collect()
    }
}

const PARTS: &[Part] = &[Part::Statement, Part::Catalogue];

impl Operation for Binding {
    fn parts(&self) -> &'static [Part] {
        PARTS
    }

    fn small_case(&self, seed: u64, index: u64) -> (Case, Part) {
        let mut rng = Rng::of_case(seed, index);
        // every other pair binds where there is room
        let binds = index % 4 < 2;
        loop {
            let generate::Case { statement, catalogue, .. } = planted(rng.draw(), 0).case;
            let small = statement.len().max(catalogue.len()) <= SMALL;
            let number = judge(&statement, &catalogue, 0).number();
            let worth = if binds { number == 9 } else { !matches!(number, 5 | 6) };
            if small && worth {
                let case = Case { statement, catalogue, row: Vec::new(), room: 0 };
                return (case, PARTS[index as usize % PARTS.len()]);
            }
        }
    }

    fn judged(&mut self, case: &Case) -> Judged {
        match judge(&case.statement, &case.catalogue, usize::MAX) {
            Answer::Bound(image) => Ok(image),
            Answer::Refused(number) => Err(number),
        }
    }

    fn differs(&mut self, case: &Case, judged: &Judged) -> Option<String> {
        let answer = in_room(judged, case.room).map_or_else(Answer::Refused, Answer::Bound);
        let Case { statement, catalogue, room, .. } = case.clone();
        reply_differs(&generate::Case { statement, catalogue, room }, &answer, self.other.as_mut())
    }
}
