//! `sirklemet_run`, beside the Rust's decoder and analyzer and paper 01's value rules in Rust.

use images::random::Rng;
use images::row;
use runs::compare::reply_differs;
use runs::evaluate::Paper;
use runs::generate::{Case, made};
use runs::judge_run::{Answer, Update, bound_update, fitted, judge_run, ran};
use runs::mistakes::{mistaken, names};
use runs::other_side::OtherSide;

use super::compare::SMALL;
use super::lacking::Lacking;
use super::linked::Linked;
use super::{Judged, Operation, Part, in_room};
use crate::mistakes::{MISTAKES, named};

pub struct Running {
    other: Box<dyn OtherSide>,
    /// Of many damaged rows in turn the statement and the catalogue are the same.
    last: Option<Last>,
}

struct Last {
    statement: Vec<u8>,
    catalogue: Vec<u8>,
    update: Result<Update, u8>,
}

impl Last {
    fn is_of(&self, case: &Case) -> bool {
        self.statement == case.statement && self.catalogue == case.catalogue
    }

    fn of(case: &Case) -> Self {
        let update = bound_update(&case.statement, &case.catalogue);
        Last { statement: case.statement.clone(), catalogue: case.catalogue.clone(), update }
    }
}

impl Default for Running {
    fn default() -> Self {
        Running { other: Box::new(Linked), last: None }
    }
}

impl Running {
    /// In place of the library the Rust with a mistake.
    pub fn mistaken(name: &str) -> Option<Self> {
        let other: Box<dyn OtherSide> = match mistaken(name) {
            Some(runner) => Box::new(runner),
            None => Box::new(Lacking(named(name)?)),
        };
        Some(Running { other, last: None })
    }

    /// A table that is not there is no mistake here: the row is held to the table that was bound.
    pub fn mistakes() -> Vec<&'static str> {
        let of_images = MISTAKES.iter().map(|mistake| mistake.name).filter(|name| *name != "row-of-no-table");
        of_images.chain(names()).collect()
    }
}

/// The row above all.
fn damaged(index: u64) -> Part {
    match index % 12 {
        0 => Part::Statement,
        6 => Part::Catalogue,
        _ => Part::Row,
    }
}

impl Operation for Running {
    fn parts(&self) -> &'static [Part] {
        &[Part::Statement, Part::Catalogue, Part::Row]
    }

    fn small_case(&self, seed: u64, index: u64) -> (Case, Part) {
        let mut rng = Rng::of_case(seed, index);
        let part = damaged(index);
        loop {
            let case = made(rng.draw(), 0).case;
            let small = [&case.statement, &case.catalogue, &case.row].iter().all(|image| image.len() <= SMALL);
            let number = judge_run(&case.statement, &case.catalogue, &case.row, 0).number();
            // a row is looked at only where an UPDATE is bound
            let worth = match part {
                Part::Row => matches!(number, 9 | 11),
                _ => !matches!(number, 5 | 6),
            };
            if small && worth {
                return (case, part);
            }
        }
    }

    fn judged(&mut self, case: &Case) -> Judged {
        if !self.last.as_ref().is_some_and(|last| last.is_of(case)) {
            self.last = None;
        }
        let last = self.last.get_or_insert_with(|| Last::of(case));
        let update = last.update.as_ref().map_err(|number| *number)?;
        let old = row::decode_of(&case.row, &update.table).map_err(|_| 10)?;
        let new = ran(&Paper, update, &old).map_err(|_| 11)?;
        fitted(&new, usize::MAX)
    }

    fn differs(&mut self, case: &Case, judged: &Judged) -> Option<String> {
        let answer = in_room(judged, case.room).map_or_else(Answer::Refused, Answer::Row);
        reply_differs(case, &answer, self.other.as_mut())
    }
}
