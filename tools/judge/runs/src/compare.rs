//! The comparison: paper 01's rules in Rust beside SQLite, and beside another runner, case by case.

use images::row::{self, Row};
use images::statement::{self, Tree};
use judge::compare::untouched;

use crate::evaluate::{Paper, Rules, every_node, null_meets_and_or};
use crate::generate::Case;
use crate::judge_run::{Answer, Update, bound_update, fitted, ran};
use crate::other_side::OtherSide;
use crate::second::{Asked, Seen, see_update};
use crate::sql::Form;
use crate::sqlite::OneRow;
use crate::tally::Tally;

/// The sides beside 01's rules. Where there is none the rules run alone.
pub struct Comparison {
    /// Paper 01's, or such with a mistake, to see that SQLite catches it.
    pub rules: &'static dyn Rules,
    pub sqlite: Option<OneRow>,
    pub other: Option<Box<dyn OtherSide>>,
    pub tally: Tally,
}

impl Default for Comparison {
    fn default() -> Self {
        Comparison { rules: &Paper, sqlite: None, other: None, tally: Tally::default() }
    }
}

impl Comparison {
    /// The first thing that differs, if anything does.
    pub fn see(&mut self, case: &Case) -> Option<String> {
        let asked = bound_update(&case.statement, &case.catalogue).and_then(|update| {
            let row = row::decode_of(&case.row, &update.table).map_err(|_| 10)?;
            Ok((update, row))
        });
        let (answer, difference) = match asked {
            Ok((update, row)) => self.runnable(case, &update, &row),
            Err(number) => (Answer::Refused(number), None),
        };
        self.tally.answer(answer.number());
        difference.or(self.see_reply(case, &answer))
    }

    /// A bound UPDATE and a row that obeys its table: what the run is answered with, and what SQLite says against it.
    fn runnable(&mut self, case: &Case, update: &Update, row: &Row) -> (Answer, Option<String>) {
        let new = ran(self.rules, update, row);
        let difference = self.see_sqlite(case, update, row, new.as_ref().ok());
        let image = new.map_err(|_| 11).and_then(|new| {
            self.tally.row(new != *row);
            fitted(&new, case.room)
        });
        (image.map_or_else(Answer::Refused, Answer::Row), difference)
    }

    /// Every expression by itself, also one that the run does not come to; then the whole UPDATE, if it has a row.
    fn see_sqlite(&mut self, case: &Case, update: &Update, row: &Row, new: Option<&Row>) -> Option<String> {
        let Ok(Tree::Update(written)) = statement::decode(&case.statement).map(|statement| statement.tree) else {
            panic!("an UPDATE was bound");
        };
        let mut first = self.sqlite.as_mut().and_then(|sqlite| sqlite.set(row).err());
        let mut form = Form::Plain;
        let values = written.assignments.iter().zip(&update.assignments).map(|(one, other)| (&one.value, &other.value));
        for (written, bound) in written.condition.iter().map(|one| (one, &update.condition)).chain(values) {
            let worked = every_node(self.rules, bound, row);
            self.tally.nodes(bound, &worked);
            if null_meets_and_or(bound, &worked) {
                form = Form::Strict;
            }
            if let Some(sqlite) = &mut self.sqlite {
                let seen = Asked { table: &update.table, written: &written.nodes, bound, worked: &worked }.see(sqlite);
                self.tally.expressions.add(&seen);
                first = first.or(in_words(seen));
            }
        }
        if let (Some(sqlite), Some(new)) = (&mut self.sqlite, new) {
            let seen = see_update(sqlite, &written, &update.table, form, [row, new]);
            self.tally.updates.add(&seen);
            first = first.or(in_words(seen));
        }
        first
    }

    /// Holds number, length and every byte of the output to the answer.
    fn see_reply(&mut self, case: &Case, answer: &Answer) -> Option<String> {
        let other = self.other.as_mut()?;
        let difference = reply_differs(case, answer, other.as_mut());
        self.tally.replies += 1;
        self.tally.replies_differ += u64::from(difference.is_some());
        difference
    }
}

fn in_words(seen: Seen) -> Option<String> {
    match seen {
        Seen::Differs(words) => Some(words),
        _ => None,
    }
}

/// What a runner answers otherwise, writes otherwise, or writes where nothing belongs.
pub fn reply_differs(case: &Case, answer: &Answer, other: &mut dyn OtherSide) -> Option<String> {
    let length = answer.bytes().len();
    let mut wanted = untouched(case.room);
    wanted[..length].copy_from_slice(answer.bytes());
    let mut out = untouched(case.room);
    let reply = other.run(case, &mut out);
    if reply.number != answer.number() {
        let name = |number: u8| if number == 0 { "a row".to_string() } else { format!("refused {number}") };
        return Some(format!("01 says {}, the other side {}", name(answer.number()), name(reply.number)));
    }
    if reply.length != length {
        return Some(format!("the row after has {length} bytes, the other side says {}", reply.length));
    }
    let place = wanted.iter().zip(&out).position(|(want, have)| want != have)?;
    let of = if place < length { "of the row after" } else { "past the row after" };
    Some(format!("byte {place}, {of}, is {} and must be {}", out[place], wanted[place]))
}
