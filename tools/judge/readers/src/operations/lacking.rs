//! Operations that lack one test of the decoder, to see that the comparison catches it.

use images::catalogue;
use judge::compare::other_side as binders;
use judge::judge::{Answer, judge};
use runs::generate::Case;
use runs::judge_run::{bound_update, judge_run};
use runs::other_side as runners;

use crate::mistakes::Mistake;
use crate::sides::{Asked, Table, rust};

/// Answers as the Rust does, but where the mistake tells something else of an image: with that number then.
pub struct Lacking(pub &'static Mistake);

impl Lacking {
    fn told_otherwise(&self, asked: &Asked, bytes: &[u8]) -> Option<u8> {
        let told = self.0.told(asked, bytes).number;
        (told != rust(asked, bytes).number).then_some(told)
    }

    fn of_statement_or_catalogue(&self, statement: &[u8], tables: &[u8]) -> Option<u8> {
        self.told_otherwise(&Asked::Statement, statement).or_else(|| self.told_otherwise(&Asked::Catalogue, tables))
    }

    fn of_row(&self, case: &Case) -> Option<u8> {
        let update = bound_update(&case.statement, &case.catalogue).ok()?;
        let tables = catalogue::decode(&case.catalogue).ok()?.tables;
        let number = tables.iter().position(|table| table.id == update.table.id)?;
        let asked = Asked::RowOf(Table { tables: case.catalogue.clone(), number });
        self.told_otherwise(&asked, &case.row).or_else(|| self.told_otherwise(&Asked::Row, &case.row))
    }
}

impl binders::OtherSide for Lacking {
    fn bind(&mut self, statement: &[u8], tables: &[u8], out: &mut [u8]) -> binders::Reply {
        if let Some(number) = self.of_statement_or_catalogue(statement, tables) {
            return binders::Reply { number, length: 0 };
        }
        match judge(statement, tables, out.len()) {
            Answer::Refused(number) => binders::Reply { number, length: 0 },
            Answer::Bound(image) => {
                out[..image.len()].copy_from_slice(&image);
                binders::Reply { number: 0, length: image.len() }
            }
        }
    }
}

impl runners::OtherSide for Lacking {
    fn run(&mut self, case: &Case, out: &mut [u8]) -> runners::Reply {
        let told = self.of_statement_or_catalogue(&case.statement, &case.catalogue).or_else(|| self.of_row(case));
        if let Some(number) = told {
            return runners::Reply { number, length: 0 };
        }
        let answer = judge_run(&case.statement, &case.catalogue, &case.row, out.len());
        let length = answer.bytes().len();
        out[..length].copy_from_slice(answer.bytes());
        runners::Reply { number: answer.number(), length }
    }
}
