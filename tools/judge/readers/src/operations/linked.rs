//! The operations of the static library, as crates/sirklemet/sirklemet.h declares them. The crate `sirklemet` links it, but
//! says nothing of the length that comes with a refusal.

use judge::compare::{other_side as binders, untouched};
use runs::generate::Case;
use runs::other_side as runners;

unsafe extern "C" {
    pub fn sirklemet_bind(
        statement: *const u8,
        statement_length: usize,
        catalogue: *const u8,
        catalogue_length: usize,
        out: *mut u8,
        out_length: usize,
        written: *mut usize,
    ) -> u8;
    pub fn sirklemet_run(
        statement: *const u8,
        statement_length: usize,
        catalogue: *const u8,
        catalogue_length: usize,
        row: *const u8,
        row_length: usize,
        out: *mut u8,
        out_length: usize,
        written: *mut usize,
    ) -> u8;
}

pub struct Linked;

impl binders::OtherSide for Linked {
    fn bind(&mut self, statement: &[u8], catalogue: &[u8], out: &mut [u8]) -> binders::Reply {
        let [s, c] = [statement, catalogue];
        // SAFETY: the library reads the inputs and writes the output within the lengths given, and one number.
        let call = |out: *mut u8, length: usize, written: &mut usize| unsafe {
            sirklemet_bind(s.as_ptr(), s.len(), c.as_ptr(), c.len(), out, length, written)
        };
        let (number, length) = between_margins(out, call);
        binders::Reply { number, length }
    }
}

impl runners::OtherSide for Linked {
    fn run(&mut self, case: &Case, out: &mut [u8]) -> runners::Reply {
        let [s, c, r] = [&case.statement, &case.catalogue, &case.row];
        // SAFETY: as above.
        let call = |out: *mut u8, length: usize, written: &mut usize| unsafe {
            sirklemet_run(s.as_ptr(), s.len(), c.as_ptr(), c.len(), r.as_ptr(), r.len(), out, length, written)
        };
        let (number, length) = between_margins(out, call);
        runners::Reply { number, length }
    }
}

const MARGIN: usize = 64;

/// Calls with a copy of the output that has bytes before it and behind it, which must stay.
fn between_margins(out: &mut [u8], call: impl FnOnce(*mut u8, usize, &mut usize) -> u8) -> (u8, usize) {
    let room = MARGIN..MARGIN + out.len();
    let before = untouched(out.len() + 2 * MARGIN);
    let mut whole = before.clone();
    whole[room.clone()].copy_from_slice(out);
    // no length of an answer: a length that is not written shows
    let mut written = usize::MAX;
    let number = call(whole[MARGIN..].as_mut_ptr(), out.len(), &mut written);
    out.copy_from_slice(&whole[room.clone()]);
    let stay = whole[..room.start] == before[..room.start] && whole[room.end..] == before[room.end..];
    assert!(stay, "bytes outside of the output are written");
    (number, written)
}
