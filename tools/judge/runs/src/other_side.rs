//! The runner that is compared with the judges.
//!
//! With SIRKLEMET_STATICLIB, the path that tools/staticlib prints, it is the one of that library, which
//! exports `sirklemet_run` as crates/sirklemet/sirklemet.h declares it.

use crate::generate::Case;

/// What a runner answers: 0 and the length of the row after, which it wrote to the front of the output, or the number
/// of a refusal and length 0.
#[derive(Debug, Clone, Copy, PartialEq, Eq)]
pub struct Reply {
    pub number: u8,
    pub length: usize,
}

pub trait OtherSide {
    fn run(&mut self, case: &Case, out: &mut [u8]) -> Reply;
}

#[cfg(feature = "linked")]
pub mod linked {
    use super::{Case, OtherSide, Reply};

    unsafe extern "C" {
        fn sirklemet_run(
            statement: *const u8,
            statement_length: usize,
            catalogue: *const u8,
            catalogue_length: usize,
            row: *const u8,
            row_length: usize,
            out: *mut u8,
            out_length: usize,
            written: *mut usize,
        ) -> u8;
    }

    /// The runner of the static library.
    pub struct LinkedRunner;

    impl OtherSide for LinkedRunner {
        fn run(&mut self, case: &Case, out: &mut [u8]) -> Reply {
            let mut length = 0;
            // SAFETY: the library reads the three inputs and writes the output within the lengths given, and one number,
            // as its contract says.
            let number = unsafe {
                sirklemet_run(
                    case.statement.as_ptr(),
                    case.statement.len(),
                    case.catalogue.as_ptr(),
                    case.catalogue.len(),
                    case.row.as_ptr(),
                    case.row.len(),
                    out.as_mut_ptr(),
                    out.len(),
                    &mut length,
                )
            };
            Reply { number, length }
        }
    }
}
