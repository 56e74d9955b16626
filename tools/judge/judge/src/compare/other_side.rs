//! The side that is compared with the Rust: the binder of the static library whose path tools/staticlib prints. Without one,
//! `tools/compare` runs the Rust alone. To compare with it:
//!
//! ```text
//! SIRKLEMET_STATICLIB="$(tools/staticlib)" tools/compare --seed 1 --count 100000
//! ```
//!
//! The library exports `sirklemet_bind` as crates/sirklemet/sirklemet.h declares it. (Plain `bind` is taken: it is the socket
//! call of the C library, which the linker would find instead.)

/// What a binder answers: 0 and the length of the bound image, which it wrote to the front of the output, or the number
/// of a refusal and length 0.
#[derive(Debug, Clone, Copy, PartialEq, Eq)]
pub struct Reply {
    pub number: u8,
    pub length: usize,
}

pub trait OtherSide {
    fn bind(&mut self, statement: &[u8], catalogue: &[u8], out: &mut [u8]) -> Reply;
}

#[cfg(feature = "linked")]
pub mod linked {
    use super::{OtherSide, Reply};

    unsafe extern "C" {
        fn sirklemet_bind(
            statement: *const u8,
            statement_length: usize,
            catalogue: *const u8,
            catalogue_length: usize,
            out: *mut u8,
            out_length: usize,
            written: *mut usize,
        ) -> u8;
    }

    /// The binder of the static library.
    pub struct LinkedBinder;

    impl OtherSide for LinkedBinder {
        fn bind(&mut self, statement: &[u8], catalogue: &[u8], out: &mut [u8]) -> Reply {
            let mut length = 0;
            // SAFETY: the library reads the two inputs and writes the output within the lengths given, and one number, as
            // its contract says.
            let number = unsafe {
                sirklemet_bind(
                    statement.as_ptr(),
                    statement.len(),
                    catalogue.as_ptr(),
                    catalogue.len(),
                    out.as_mut_ptr(),
                    out.len(),
                    &mut length,
                )
            };
            Reply { number, length }
        }
    }
}
