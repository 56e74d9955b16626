//! The Rust analyzer, unchanged, as the judge of what a statement must be answered with.
//!
//! `analyzer`, `bound` and `parser` are the original files; the build script finds them. The other modules belong in the
//! same crate because the original keeps the tree of a `Statement` private to it.

include!(concat!(env!("OUT_DIR"), "/original.rs"));

pub mod compare;
pub mod decode;
pub mod encode;
pub mod generate;
pub mod judge;
pub mod measure;
