//! The four images of docs/IMAGES.md as plain values, with an encoder and a strict decoder for each, the limits of
//! paper 01, and a readable text form. This crate knows nothing of the Rust analyzer.

pub mod bound;
pub mod bytes;
pub mod catalogue;
pub mod limits;
pub mod random;
pub mod row;
pub mod run;
pub mod show;
pub mod statement;
pub mod text;
pub mod told;
pub mod value;
