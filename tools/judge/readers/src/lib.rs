//! The proved readers and the two public operations, linked as a static library, beside the Rust.

pub mod compare;
pub mod copies;
pub mod edges;
pub mod made;
pub mod measure;
pub mod mistakes;
pub mod operations;
pub mod sides;
pub mod stack;
pub mod tally;
