//! Judges of the row runner: paper 01's value rules in Rust, and SQLite beside them; and the cases that they are asked.

pub mod compare;
pub mod evaluate;
pub mod generate;
pub mod judge_run;
pub mod measure;
pub mod mistakes;
pub mod other_side;
pub mod record;
pub mod second;
pub mod sql;
pub mod sqlite;
pub mod tally;
