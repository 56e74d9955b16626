//! The catalogue crate: the original `lib.rs`, unchanged, as a module. The build script finds it and lays it beside
//! stand-ins for the two modules that it names and that are not published with it.

include!(concat!(env!("OUT_DIR"), "/original.rs"));

pub use original::*;
