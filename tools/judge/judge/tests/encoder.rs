//! The encoder from the Rust's own values against the plain values' encoder: whichever field stands behind a mark, the
//! image is the same.

use images::random::{Rng, any_bound, any_catalogue, any_statement};
use judge::decode::{self, Choice};
use judge::encode::{encode_bound, encode_catalogue, encode_statement};

const CASES: u64 = 30_000;

#[test]
fn statements_through_the_parsers_types() {
    for index in 0..CASES {
        let value = any_statement(&mut Rng::of_case(3, index));
        let parsed = decode::statement(&value, &mut Choice::new(index));
        assert_eq!(encode_statement(&parsed), value.encode(), "{value:?}");
    }
}

#[test]
fn catalogues_through_the_originals_types() {
    for index in 0..CASES {
        let value = any_catalogue(&mut Rng::of_case(4, index));
        assert_eq!(encode_catalogue(&decode::tables(&value)), value.encode(), "{value:?}");
    }
}

#[test]
fn bound_statements_through_the_originals_types() {
    for index in 0..CASES {
        let value = any_bound(&mut Rng::of_case(5, index));
        let bound = decode::bound(&value).expect("ordinals have 64 bits here");
        assert_eq!(encode_bound(&bound), value.encode(), "{value:?}");
    }
}
