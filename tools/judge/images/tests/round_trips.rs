//! decode(encode(v)) == v for random values, and encode(decode(b)) == b for every b that is accepted, damaged bytes
//! included.

use std::fmt::Debug;

use images::bytes::{Read, Written};
use images::random::{Rng, any_bound, any_catalogue, any_row, any_statement, damage_bytes};
use images::{bound, catalogue, row, statement};

const CASES: u64 = 30_000;

/// Runs one kind of image through both round trips, and says how many damaged ones were still images.
fn round_trips<V: PartialEq + Debug>(
    make: impl Fn(&mut Rng) -> V,
    encode: impl Fn(&V) -> Written,
    decode: impl Fn(&[u8]) -> Read<V>,
) {
    let mut accepted = 0;
    for index in 0..CASES {
        let mut rng = Rng::of_case(1, index);
        let value = make(&mut rng);
        let mut bytes = encode(&value).expect("a small value has an image");
        assert_eq!(decode(&bytes).as_ref(), Ok(&value));
        damage_bytes(&mut rng, &mut bytes);
        match decode(&bytes) {
            Ok(other) => {
                accepted += 1;
                assert_eq!(encode(&other), Ok(bytes));
            }
            Err(damage) => assert!(damage.at <= bytes.len(), "{damage} in {} bytes", bytes.len()),
        }
    }
    assert!(accepted > CASES / 50, "only {accepted} damaged images were still images");
}

#[test]
fn statements() {
    round_trips(any_statement, statement::Statement::encode, statement::decode);
}

#[test]
fn catalogues() {
    round_trips(any_catalogue, catalogue::Catalogue::encode, catalogue::decode);
}

#[test]
fn rows() {
    round_trips(any_row, row::Row::encode, row::decode);
}

#[test]
fn bound_statements() {
    round_trips(any_bound, bound::Bound::encode, bound::decode);
}

/// Explaining reads what decoding reads, and its innermost fields cover every byte once.
#[test]
fn explained_fields_cover_the_image() {
    for index in 0..3_000 {
        let mut rng = Rng::of_case(2, index);
        let image = any_statement(&mut rng).encode().unwrap();
        let (fields, value) = statement::explain(&image);
        assert_eq!(value, statement::decode(&image));
        let mut covered = vec![false; image.len()];
        for field in fields.into_iter().filter(|field| !field.heading) {
            assert!(!covered[field.start..field.end].contains(&true), "{} is explained twice", field.text);
            covered[field.start..field.end].fill(true);
        }
        assert!(covered.into_iter().all(|byte| byte), "a byte of {image:?} is not explained");
    }
}
