//! The comparison: generated images and damaged copies of them, judged by both sides.

use images::random::Rng;
use images::told::Told;
use judge::generate::planted;

use crate::copies::{Way, every_copy, spliced};
use crate::edges::edges;
use crate::made::{image, made};
use crate::mistakes::Mistake;
use crate::sides::{Asked, Kind, proved, rust};
use crate::tally::Tally;

/// Bytes that are judged differently.
pub struct Difference {
    pub asked: Asked,
    pub way: Way,
    pub bytes: Vec<u8>,
    pub rust: Told,
    pub proved: u8,
}

#[derive(Default)]
pub struct Comparison {
    mistake: Option<&'static Mistake>,
    /// How many images are still to be compared.
    left: u64,
    pub tally: Tally,
    pub differences: u64,
    pub first: Option<Difference>,
}

/// Of ten images one is compared as it was made, seven are damaged at one place, and two are spliced.
/// The Rust side is the decoder, or the decoder with a mistake.
pub fn compare(mistake: Option<&'static Mistake>, seed: u64, count: u64) -> Comparison {
    let mut comparison = Comparison { mistake, ..Comparison::default() };
    comparison.images_as_made(seed, count / 10);
    comparison.every_copy(seed, count - count / 10 - count / 5);
    comparison.splices(seed, count / 5);
    comparison
}

/// Small enough that a million images have some hundred with every damage.
const SMALL: usize = 500;

impl Comparison {
    fn see(&mut self, asked: &Asked, way: Way, bytes: &[u8]) {
        if self.left == 0 {
            return;
        }
        self.left -= 1;
        let rust = match self.mistake {
            Some(mistake) => mistake.told(asked, bytes),
            None => rust(asked, bytes),
        };
        let proved = proved(asked, bytes);
        self.tally.add(asked.kind(), rust.number, way);
        if rust.number != proved {
            self.differences += 1;
            let difference = || Difference { asked: asked.clone(), way, bytes: bytes.to_vec(), rust, proved };
            self.first.get_or_insert_with(difference);
        }
    }

    fn images_as_made(&mut self, seed: u64, count: u64) {
        self.left = count;
        for (asked, image) in edges() {
            self.see(&asked, Way::Made, &image);
        }
        let mut index = 0;
        while self.left > 0 {
            let case = planted(seed, index).case;
            self.see(&Asked::Statement, Way::Made, &case.statement);
            self.see(&Asked::Catalogue, Way::Made, &case.catalogue);
            let mut rng = Rng::of_case(seed, index);
            for kind in [Kind::Row, Kind::RowOf] {
                let (asked, image) = made(&mut rng, kind);
                self.see(&asked, Way::Made, &image);
            }
            index += 1;
        }
    }

    fn every_copy(&mut self, seed: u64, count: u64) {
        self.left = count;
        let mut index = 0;
        while self.left > 0 {
            let mut rng = Rng::of_case(seed, index);
            let (asked, image) = image(&mut rng, kind_of(index), SMALL);
            self.tally.whole += 1;
            self.tally.whole_bytes += image.len() as u64;
            every_copy(&mut rng, &image, &mut |way, bytes| self.see(&asked, way, bytes));
            index += 1;
        }
    }

    fn splices(&mut self, seed: u64, count: u64) {
        self.left = count;
        let mut index = 0;
        while self.left > 0 {
            // not the images that every_copy took
            let mut rng = Rng::of_case(!seed, index);
            let (asked, one) = image(&mut rng, kind_of(index), usize::MAX);
            let (_, other) = image(&mut rng, kind_of(index), SMALL);
            for _ in 0..50 {
                self.see(&asked, Way::Spliced, &spliced(&mut rng, &one, &other));
            }
            index += 1;
        }
    }
}

fn kind_of(index: u64) -> Kind {
    Kind::ALL[index as usize % Kind::ALL.len()]
}

/// A small image of a seed, by its number.
pub fn small_image(seed: u64, index: u64) -> (Kind, Vec<u8>) {
    let kind = kind_of(index);
    (kind, image(&mut Rng::of_case(seed, index), kind, SMALL).1)
}
