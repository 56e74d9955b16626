//! Damaged copies of an image.

use images::random::{Rng, damage_bytes};

#[derive(Debug, Clone, Copy, PartialEq, Eq)]
pub enum Way {
    /// As the generator made it.
    Made,
    /// One byte changed.
    Changed,
    /// One byte up by one and the one two behind it down, or the other way round: where these are lengths of a bundle,
    /// the border between two parts moves, and the sum stays.
    Moved,
    /// One byte left out.
    Removed,
    /// One byte twice.
    Doubled,
    /// The end left out.
    Cut,
    /// A piece of another image put in, a piece moved, or several bytes changed.
    Spliced,
}

impl Way {
    pub const ALL: [Way; 7] = [Way::Made, Way::Changed, Way::Moved, Way::Removed, Way::Doubled, Way::Cut, Way::Spliced];

    pub fn name(self) -> &'static str {
        match self {
            Way::Made => "as made",
            Way::Changed => "changed",
            Way::Moved => "moved",
            Way::Removed => "removed",
            Way::Doubled => "doubled",
            Way::Cut => "cut",
            Way::Spliced => "spliced",
        }
    }
}

/// Every copy with damage at one byte, and every cut.
pub fn every_copy(rng: &mut Rng, image: &[u8], see: &mut dyn FnMut(Way, &[u8])) {
    for place in 0..image.len() {
        changed(rng, image, place, see);
        moved(image, place, see);
        let (front, back) = image.split_at(place);
        see(Way::Removed, &[front, &back[1..]].concat());
        see(Way::Doubled, &[front, &back[..1], back].concat());
        see(Way::Cut, front);
    }
}

/// Bytes that mean something somewhere: marks, codes, small counts, and what UTF-8 treats apart.
const TELLING: [u8; 16] = [0, 1, 2, 3, 4, 8, 9, 10, 16, 30, 0x7F, 0x80, 0xC0, 0xED, 0xF4, 0xFF];

fn changed(rng: &mut Rng, image: &[u8], place: usize, see: &mut dyn FnMut(Way, &[u8])) {
    let byte = image[place];
    let mut copy = image.to_vec();
    for other in [byte.wrapping_add(1), byte.wrapping_sub(1), byte ^ 0x80, *rng.pick(&TELLING), rng.draw() as u8] {
        if other != byte {
            copy[place] = other;
            see(Way::Changed, &copy);
        }
    }
}

fn moved(image: &[u8], place: usize, see: &mut dyn FnMut(Way, &[u8])) {
    let Some(behind) = image.get(place + 2) else { return };
    let mut copy = image.to_vec();
    for step in [1, u8::MAX] {
        copy[place] = image[place].wrapping_add(step);
        copy[place + 2] = behind.wrapping_sub(step);
        see(Way::Moved, &copy);
    }
}

/// A piece of `other` put into `image`, a piece of `image` moved, or several bytes changed.
pub fn spliced(rng: &mut Rng, image: &[u8], other: &[u8]) -> Vec<u8> {
    let mut copy = image.to_vec();
    match rng.below(4) {
        0 => damage_bytes(rng, &mut copy),
        1 => {
            let piece = piece(rng, other);
            let at = rng.below(copy.len() + 1);
            let end = rng.between(at, copy.len());
            copy.splice(at..end, piece.iter().copied());
        }
        2 => {
            // of the same length, so that the lengths around it can stay right
            let piece = piece(rng, other);
            let length = piece.len().min(copy.len());
            let at = rng.below(copy.len() - length + 1);
            copy[at..at + length].copy_from_slice(&piece[..length]);
        }
        _ => {
            let length = rng.below(copy.len() + 1).min(24);
            let from = rng.below(copy.len() - length + 1);
            let to = rng.below(copy.len() - length + 1);
            copy.copy_within(from..from + length, to);
        }
    }
    copy
}

fn piece<'a>(rng: &mut Rng, image: &'a [u8]) -> &'a [u8] {
    let from = rng.below(image.len() + 1);
    let most = (image.len() - from).min(40);
    &image[from..from + rng.between(0, most)]
}
