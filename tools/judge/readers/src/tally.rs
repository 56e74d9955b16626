//! Counts of what was compared.

use std::collections::HashMap;

use crate::copies::Way;
use crate::sides::Kind;

pub type Counts = [u64; Way::ALL.len()];

#[derive(Default)]
pub struct Tally {
    /// By kind of image and what the Rust told of it, then by way of damage.
    counts: HashMap<(Kind, u8), Counts>,
    /// The images of which every damaged copy was compared, and their bytes.
    pub whole: u64,
    pub whole_bytes: u64,
}

impl Tally {
    pub fn add(&mut self, kind: Kind, number: u8, way: Way) {
        self.counts.entry((kind, number)).or_default()[way as usize] += 1;
    }

    pub fn all(&self) -> u64 {
        self.counts.values().flatten().sum()
    }

    pub fn report(&self) -> String {
        let mut text = heads("");
        for kind in Kind::ALL {
            for number in kind.numbers() {
                let counts = self.counts.get(&(kind, *number)).copied().unwrap_or_default();
                text.push_str(&line(&heading(kind, *number), &counts));
            }
        }
        text.push_str(&format!(
            "damaged at each byte and cut at each length: {} images of {} bytes in all\n",
            self.whole, self.whole_bytes
        ));
        text
    }
}

fn heading(kind: Kind, number: u8) -> String {
    match number {
        0 => format!("{}, taken", kind.name()),
        _ => format!("{}, refused {number}", kind.name()),
    }
}

/// The line above the counts.
pub fn heads(first: &str) -> String {
    let mut text = format!("{first:<28}");
    Way::ALL.iter().for_each(|way| text.push_str(&format!("{:>10}", way.name())));
    text.push_str(&format!("{:>10}\n", "all"));
    text
}

pub fn line(heading: &str, counts: &Counts) -> String {
    let mut text = format!("{heading:<28}");
    counts.iter().for_each(|count| text.push_str(&format!("{count:>10}")));
    text.push_str(&format!("{:>10}\n", counts.iter().sum::<u64>()));
    text
}
