//! The two public operations on damaged images, beside what the Rust says of the same bytes.

pub mod binding;
pub mod compare;
pub mod lacking;
pub mod linked;
pub mod running;
pub mod tally;

use runs::generate::Case;

/// One of the images that an operation is given.
#[derive(Debug, Clone, Copy, PartialEq, Eq, PartialOrd, Ord)]
pub enum Part {
    Statement,
    Catalogue,
    Row,
}

impl Part {
    pub fn name(self) -> &'static str {
        match self {
            Part::Statement => "statement",
            Part::Catalogue => "catalogue",
            Part::Row => "row",
        }
    }

    pub fn of(self, case: &Case) -> &[u8] {
        match self {
            Part::Statement => &case.statement,
            Part::Catalogue => &case.catalogue,
            Part::Row => &case.row,
        }
    }

    pub fn put(self, case: &mut Case, bytes: &[u8]) {
        let image = match self {
            Part::Statement => &mut case.statement,
            Part::Catalogue => &mut case.catalogue,
            Part::Row => &mut case.row,
        };
        image.clear();
        image.extend_from_slice(bytes);
    }
}

/// What is written where there is room for it, or the number of a refusal.
pub type Judged = Result<Vec<u8>, u8>;

/// 0 where something is written, else the number of the refusal.
pub fn number(judged: &Judged) -> u8 {
    judged.as_ref().err().copied().unwrap_or(0)
}

/// What is answered in a room: 9 comes last.
pub fn in_room(judged: &Judged, room: usize) -> Judged {
    match judged {
        Ok(image) if image.len() > room => Err(9),
        _ => judged.clone(),
    }
}

/// A public operation and the side that answers for it. The row of a case is not looked at by a binding.
pub trait Operation {
    fn parts(&self) -> &'static [Part];

    /// A case as the generator makes it, with images of few bytes, and the part that is damaged at every byte.
    fn small_case(&self, seed: u64, index: u64) -> (Case, Part);

    /// What the Rust says, with as much room as is needed.
    fn judged(&mut self, case: &Case) -> Judged;

    /// What the other side answers otherwise in the case's room, writes otherwise, or writes where nothing belongs.
    fn differs(&mut self, case: &Case, judged: &Judged) -> Option<String>;
}
