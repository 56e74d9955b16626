//! Cases for the comparison. A case is mostly a statement that binds, with no, one, two or more faults planted in it or
//! in its catalogue, so that every test of the Rust is reached alone and in conflict with every other. Case number i of
//! a seed does not depend on the cases before it.

pub mod catalogues;
pub mod expressions;
mod faults;
mod names;
pub mod statements;
mod texts;

use images::catalogue::Catalogue;
use images::random::{Rng, any_catalogue, any_statement, damage_bytes};
use images::statement::Statement;

use crate::judge::{Answer, judge};
pub use faults::FAULTS;

/// What both sides are asked.
#[derive(Debug, Clone, PartialEq, Eq)]
pub struct Case {
    pub statement: Vec<u8>,
    pub catalogue: Vec<u8>,
    pub room: usize,
}

impl Case {
    /// The bytes of both images.
    pub fn size(&self) -> usize {
        self.statement.len() + self.catalogue.len()
    }
}

/// A case and the faults planted in it.
pub struct Planted {
    pub case: Case,
    pub faults: Vec<&'static str>,
    base: Option<Draft>,
    /// For each fault its place in `FAULTS` and its seed.
    plan: Vec<(usize, u64)>,
}

impl Planted {
    /// For a case with exactly two faults: what the case with the first only is answered with, and with the second only.
    pub fn alone(&self) -> Option<[u8; 2]> {
        let (base, [first, second]) = (self.base.as_ref()?, self.plan.as_slice()) else { return None };
        Some([first, second].map(|(place, seed)| {
            let mut draft = base.clone();
            (FAULTS[*place].plant)(&mut Rng::new(*seed), &mut draft);
            draft.answered()
        }))
    }
}

/// A case before its bytes are made.
#[derive(Debug, Clone)]
pub struct Draft {
    pub statement: Statement,
    pub catalogue: Catalogue,
    pub room: Room,
    /// Which entry of a list the faults prefer.
    pub focus: usize,
    /// Seeds of damage that is done to the bytes.
    pub statement_damage: Option<u64>,
    pub catalogue_damage: Option<u64>,
}

/// How much room the answer gets.
#[derive(Debug, Clone, Copy, PartialEq, Eq)]
pub enum Room {
    Ample,
    Exact,
    OneShort,
    None,
}

/// A room that an answer of usual size leaves some of.
const AMPLE_ROOM: usize = 4_096;

pub fn planted(seed: u64, index: u64) -> Planted {
    let mut rng = Rng::of_case(seed, index);
    if rng.once_in(25) {
        return nonsense(&mut rng);
    }
    let base = base(&mut rng);
    let count = [0, 0, 0, 1, 1, 1, 1, 2, 2, 2, 2, 2, 2, 2, 2, 2, 3, 3, 3, 4][rng.below(20)];
    let mut draft = base.clone();
    let mut plan = Vec::new();
    for _ in 0..count {
        let fault_seed = rng.draw();
        let place = plant_some_fault(&mut rng, fault_seed, &mut draft);
        plan.push((place, fault_seed));
    }
    let faults = plan.iter().map(|(place, _)| FAULTS[*place].name).collect();
    Planted { case: draft.finish(), faults, base: Some(base), plan }
}

fn base(rng: &mut Rng) -> Draft {
    let catalogue = catalogues::catalogue(rng);
    let tree = statements::tree(rng, &catalogue);
    let raw = texts::raw(rng, &tree);
    Draft {
        statement: Statement { raw, tree },
        catalogue,
        room: if rng.once_in(8) { Room::Exact } else { Room::Ample },
        focus: rng.below(60),
        statement_damage: None,
        catalogue_damage: None,
    }
}

/// Tries faults until one can be planted, and says which. Some can always be.
pub fn plant_some_fault(rng: &mut Rng, fault_seed: u64, draft: &mut Draft) -> usize {
    loop {
        let place = rng.below(FAULTS.len());
        let fault = &FAULTS[place];
        if !rng.once_in(fault.rarity) {
            continue;
        }
        let mut changed = draft.clone();
        if (fault.plant)(&mut Rng::new(fault_seed), &mut changed) {
            *draft = changed;
            return place;
        }
    }
}

/// Any statement over any catalogue.
fn nonsense(rng: &mut Rng) -> Planted {
    let draft = Draft {
        statement: any_statement(rng),
        catalogue: any_catalogue(rng),
        room: Room::Ample,
        focus: 0,
        statement_damage: rng.once_in(4).then(|| rng.draw()),
        catalogue_damage: rng.once_in(4).then(|| rng.draw()),
    };
    Planted { case: draft.finish(), faults: vec!["nonsense"], base: None, plan: Vec::new() }
}

impl Draft {
    /// The bytes of the statement and of the catalogue.
    pub fn images(&self) -> (Vec<u8>, Vec<u8>) {
        let mut statement = self.statement.encode().unwrap_or_default();
        let mut catalogue = self.catalogue.encode_unjudged().unwrap_or_default();
        if let Some(seed) = self.statement_damage {
            damage_bytes(&mut Rng::new(seed), &mut statement);
        }
        if let Some(seed) = self.catalogue_damage {
            damage_bytes(&mut Rng::new(seed), &mut catalogue);
        }
        (statement, catalogue)
    }

    fn finish(&self) -> Case {
        let (statement, catalogue) = self.images();
        let room = self.room.bytes(&judge(&statement, &catalogue, usize::MAX));
        Case { statement, catalogue, room }
    }

    /// The number that the case is answered with.
    fn answered(&self) -> u8 {
        let (statement, catalogue) = self.images();
        let answer = judge(&statement, &catalogue, usize::MAX);
        if needed(&answer) > self.room.bytes(&answer) { 9 } else { answer.number() }
    }
}

/// The room that an answer needs.
fn needed(answer: &Answer) -> usize {
    match answer {
        Answer::Bound(image) => image.len(),
        Answer::Refused(_) => 0,
    }
}

impl Room {
    /// The room in bytes, by the answer that is given where there is enough.
    pub fn bytes(self, answer: &Answer) -> usize {
        let needed = needed(answer);
        match self {
            Room::Ample => AMPLE_ROOM + needed,
            Room::Exact => needed,
            Room::OneShort => needed.saturating_sub(1),
            Room::None => 0,
        }
    }
}
