//! The three tables as they cross to C.

use super::lent::{Lendable, Lent};
use super::narrow;
use super::ratings::CRating;
use crate::planning::{Choice, Tables};

/// A choice with the bytes that C leaves between two of them.
#[repr(C)]
#[derive(Clone, Copy, PartialEq, Eq, Debug)]
pub struct CChoice {
    ideal: u32,
    kind: u8,
    gap: [u8; 3],
}

const GAP: [u8; 3] = [0xA1, 0xB2, 0xC3];

impl Lendable for CChoice {
    const AROUND: CChoice = CChoice {
        ideal: 0xA5A5_A5A5,
        kind: 0xA5,
        gap: GAP,
    };
}

pub struct LentTables<R> {
    pub ideals: Lent<u64>,
    pub ratings: Lent<R>,
    pub choices: Lent<CChoice>,
}

impl<R: CRating> LentTables<R> {
    pub fn of(tables: &Tables) -> LentTables<R> {
        let ratings: Vec<R> = tables.ratings.iter().map(|&rating| R::of(rating)).collect();
        let choices: Vec<CChoice> = tables
            .choices
            .iter()
            .map(|&choice| CChoice::of(choice))
            .collect();
        LentTables {
            ideals: Lent::of(&tables.ideals),
            ratings: Lent::of(&ratings),
            choices: Lent::of(&choices),
        }
    }

    /// What is in the tables now, into those of which they were made.
    pub fn hand_back(&self, tables: &mut Tables) {
        tables.ideals.copy_from_slice(self.ideals.kept());
        for (rating, now) in tables.ratings.iter_mut().zip(self.ratings.kept()) {
            *rating = now.rating();
        }
        for (choice, now) in tables.choices.iter_mut().zip(self.choices.kept()) {
            // a choice that is as it was before has not been written, and neither has the gap after it
            assert!(
                now.choice() != *choice || now.gap == GAP,
                "the gap after a choice"
            );
            *choice = now.choice();
        }
    }
}

impl CChoice {
    fn of(choice: Choice) -> CChoice {
        CChoice {
            ideal: narrow(choice.ideal as u64),
            kind: narrow(choice.kind),
            gap: GAP,
        }
    }

    fn choice(self) -> Choice {
        Choice {
            ideal: self.ideal as usize,
            kind: self.kind.into(),
        }
    }
}
