//! Drawn tables: full of other numbers, and of lengths around those that are needed.

use super::draws::Draws;
use crate::model::limits::MOST_IDEALS;
use crate::model::scales::{Rating, Scale};
use crate::model::sheets::Sheet;
use crate::planning::{Choice, Tables};

pub fn tables(draws: &mut Draws, scale: Scale, sheet: &Sheet) -> Tables {
    let ideals = sheet.ideals(MOST_IDEALS + 1).len();
    let cells = ideals * sheet.cells_an_ideal();
    let mut lengths = [ideals, cells, cells].map(|needed| around(draws, needed));
    if ideals > MANY && !draws.is_one_in(16) {
        lengths[0] = draws.below(ideals);
    }
    tables_of(draws, scale, lengths)
}

/// A sheet with more ideals than this has mostly too short a table, since to plan it takes long.
const MANY: usize = 200;

/// Of these lengths.
pub fn tables_of(
    draws: &mut Draws,
    scale: Scale,
    [ideals, ratings, choices]: [usize; 3],
) -> Tables {
    Tables {
        ideals: (0..ideals).map(|_| draws.number()).collect(),
        ratings: (0..ratings).map(|_| rating(draws, scale)).collect(),
        choices: (0..choices).map(|_| choice(draws)).collect(),
    }
}

fn around(draws: &mut Draws, needed: usize) -> usize {
    match draws.below(24) {
        0 => 0,
        1 => needed - 1,
        2 => draws.below(needed),
        3..=5 => needed + 1,
        6..=12 => needed + draws.between(2, 40),
        _ => needed,
    }
}

/// Any that a place of this scale's table may hold.
fn rating(draws: &mut Draws, scale: Scale) -> Rating {
    let [ticks, link] = [(); 2].map(|()| draws.number());
    match scale {
        Scale::Peak => Rating {
            ticks: ticks >> 32,
            link: 0,
        },
        Scale::Line => Rating { ticks, link: 0 },
        Scale::Pair => Rating {
            ticks: ticks >> 32,
            link: link >> 32,
        },
    }
}

fn choice(draws: &mut Draws) -> Choice {
    Choice {
        ideal: draws.below(1 << 32),
        kind: draws.byte().into(),
    }
}
