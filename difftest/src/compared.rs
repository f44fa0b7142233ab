//! The comparisons, each of many cases.

mod bytes;
mod files;
mod runs;
mod step;
mod wide;

use crate::drawn::draws::Draws;
use crate::model::scales::Scale;
use crate::tally::Tally;

/// A comparison: its name, how many cases it has, and what is done in a case of this number.
pub struct Comparison {
    pub name: &'static str,
    pub cases: usize,
    pub case: fn(&mut Draws, usize, &mut Tally),
}

pub const COMPARISONS: [Comparison; 4] = [
    Comparison {
        name: "files",
        cases: 20_000,
        case: files::case,
    },
    Comparison {
        name: "bytes",
        cases: bytes::CASES,
        case: bytes::case,
    },
    Comparison {
        name: "runs",
        cases: 5_000,
        case: runs::case,
    },
    Comparison {
        name: "wide",
        cases: wide::CASES,
        case: wide::case,
    },
];

/// Those that the header offers.
const SCALES: [Scale; 3] = [Scale::Peak, Scale::Line, Scale::Pair];
