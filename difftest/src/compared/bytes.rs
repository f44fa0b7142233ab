//! A small file with each of its bytes as each other byte, and cut at each length.

use super::SCALES;
use super::step::Both;
use crate::drawn::calls::Call;
use crate::drawn::draws::Draws;
use crate::model::sheets::{Operator, Sheet};
use crate::tally::Tally;

/// One for each byte of the file.
pub const CASES: usize = 22 + 3 * 16 + 2 * 2;

pub fn case(draws: &mut Draws, number: usize, tally: &mut Tally) {
    let file = small().file();
    for scale in SCALES {
        let mut both = Both::new(draws, scale, tally);
        let cut = file[..number].to_vec();
        both.step(draws, Call::Load(cut))
            .expect_err("a file that is cut");
        for byte in 0..=u8::MAX {
            let mut changed = file.clone();
            changed[number] = byte;
            let _ = both.step(draws, Call::Load(changed));
        }
    }
}

/// Three operators and two edges.
fn small() -> Sheet {
    let operator = |acc| Operator {
        acc,
        cpu: 70_000,
        size: 300,
        link: 1,
    };
    Sheet {
        operators: vec![operator(1), operator(2), operator(3)],
        edges: [(0, 2), (1, 2)].into(),
        k: 1,
        l: 8,
    }
}
