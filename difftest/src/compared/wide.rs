//! Networks with as many ideals as any table takes, and with more.

use super::SCALES;
use super::step::Both;
use crate::drawn::calls::Call;
use crate::drawn::draws::Draws;
use crate::drawn::sheets::loose;
use crate::drawn::tables::tables_of;
use crate::model::limits::{MOST_FIGURE, MOST_IDEALS};
use crate::tally::Tally;

/// How many loose operators there are, and the length of the table of ideals. Twelve have as many ideals as any table takes.
const WIDE: [(usize, usize); 6] = [
    (12, MOST_IDEALS - 1),
    (12, MOST_IDEALS),
    (12, MOST_IDEALS + 100),
    (13, MOST_IDEALS),
    (13, 2 * MOST_IDEALS),
    (20, MOST_IDEALS + 1),
];

pub const CASES: usize = WIDE.len() * 2;

pub fn case(draws: &mut Draws, number: usize, tally: &mut Tally) {
    let (operators, ideals) = WIDE[number % WIDE.len()];
    for scale in SCALES {
        let mut both = Both::new(draws, scale, tally);
        let mut sheet = loose(draws, operators);
        (sheet.k, sheet.l) = draws.one_of(&[(1, 0), (0, 1), (1, 1)]);
        both.step(draws, Call::Renew(MOST_FIGURE))
            .expect("a limit within the limit");
        both.step(draws, Call::Load(sheet.file()))
            .expect("a good file");
        let cells = MOST_IDEALS * sheet.cells_an_ideal();
        let tables = tables_of(draws, scale, [ideals, cells, cells + 3]);
        let _ = both.step(draws, Call::Plan(tables));
    }
}
