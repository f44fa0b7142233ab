//! Good and damaged files, loaded in place of another sheet.

use super::SCALES;
use super::step::Both;
use crate::drawn::calls::Call;
use crate::drawn::draws::Draws;
use crate::drawn::files::{file, random};
use crate::drawn::sheets::small_sheet;
use crate::drawn::tables::tables;
use crate::model::limits::MOST_FIGURE;
use crate::tally::Tally;

/// Files of random bytes, and good ones that are cut, have each of the lengths 0 to 64 so many times.
const EACH_LENGTH: usize = 20;
const LENGTHS: usize = 65;

pub fn case(draws: &mut Draws, number: usize, tally: &mut Tally) {
    let mut both = Both::new(draws, SCALES[number % SCALES.len()], tally);
    let _ = both.step(draws, Call::Renew(MOST_FIGURE));
    let good = small_sheet(draws).file();
    both.step(draws, Call::Load(good)).expect("a good file");
    plan(draws, &mut both);
    let file = if number < EACH_LENGTH * LENGTHS {
        random(draws, number % LENGTHS)
    } else {
        file(draws)
    };
    if both.step(draws, Call::Load(file.clone())).is_ok() {
        assert_eq!(both.model.sheet.file(), file, "a sheet has one file");
        if draws.is_one_in(8) {
            plan(draws, &mut both);
        }
    }
}

fn plan(draws: &mut Draws, both: &mut Both) {
    let tables = tables(draws, both.model.scale, &both.model.sheet);
    let _ = both.step(draws, Call::Plan(tables));
}
