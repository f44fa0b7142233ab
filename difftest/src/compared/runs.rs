//! Runs of drawn calls on a planner.

use super::SCALES;
use super::step::Both;
use crate::drawn::calls::Call;
use crate::drawn::draws::Draws;
use crate::drawn::next::{limit, next_call};
use crate::drawn::sheets::sheet;
use crate::tally::Tally;

const CALLS: usize = 30;

pub fn case(draws: &mut Draws, number: usize, tally: &mut Tally) {
    let mut both = Both::new(draws, SCALES[number % SCALES.len()], tally);
    let limit = limit(draws);
    let _ = both.step(draws, Call::Renew(limit));
    if draws.is_one_in(2) {
        let file = sheet(draws).file();
        both.step(draws, Call::Load(file)).expect("a good file");
    }
    for _ in 0..CALLS {
        let call = next_call(draws, &both.model);
        let _ = both.step(draws, call);
    }
}
