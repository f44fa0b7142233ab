//! The model's recurrence against the rule: no list of stages that is lawful rates lower.

use crate::drawn::draws::Draws;
use crate::drawn::sheets::small_sheet;
use crate::model::devices::Kind;
use crate::model::masks::first;
use crate::model::scales::{Rating, Scale};
use crate::model::splits::{Problem, Stage};

pub fn check(seed: u64) {
    for case in 0..300 {
        let draws = &mut Draws::of_case(seed, case);
        let sheet = small_sheet(draws);
        let limit = draws.one_of(&[0, 9, 20, 1_000_000]);
        let kinds = [Kind::Accelerator { limit }, Kind::Processor];
        let scale = draws.one_of(&[Scale::Peak, Scale::Line, Scale::Pair]);
        let problem = Problem {
            sheet: &sheet,
            kinds,
            scale,
        };
        let ideals = sheet.tried_ideals(usize::MAX);
        assert_eq!(sheet.grown_ideals(usize::MAX), ideals, "case {case}");
        let found = problem.read_back(&ideals, &problem.cells(&ideals));
        let least = found.as_ref().map(|found| found.0);
        assert_eq!(
            least,
            searched(&problem, &mut Vec::new(), first(sheet.operators.len())),
            "case {case}"
        );
        let judged = found.and_then(|(_, stages)| problem.rating(&stages));
        assert_eq!(judged, least, "case {case}");
    }
}

/// The least rating of the lawful splits that begin with these stages.
fn searched(problem: &Problem, stages: &mut Vec<Stage>, left: u64) -> Option<Rating> {
    if left == 0 {
        return problem.rating(stages);
    }
    let mut least: Option<Rating> = None;
    for mask in (1..=left).filter(|mask| mask & !left == 0) {
        for kind in [1, 2] {
            stages.push(Stage { kind, mask });
            let rating = searched(problem, stages, left & !mask);
            least = [least, rating].into_iter().flatten().min();
            stages.pop();
        }
    }
    least
}
