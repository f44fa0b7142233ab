//! Differential tests of the library that controllers link, against a model written from docs/ alone.
//! Without arguments all cases of all comparisons; with the name of a comparison and a number that case alone.

mod compared;
mod drawn;
mod library;
mod model;
mod planning;
mod tally;
mod worked;

use std::panic::{AssertUnwindSafe, catch_unwind};
use std::process::ExitCode;

use compared::{COMPARISONS, Comparison};
use drawn::draws::Draws;
use tally::Tally;

const SEED: u64 = 0x5EED_0F_100;

fn main() -> ExitCode {
    worked::check(SEED);
    library::check();
    let mut tally = Tally::default();
    let arguments: Vec<String> = std::env::args().skip(1).collect();
    if arguments.is_empty() {
        return ended(are_alike(&mut tally) && is_complete(&tally));
    }
    let Some((comparison, case)) = case_of(&arguments) else {
        eprintln!("for a single case: the name of a comparison and the number of the case");
        return ExitCode::FAILURE;
    };
    ended(is_alike(comparison, case, &mut tally))
}

fn case_of(arguments: &[String]) -> Option<(&'static Comparison, usize)> {
    let [name, case] = arguments else { return None };
    let comparison = COMPARISONS
        .iter()
        .find(|comparison| comparison.name == name)?;
    let case = case.parse().ok().filter(|&case| case < comparison.cases)?;
    Some((comparison, case))
}

/// Stops at the first difference.
fn are_alike(tally: &mut Tally) -> bool {
    COMPARISONS
        .iter()
        .all(|comparison| (0..comparison.cases).all(|case| is_alike(comparison, case, tally)))
}

/// Whether the library does in this case as the model does.
fn is_alike(comparison: &Comparison, case: usize, tally: &mut Tally) -> bool {
    let mut draws = Draws::of_case(SEED, case);
    let alike = catch_unwind(AssertUnwindSafe(|| {
        (comparison.case)(&mut draws, case, tally)
    }))
    .is_ok();
    if !alike {
        eprintln!(
            "a difference, left the library's: seed {SEED:#x}, alone by: difftest/run {} {case}",
            comparison.name
        );
    }
    alike
}

/// Prints what was seen; whether nothing that must be seen is missing.
fn is_complete(tally: &Tally) -> bool {
    let missing = tally.missing();
    missing
        .iter()
        .for_each(|never| eprintln!("never seen: {never}"));
    let cases: String = COMPARISONS
        .iter()
        .map(|of| format!("{} {}, ", of.cases, of.name))
        .collect();
    let (calls, splits, refusals) = (tally.calls(), tally.granted("plan"), tally.refusals());
    println!("difftest: {cases}{calls} calls, {splits} splits; refusals {refusals}; 0 differences");
    missing.is_empty()
}

fn ended(well: bool) -> ExitCode {
    if well {
        ExitCode::SUCCESS
    } else {
        ExitCode::FAILURE
    }
}
