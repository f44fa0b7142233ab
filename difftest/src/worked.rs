//! The model by itself, before anything is compared with it: the worked numbers of docs/, and a search of all splits.

mod diamond;
mod examples;
mod files;
mod searched;

use crate::model::devices::Kind;
use crate::model::planners::Planner;
use crate::model::scales::{Rating, Scale};
use crate::model::sheets::{Operator, Sheet};
use crate::planning::{Choice, Tables};

/// Stops at the first thing that is not as docs/ has it.
pub fn check(seed: u64) {
    examples::check();
    diamond::check();
    files::check();
    searched::check(seed);
}

/// What stands in tables that nothing was put into.
const FILLER: u64 = 77;

fn sheet(figures: &[[u64; 4]], edges: &[(u64, u64)]) -> Sheet {
    let mut sheet = Sheet::default();
    for &[acc, cpu, size, link] in figures {
        let operator = Operator {
            acc,
            cpu,
            size,
            link,
        };
        sheet.add(operator).expect("figures within the limit");
    }
    for &(from, to) in edges {
        sheet.join(from, to).expect("an edge that leads upward");
    }
    sheet
}

fn planner(sheet: Sheet, [k, l, limit]: [u64; 3], scale: Scale) -> Planner {
    let accelerator = Kind::accelerator(limit).expect("a limit within the limit");
    let mut planner = Planner::new([accelerator, Kind::Processor], scale);
    planner.sheet = Sheet { k, l, ..sheet };
    planner
}

fn tables([ideals, ratings, choices]: [usize; 3]) -> Tables {
    let rating = Rating {
        ticks: FILLER,
        link: FILLER,
    };
    let choice = Choice {
        ideal: FILLER as usize,
        kind: FILLER,
    };
    Tables {
        ideals: vec![FILLER; ideals],
        ratings: vec![rating; ratings],
        choices: vec![choice; choices],
    }
}
