//! Drawn sheets, within the rules.

use super::draws::Draws;
use crate::model::limits::{MOST_DEVICES, MOST_FIGURE, MOST_OPERATORS};
use crate::model::sheets::{Operator, Sheet};

/// Mostly up to seven operators, sometimes ten, sometimes chains of up to 64, now and then with all edges.
pub fn sheet(draws: &mut Draws) -> Sheet {
    let mut sheet = match draws.below(40) {
        0 => chained(draws),
        1 if draws.is_one_in(8) => full(draws),
        2..=5 => {
            let operators = draws.between(8, 10);
            scattered(draws, operators, 2)
        }
        _ => {
            let operators = draws.between(0, 7);
            let dense = draws.one_of(&[1, 2, 2, 3, 9]);
            scattered(draws, operators, dense)
        }
    };
    sheet.k = count(draws);
    sheet.l = count(draws);
    sheet
}

/// Up to four operators.
pub fn small_sheet(draws: &mut Draws) -> Sheet {
    let operators = draws.between(0, 4);
    let mut sheet = scattered(draws, operators, 2);
    sheet.k = draws.below(3) as u64;
    sheet.l = draws.below(3) as u64;
    sheet
}

fn count(draws: &mut Draws) -> u64 {
    if draws.is_one_in(8) {
        draws.below(MOST_DEVICES as usize + 1) as u64
    } else {
        draws.below(4) as u64
    }
}

/// Within the limit, mostly small, so that many splits rate alike.
pub fn figure(draws: &mut Draws) -> u64 {
    match draws.below(24) {
        0 => MOST_FIGURE,
        1 => draws.below(MOST_FIGURE as usize + 1) as u64,
        2..=4 => 0,
        _ => draws.below(10) as u64,
    }
}

pub fn operator(draws: &mut Draws) -> Operator {
    let [acc, cpu, size, link] = [(); 4].map(|()| figure(draws));
    Operator {
        acc,
        cpu,
        size,
        link,
    }
}

/// Without edges; some sheets have all figures at the limit.
pub fn loose(draws: &mut Draws, operators: usize) -> Sheet {
    let most = Operator {
        acc: MOST_FIGURE,
        cpu: MOST_FIGURE,
        size: MOST_FIGURE,
        link: MOST_FIGURE,
    };
    let is_heavy = draws.is_one_in(16);
    let operators = (0..operators)
        .map(|_| if is_heavy { most } else { operator(draws) })
        .collect();
    Sheet {
        operators,
        ..Sheet::default()
    }
}

/// One pair in `sparse` is an edge.
fn scattered(draws: &mut Draws, operators: usize, sparse: usize) -> Sheet {
    let mut sheet = loose(draws, operators);
    for to in 0..operators {
        for from in 0..to {
            if draws.is_one_in(sparse) {
                sheet.edges.insert((from, to));
            }
        }
    }
    sheet
}

/// Each operator after the one before it, but for one near the front; some further edges.
fn chained(draws: &mut Draws) -> Sheet {
    let operators = if draws.is_one_in(2) {
        MOST_OPERATORS
    } else {
        draws.between(11, MOST_OPERATORS)
    };
    let mut sheet = loose(draws, operators);
    let head = draws.between(1, 4);
    sheet.edges.extend(
        (1..operators)
            .filter(|&to| to != head)
            .map(|to| (to - 1, to)),
    );
    for _ in 0..draws.below(20) {
        let to = draws.between(1, operators - 1);
        sheet.edges.insert((draws.below(to), to));
    }
    sheet
}

fn full(draws: &mut Draws) -> Sheet {
    scattered(draws, MOST_OPERATORS, 1)
}
