//! The next call on a planner, drawn.

use super::calls::Call;
use super::draws::Draws;
use super::files::file;
use super::sheets::{operator, sheet};
use super::tables::tables;
use crate::model::limits::{MOST_DEVICES, MOST_FIGURE, MOST_OPERATORS, MOST_TOLD};
use crate::model::planners::Planner;
use crate::model::sheets::{Operator, Sheet};

/// Most are within the rules.
pub fn next_call(draws: &mut Draws, planner: &Planner) -> Call {
    let present = &planner.sheet;
    match draws.below(100) {
        0..=17 => Call::Add(any_operator(draws)),
        18..=37 => joined(draws, present),
        38..=45 => Call::Retime(number(draws, present), any_operator(draws)),
        46..=55 => Call::Count(devices(draws), devices(draws)),
        56..=58 => Call::Load(file(draws)),
        59..=60 => Call::Load(sheet(draws).file()),
        61 => Call::Clear,
        62 => Call::Renew(limit(draws)),
        _ => Call::Plan(tables(draws, planner.scale, present)),
    }
}

/// Of accelerators.
pub fn limit(draws: &mut Draws) -> u64 {
    let near = draws.below(60) as u64;
    match draws.below(12) {
        0 => draws.one_of(&[MOST_TOLD + 1, 1 << 31, u32::MAX.into()]),
        1 => MOST_TOLD,
        2..=4 => MOST_FIGURE,
        _ => near,
    }
}

/// Mostly one of the sheet's operators.
pub fn number(draws: &mut Draws, present: &Sheet) -> u64 {
    let operators = present.operators.len();
    match draws.below(20) {
        0 => operators as u64,
        1 => far_number(draws, operators),
        _ => draws.below(operators.max(1)) as u64,
    }
}

/// At limits, and such that a number that is cut to fewer bits would be a small one.
pub fn far_number(draws: &mut Draws, near: usize) -> u64 {
    let small = draws.below(near + 2) as u64;
    let most = MOST_OPERATORS as u64;
    draws.one_of(&[
        most - 1,
        most,
        most + 1,
        1 << 8,
        1 << 16,
        (1 << 32) + small,
        (1 << 63) + small,
        u64::MAX,
    ])
}

/// Mostly upward, and mostly with the edges on which chains grow, so that there are few ideals.
fn joined(draws: &mut Draws, present: &Sheet) -> Call {
    let operators = present.operators.len();
    if operators < 2 || draws.is_one_in(8) {
        return Call::Join(number(draws, present), number(draws, present));
    }
    let to = draws.between(1, operators - 1);
    let from = if draws.is_one_in(2) {
        to - 1
    } else {
        draws.below(to)
    };
    Call::Join(from as u64, to as u64)
}

fn any_operator(draws: &mut Draws) -> Operator {
    let within = operator(draws);
    if !draws.is_one_in(12) {
        return within;
    }
    let above = draws.one_of(&[MOST_FIGURE + 1, 1 << 24, 1 << 31, u32::MAX.into()]);
    match draws.below(4) {
        0 => Operator {
            acc: above,
            ..within
        },
        1 => Operator {
            cpu: above,
            ..within
        },
        2 => Operator {
            size: above,
            ..within
        },
        _ => Operator {
            link: above,
            ..within
        },
    }
}

fn devices(draws: &mut Draws) -> u64 {
    match draws.below(20) {
        0 => MOST_DEVICES + 1,
        1 => draws.one_of(&[16, 128, u8::MAX.into()]),
        2..=4 => draws.below(MOST_DEVICES as usize + 1) as u64,
        _ => draws.below(4) as u64,
    }
}
