//! What may happen to a good file.

use super::draws::Draws;
use crate::model::files::{BODY_ENTRY, CONTENTS_ENTRY, HEAD, SECTIONS};
use crate::model::limits::{MOST_EDGES, MOST_OPERATORS};

/// By one, to a value at a limit, or to any other.
fn other(draws: &mut Draws, byte: u8) -> u8 {
    match draws.below(4) {
        0 => byte.wrapping_add(1),
        1 => byte.wrapping_sub(1),
        2 => draws.one_of(&[0, 1, 8, 9, 16, 63, 64, 65, 128, 255]),
        _ => draws.byte(),
    }
}

pub fn changed(draws: &mut Draws, file: &mut [u8], from: usize) {
    let place = draws.between(from, file.len() - 1);
    file[place] = other(draws, file[place]);
}

pub fn changed_head(draws: &mut Draws, file: &mut [u8]) {
    changed(draws, &mut file[..HEAD], 0);
}

/// Where the edges begin; the counts are the last two bytes.
fn edges_at(file: &[u8]) -> usize {
    HEAD + usize::from(file[8]) + 256 * usize::from(file[9])
}

pub fn changed_edges(draws: &mut Draws, file: &mut [u8]) {
    let (begin, end) = (edges_at(file), file.len() - BODY_ENTRY[2]);
    let edges = (end - begin) / BODY_ENTRY[1];
    if edges == 0 {
        return;
    }
    let place = begin + BODY_ENTRY[1] * draws.below(edges);
    match draws.below(4) {
        0 => file.swap(place, place + 1),
        1 => file[place] = file[place + 1],
        2 => file.copy_within(begin..begin + BODY_ENTRY[1], place),
        _ => changed(draws, &mut file[begin..end], 0),
    }
}

pub fn changed_counts(draws: &mut Draws, file: &mut [u8]) {
    let begin = file.len() - BODY_ENTRY[2];
    changed(draws, &mut file[begin..], 0);
}

/// To the limit, or one more.
pub fn changed_figure(draws: &mut Draws, file: &mut [u8]) {
    let figures = (edges_at(file) - HEAD) / 4;
    if figures > 0 {
        let place = HEAD + 4 * draws.below(figures);
        let figure: u32 = draws.one_of(&[1_000_000, 1_000_001, 1 << 24, u32::MAX]);
        file[place..place + 4].copy_from_slice(&figure.to_le_bytes());
    }
}

pub fn lengthened(draws: &mut Draws, file: &mut Vec<u8>) {
    // with 65,536 bytes more the contents are as they would be without them
    let few = draws.between(1, 40);
    let more = draws.one_of(&[1, 1, few, few, few, 65_536]);
    file.extend(draws.bytes(more));
}

/// One body longer or shorter, and all contents entries made to agree.
pub fn resized(draws: &mut Draws, file: &mut Vec<u8>) {
    let body = draws.below(SECTIONS);
    let counts_at = file.len() - BODY_ENTRY[2];
    let begin = [HEAD, edges_at(file), counts_at][body];
    let end = [edges_at(file), counts_at, file.len()][body];
    let length = end - begin;
    // one entry more than there may be
    let too_long = BODY_ENTRY[body] * ([MOST_OPERATORS, MOST_EDGES, 1][body] + 1);
    let wanted = match draws.below(5) {
        0 => length + 1,
        1 => length + BODY_ENTRY[body],
        2 => length + draws.between(1, 40),
        3 => draws.below(length + 1),
        _ => too_long,
    };
    if wanted > length {
        file.splice(end..end, std::iter::repeat_n(0, wanted - length));
    } else {
        file.drain(begin + wanted..end);
    }
    agree(file, body, wanted as isize - length as isize);
}

/// The length in this contents entry, and the offsets in those after it, by so much more.
fn agree(file: &mut [u8], index: usize, more: isize) {
    let entry = |index: usize| 5 + index * CONTENTS_ENTRY;
    add(&mut file[entry(index) + 3..], more);
    (index + 1..SECTIONS).for_each(|later| add(&mut file[entry(later) + 1..], more));
}

fn add(bytes: &mut [u8], more: isize) {
    let number = u16::from_le_bytes([bytes[0], bytes[1]]);
    bytes[..2].copy_from_slice(&(number as isize + more).to_le_bytes()[..2]);
}

pub fn random_after(draws: &mut Draws, file: &mut Vec<u8>) {
    let kept = draws.below(file.len());
    file.truncate(kept);
    let more = draws.below(60);
    file.extend(draws.bytes(more));
}

/// A body that begins or ends elsewhere, its neighbours as they were.
pub fn moved_body(draws: &mut Draws, file: &mut [u8]) {
    let place = 5 + CONTENTS_ENTRY * draws.below(SECTIONS) + draws.one_of(&[1, 3]);
    let more = draws.one_of(&[-16, -2, -1, 1, 2, 16, 1024, 4034]);
    add(&mut file[place..], more);
}
