//! Drawn files: good ones, and ones that are damaged in some way.

use super::damages::{
    changed, changed_counts, changed_edges, changed_figure, changed_head, lengthened, moved_body,
    random_after, resized,
};
use super::draws::Draws;
use super::sheets::sheet;
use crate::model::files::HEAD;

pub fn file(draws: &mut Draws) -> Vec<u8> {
    let mut file = sheet(draws).file();
    match draws.below(20) {
        0..=2 => {}
        3..=5 => changed(draws, &mut file, 0),
        6 => changed_head(draws, &mut file),
        7 => (0..draws.between(2, 4)).for_each(|_| changed(draws, &mut file, 0)),
        8..=9 => changed(draws, &mut file, HEAD),
        10..=11 => changed_edges(draws, &mut file),
        12 => changed_counts(draws, &mut file),
        13 => changed_figure(draws, &mut file),
        14 => file.truncate(draws.below(file.len())),
        15 => lengthened(draws, &mut file),
        16 => resized(draws, &mut file),
        17 => random_after(draws, &mut file),
        _ => moved_body(draws, &mut file),
    }
    file
}

/// Any bytes of this length, some with the letters and the count in front.
pub fn random(draws: &mut Draws, length: usize) -> Vec<u8> {
    let mut file = draws.bytes(length);
    if draws.is_one_in(2) {
        let front = sheet(draws).file();
        let kept = draws
            .one_of(&[4, 5, HEAD, front.len()])
            .min(length)
            .min(front.len());
        file[..kept].copy_from_slice(&front[..kept]);
    }
    file
}
