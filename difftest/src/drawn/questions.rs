//! Drawn questions to a planner.

use super::draws::Draws;
use super::next::{far_number, number};
use super::readings::{Reading, Written};
use crate::model::limits::{LONGEST_FILE, MOST_TOLD};
use crate::model::planners::Planner;
use crate::planning::{Answer, Planning};

#[derive(Debug)]
pub struct Questions {
    stages: Vec<u64>,
    operators: Vec<u64>,
    picks: Vec<u64>,
    /// Lengths of buffers for the page and for the file, and what is in them before.
    page_rooms: Vec<usize>,
    file_rooms: Vec<usize>,
    filler: u8,
}

impl Questions {
    /// About all that there is in a planner, and some of what there is not.
    pub fn about(draws: &mut Draws, planner: &Planner) -> Questions {
        let (stages, operators) = (planner.stages().len(), planner.sheet.operators.len());
        let pace = planner.problem().pace(planner.stages());
        let page = planner.page_text().map_or(20, |page| page.len());
        Questions {
            stages: (0..=stages as u64)
                .chain([far_number(draws, stages)])
                .collect(),
            operators: (0..8.min(operators as u64))
                .chain([
                    operators as u64,
                    number(draws, &planner.sheet),
                    far_number(draws, operators),
                ])
                .collect(),
            picks: vec![pick(draws, pace), pick(draws, pace)],
            page_rooms: rooms(draws, page),
            file_rooms: rooms(draws, planner.sheet.file_length()),
            filler: draws.byte(),
        }
    }

    pub fn asked(&self, planner: &mut dyn Planning) -> Reading {
        Reading {
            rating: planner.rating(),
            stages: self
                .stages
                .iter()
                .map(|&number| planner.stage(number))
                .collect(),
            places: self
                .operators
                .iter()
                .map(|&number| planner.place(number))
                .collect(),
            margins: self
                .picks
                .iter()
                .map(|&pick| planner.margin(pick))
                .collect(),
            pages: self.written(&self.page_rooms, |buffer| planner.page(buffer)),
            files: self.written(&self.file_rooms, |buffer| planner.write(buffer)),
        }
    }

    fn written(
        &self,
        rooms: &[usize],
        mut write: impl FnMut(&mut [u8]) -> Answer<usize>,
    ) -> Vec<Written> {
        let writing = |&room: &usize| {
            let mut buffer = vec![self.filler; room];
            (write(&mut buffer), buffer)
        };
        rooms.iter().map(writing).collect()
    }
}

fn pick(draws: &mut Draws, pace: u64) -> u64 {
    let near = pace.saturating_sub(5) + draws.below(10) as u64;
    draws.one_of(&[
        0,
        near,
        near,
        near,
        MOST_TOLD,
        MOST_TOLD + 1,
        1 << 31,
        u32::MAX.into(),
    ])
}

/// Lengths around the one that is needed.
fn rooms(draws: &mut Draws, needed: usize) -> Vec<usize> {
    let longer = needed + draws.between(1, 40);
    let shorter = draws.below(needed + 1).saturating_sub(1);
    vec![
        needed,
        draws.one_of(&[needed.saturating_sub(1), shorter]),
        draws.one_of(&[longer, longer, longer, LONGEST_FILE.max(needed)]),
    ]
}
