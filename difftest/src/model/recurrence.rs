//! The recurrence over the ideals: docs/RULES.md, *The recurrence*.

use super::masks::is_inside;
use super::scales::Rating;
use super::splits::{Problem, Stage};
use crate::planning::Choice;

/// What is known of a cell: nothing, or the least rating and how it came about.
type Cell = Option<(Rating, Choice)>;

/// All cells, in the order of their indices.
pub struct Cells {
    cells: Vec<Cell>,
}

const NO_CHOICE: Choice = Choice { ideal: 0, kind: 0 };

impl Problem<'_> {
    /// The cells of all of these ideals.
    pub fn cells(&self, ideals: &[u64]) -> Cells {
        let mut cells = vec![None; ideals.len() * self.sheet.cells_an_ideal()];
        for (i, &ideal) in ideals.iter().enumerate() {
            if ideal == 0 {
                cells[..self.sheet.cells_an_ideal()].fill(Some((self.scale.start(), NO_CHOICE)));
            }
            for (j, &before) in ideals[..i].iter().enumerate() {
                if is_inside(before, ideal) {
                    self.offer(&mut cells, i, j, ideal & !before);
                }
            }
        }
        Cells { cells }
    }

    /// The candidates for ideal `i` from ideal `j`, the first kind's before the second's.
    fn offer(&self, cells: &mut [Cell], i: usize, j: usize, stage: u64) {
        let figures = self.sheet.figures(stage);
        for (number, [a_less, b_less]) in [(1, [1, 0]), (2, [0, 1])] {
            let Some(load) = self.kind(number).and_then(|kind| kind.load(figures)) else {
                continue;
            };
            for a in a_less..=self.sheet.k as usize {
                for b in b_less..=self.sheet.l as usize {
                    let Some((rating, _)) = cells[self.index(j, a - a_less, b - b_less)] else {
                        continue;
                    };
                    let offered = self.scale.joined(rating, load);
                    let cell = &mut cells[self.index(i, a, b)];
                    if cell.is_none_or(|(least, _)| offered < least) {
                        *cell = Some((
                            offered,
                            Choice {
                                ideal: j,
                                kind: number,
                            },
                        ));
                    }
                }
            }
        }
    }

    fn index(&self, i: usize, a: usize, b: usize) -> usize {
        (i * (self.sheet.k as usize + 1) + a) * (self.sheet.l as usize + 1) + b
    }

    /// The stages read back from the last cell, and its rating, if it has one.
    pub fn read_back(&self, ideals: &[u64], cells: &Cells) -> Option<(Rating, Vec<Stage>)> {
        let (mut i, mut a, mut b) = (
            ideals.len() - 1,
            self.sheet.k as usize,
            self.sheet.l as usize,
        );
        let (rating, _) = cells.cells[self.index(i, a, b)]?;
        let mut stages = Vec::new();
        while i > 0 {
            let (_, Choice { ideal: j, kind }) = cells.cells[self.index(i, a, b)]?;
            stages.push(Stage {
                kind,
                mask: ideals[i] & !ideals[j],
            });
            (i, a, b) = if kind == 1 {
                (j, a - 1, b)
            } else {
                (j, a, b - 1)
            };
        }
        stages.reverse();
        Some((rating, stages))
    }
}

impl Cells {
    /// What the tables of ratings and of choices hold of it; a cell without candidate has start and (0, 0).
    pub fn rows(&self, start: Rating) -> impl Iterator<Item = (Rating, Choice)> {
        self.cells
            .iter()
            .map(move |cell| cell.unwrap_or((start, NO_CHOICE)))
    }
}
