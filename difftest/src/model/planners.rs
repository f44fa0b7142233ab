//! The planner, and how it plans: docs/RULES.md, *The planner*, *Ideals*, *The recurrence*.

use super::devices::Kind;
use super::limits::MOST_IDEALS;
use super::pages::page;
use super::recurrence::Cells;
use super::refusals::Refusal;
use super::scales::{Rating, Scale};
use super::sheets::Sheet;
use super::splits::{Problem, Stage};
use crate::planning::Tables;

pub struct Planner {
    pub sheet: Sheet,
    pub kinds: [Kind; 2],
    pub scale: Scale,
    pub(super) standing: Option<Standing>,
}

/// The split that stands.
pub(super) struct Standing {
    pub rating: Rating,
    pub stages: Vec<Stage>,
    pub pace: u64,
}

impl Planner {
    pub fn new(kinds: [Kind; 2], scale: Scale) -> Planner {
        Planner {
            sheet: Sheet::default(),
            kinds,
            scale,
            standing: None,
        }
    }

    pub fn problem(&self) -> Problem<'_> {
        Problem {
            sheet: &self.sheet,
            kinds: self.kinds,
            scale: self.scale,
        }
    }

    /// The stages of the split that stands.
    pub fn stages(&self) -> &[Stage] {
        self.standing
            .as_ref()
            .map_or(&[], |standing| &standing.stages)
    }

    pub fn page_text(&self) -> Result<String, Refusal> {
        self.standing()
            .map(|standing| page(&standing.stages, standing.pace))
    }

    pub(super) fn standing(&self) -> Result<&Standing, Refusal> {
        self.standing.as_ref().ok_or(Refusal::NoSplit)
    }

    /// A least split: its rating, its stages, and how many ideals there are.
    pub(super) fn found(
        &self,
        tables: &mut Tables,
    ) -> Result<(Rating, Vec<Stage>, usize), Refusal> {
        let room = tables.ideals.len().min(MOST_IDEALS);
        let ideals = self.sheet.ideals(room + 1);
        let listed = ideals.len().min(room);
        tables.ideals[..listed].copy_from_slice(&ideals[..listed]);
        if ideals.len() > room {
            return Err(Refusal::TooManyIdeals);
        }
        let needed = ideals.len() * self.sheet.cells_an_ideal();
        if tables.ratings.len().min(tables.choices.len()) < needed {
            return Err(Refusal::TooFewCells);
        }
        let cells = self.problem().cells(&ideals);
        fill(tables, &cells, self.scale.start());
        let split = self.problem().read_back(&ideals, &cells);
        let (rating, stages) = split.ok_or(Refusal::NoLawfulSplit)?;
        Ok((rating, stages, ideals.len()))
    }
}

fn fill(tables: &mut Tables, cells: &Cells, start: Rating) {
    let places = tables.ratings.iter_mut().zip(&mut tables.choices);
    for ((rating, choice), row) in places.zip(cells.rows(start)) {
        (*rating, *choice) = row;
    }
}
