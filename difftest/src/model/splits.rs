//! Stages, and what makes a list of them lawful: docs/RULES.md, *Splits*. It knows nothing of how a split is found.

use super::devices::Kind;
use super::masks::{first, has};
use super::scales::{Rating, Scale};
use super::sheets::Sheet;

#[derive(Clone, Copy, PartialEq, Eq, Debug)]
pub struct Stage {
    /// 1 or 2.
    pub kind: u64,
    pub mask: u64,
}

/// A sheet with what its splits run on and are rated by.
#[derive(Clone, Copy)]
pub struct Problem<'a> {
    pub sheet: &'a Sheet,
    pub kinds: [Kind; 2],
    pub scale: Scale,
}

impl Problem<'_> {
    /// The rating of a list of stages, if it is a lawful split.
    pub fn rating(&self, stages: &[Stage]) -> Option<Rating> {
        (self.holds_each_once(stages) && !self.leads_back(stages) && self.devices_suffice(stages))
            .then(|| {
                stages.iter().try_fold(self.scale.start(), |rating, stage| {
                    let load = self
                        .kind(stage.kind)?
                        .load(self.sheet.figures(stage.mask))?;
                    Some(self.scale.joined(rating, load))
                })
            })
            .flatten()
    }

    /// The largest ticks of a stage.
    pub fn pace(&self, stages: &[Stage]) -> u64 {
        let ticks = |stage: &Stage| {
            self.kind(stage.kind)?
                .load(self.sheet.figures(stage.mask))
                .map(|load| load.ticks)
        };
        stages.iter().filter_map(ticks).max().unwrap_or(0)
    }

    pub fn kind(&self, number: u64) -> Option<Kind> {
        match number {
            1 => Some(self.kinds[0]),
            2 => Some(self.kinds[1]),
            _ => None,
        }
    }

    fn holds_each_once(&self, stages: &[Stage]) -> bool {
        let count = |operator| {
            stages
                .iter()
                .filter(|stage| has(stage.mask, operator))
                .count()
        };
        let operators = first(self.sheet.operators.len());
        stages.iter().all(|stage| stage.mask != 0)
            && (0..64).all(|operator| count(operator) == usize::from(has(operators, operator)))
    }

    fn leads_back(&self, stages: &[Stage]) -> bool {
        let stage_of = |operator| stages.iter().position(|stage| has(stage.mask, operator));
        self.sheet
            .edges
            .iter()
            .any(|&(from, to)| stage_of(from) > stage_of(to))
    }

    fn devices_suffice(&self, stages: &[Stage]) -> bool {
        let in_use = |kind| stages.iter().filter(|stage| stage.kind == kind).count() as u64;
        in_use(1) <= self.sheet.k && in_use(2) <= self.sheet.l
    }
}
