//! The planner's calls: docs/RULES.md, *The planner*, and the order of the checks in docs/REFUSALS.md.

use super::devices::Kind;
use super::limits::MOST_TOLD;
use super::masks::{has, members};
use super::planners::{Planner, Standing};
use super::reading::read;
use super::refusals::Refusal;
use super::scales::Rating;
use super::sheets::{Operator, Sheet};
use crate::planning::{Answer, Plan, Planning, Tables, ToldStage};

impl Planning for Planner {
    fn renew(&mut self, limit: u64) -> Answer<()> {
        let accelerator = Kind::accelerator(limit)?;
        *self = Planner::new([accelerator, Kind::Processor], self.scale);
        Ok(())
    }

    fn add(&mut self, operator: Operator) -> Answer<usize> {
        let number = self.sheet.add(operator)?;
        self.standing = None;
        Ok(number)
    }

    fn join(&mut self, from: u64, to: u64) -> Answer<()> {
        self.sheet.join(from, to)?;
        self.standing = None;
        Ok(())
    }

    fn retime(&mut self, number: u64, operator: Operator) -> Answer<()> {
        self.sheet.retime(number, operator)?;
        self.standing = None;
        Ok(())
    }

    fn count(&mut self, k: u64, l: u64) -> Answer<()> {
        self.sheet.count(k, l)?;
        self.standing = None;
        Ok(())
    }

    fn load(&mut self, file: &[u8]) -> Answer<()> {
        self.sheet = read(file)?;
        self.standing = None;
        Ok(())
    }

    fn clear(&mut self) {
        self.sheet = Sheet::default();
        self.standing = None;
    }

    fn plan(&mut self, tables: &mut Tables) -> Answer<Plan> {
        let (rating, stages, ideals) = self.found(tables)?;
        let pace = self.problem().pace(&stages);
        let plan = Plan {
            rating,
            stages: stages.len(),
            ideals,
        };
        self.standing = Some(Standing {
            rating,
            stages,
            pace,
        });
        Ok(plan)
    }

    fn stage(&mut self, number: u64) -> Answer<ToldStage> {
        let stages = &self.standing()?.stages;
        let place = usize::try_from(number).ok();
        let stage = place
            .and_then(|place| stages.get(place))
            .ok_or(Refusal::NoStage)?;
        Ok(ToldStage {
            kind: stage.kind,
            mask: stage.mask,
            operators: members(stage.mask).count(),
        })
    }

    fn place(&mut self, operator: u64) -> Answer<usize> {
        let stages = &self.standing()?.stages;
        let operator = self.sheet.operator(operator)?;
        let place = stages.iter().position(|stage| has(stage.mask, operator));
        Ok(place.expect("a split holds each operator"))
    }

    fn rating(&mut self) -> Answer<Rating> {
        Ok(self.standing()?.rating)
    }

    fn margin(&mut self, pick: u64) -> Answer<i64> {
        let pace = self.standing()?.pace;
        if pick > MOST_TOLD {
            return Err(Refusal::AboveLimit.into());
        }
        Ok(pick as i64 - pace as i64)
    }

    fn page(&mut self, buffer: &mut [u8]) -> Answer<usize> {
        put(self.page_text()?.as_bytes(), buffer)
    }

    fn write(&mut self, buffer: &mut [u8]) -> Answer<usize> {
        put(&self.sheet.file(), buffer)
    }
}

/// Into the front of the buffer, if there is room for all.
fn put(bytes: &[u8], buffer: &mut [u8]) -> Answer<usize> {
    let front = buffer
        .get_mut(..bytes.len())
        .ok_or(Refusal::BufferTooShort)?;
    front.copy_from_slice(bytes);
    Ok(bytes.len())
}
