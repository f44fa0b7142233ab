//! A sheet and the calls that change it: docs/RULES.md, *Operators* to *Changing a sheet*.

use std::collections::BTreeSet;

use super::limits::{MOST_DEVICES, MOST_FIGURE, MOST_OPERATORS};
use super::refusals::Refusal;

#[derive(Clone, Copy, PartialEq, Eq, Debug)]
pub struct Operator {
    pub acc: u64,
    pub cpu: u64,
    pub size: u64,
    pub link: u64,
}

#[derive(Clone, PartialEq, Eq, Default, Debug)]
pub struct Sheet {
    pub operators: Vec<Operator>,
    pub edges: BTreeSet<(usize, usize)>,
    pub k: u64,
    pub l: u64,
}

impl Operator {
    pub fn figures(self) -> [u64; 4] {
        [self.acc, self.cpu, self.size, self.link]
    }

    pub fn is_modest(self) -> bool {
        self.figures().iter().all(|&figure| figure <= MOST_FIGURE)
    }
}

impl Sheet {
    pub fn add(&mut self, operator: Operator) -> Result<usize, Refusal> {
        if self.operators.len() >= MOST_OPERATORS {
            return Err(Refusal::SheetFull);
        }
        if !operator.is_modest() {
            return Err(Refusal::AboveLimit);
        }
        self.operators.push(operator);
        Ok(self.operators.len() - 1)
    }

    pub fn join(&mut self, from: u64, to: u64) -> Result<(), Refusal> {
        let (from, to) = (self.operator(from)?, self.operator(to)?);
        if to <= from {
            return Err(Refusal::NotUpward);
        }
        if !self.edges.insert((from, to)) {
            return Err(Refusal::EdgeExists);
        }
        Ok(())
    }

    pub fn retime(&mut self, number: u64, operator: Operator) -> Result<(), Refusal> {
        let number = self.operator(number)?;
        if !operator.is_modest() {
            return Err(Refusal::AboveLimit);
        }
        self.operators[number] = operator;
        Ok(())
    }

    pub fn count(&mut self, k: u64, l: u64) -> Result<(), Refusal> {
        if k.max(l) > MOST_DEVICES {
            return Err(Refusal::CountAboveLimit);
        }
        (self.k, self.l) = (k, l);
        Ok(())
    }

    /// The place of the operator that has this number.
    pub fn operator(&self, number: u64) -> Result<usize, Refusal> {
        usize::try_from(number)
            .ok()
            .filter(|&place| place < self.operators.len())
            .ok_or(Refusal::NoOperator)
    }

    /// Cells of the tables for each ideal.
    pub fn cells_an_ideal(&self) -> usize {
        (self.k as usize + 1) * (self.l as usize + 1)
    }
}
