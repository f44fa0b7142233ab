//! The calls of a planner and their answers, in a form that the model and the library share.

use std::fmt;

use crate::model::refusals::Told;
use crate::model::scales::Rating;
use crate::model::sheets::Operator;

pub type Answer<T> = Result<T, Told>;

/// The calls of docs/RULES.md, *The planner*.
pub trait Planning {
    /// Makes it as new, with accelerators of this limit.
    fn renew(&mut self, limit: u64) -> Answer<()>;
    fn add(&mut self, operator: Operator) -> Answer<usize>;
    fn join(&mut self, from: u64, to: u64) -> Answer<()>;
    fn retime(&mut self, number: u64, operator: Operator) -> Answer<()>;
    fn count(&mut self, k: u64, l: u64) -> Answer<()>;
    fn load(&mut self, file: &[u8]) -> Answer<()>;
    fn clear(&mut self);
    fn plan(&mut self, tables: &mut Tables) -> Answer<Plan>;
    fn stage(&mut self, number: u64) -> Answer<ToldStage>;
    /// The number of the stage that holds an operator.
    fn place(&mut self, operator: u64) -> Answer<usize>;
    fn rating(&mut self) -> Answer<Rating>;
    fn margin(&mut self, pick: u64) -> Answer<i64>;
    fn page(&mut self, buffer: &mut [u8]) -> Answer<usize>;
    fn write(&mut self, buffer: &mut [u8]) -> Answer<usize>;
}

/// What a granted plan answers.
#[derive(Clone, Copy, PartialEq, Eq, Debug)]
pub struct Plan {
    pub rating: Rating,
    pub stages: usize,
    pub ideals: usize,
}

#[derive(Clone, Copy, PartialEq, Eq, Debug)]
pub struct ToldStage {
    pub kind: u64,
    pub mask: u64,
    pub operators: usize,
}

/// The three tables that a plan is lent.
#[derive(Clone, PartialEq, Eq)]
pub struct Tables {
    pub ideals: Vec<u64>,
    pub ratings: Vec<Rating>,
    pub choices: Vec<Choice>,
}

/// Their lengths alone.
impl fmt::Debug for Tables {
    fn fmt(&self, to: &mut fmt::Formatter<'_>) -> fmt::Result {
        let lengths = [self.ideals.len(), self.ratings.len(), self.choices.len()];
        write!(to, "tables of lengths {lengths:?}")
    }
}

/// The index of the ideal before the last stage, and that stage's kind.
#[derive(Clone, Copy, PartialEq, Eq, Debug)]
pub struct Choice {
    pub ideal: usize,
    pub kind: u64,
}
