//! The calls that change a planner's sheet, or plan it.

use crate::model::sheets::Operator;
use crate::planning::{Answer, Plan, Planning, Tables};

#[derive(Clone, Debug)]
pub enum Call {
    /// With accelerators of this limit.
    Renew(u64),
    Add(Operator),
    Join(u64, u64),
    Retime(u64, Operator),
    Count(u64, u64),
    Load(Vec<u8>),
    Clear,
    Plan(Tables),
}

/// What a granted call answers.
#[derive(Clone, Copy, PartialEq, Debug)]
pub enum Granted {
    Nothing,
    Number(usize),
    Plan(Plan),
}

impl Call {
    /// As docs/REFUSALS.md names it.
    pub fn name(&self) -> &'static str {
        match self {
            Call::Renew(_) => "new",
            Call::Add(_) => "add",
            Call::Join(..) => "join",
            Call::Retime(..) => "retime",
            Call::Count(..) => "count",
            Call::Load(_) => "load",
            Call::Clear => "clear",
            Call::Plan(_) => "plan",
        }
    }

    /// Makes the call; what it is lent stays in it.
    pub fn made(&mut self, planner: &mut dyn Planning) -> Answer<Granted> {
        let nothing = |()| Granted::Nothing;
        match self {
            &mut Call::Renew(limit) => planner.renew(limit).map(nothing),
            &mut Call::Add(operator) => planner.add(operator).map(Granted::Number),
            &mut Call::Join(from, to) => planner.join(from, to).map(nothing),
            &mut Call::Retime(number, operator) => planner.retime(number, operator).map(nothing),
            &mut Call::Count(k, l) => planner.count(k, l).map(nothing),
            Call::Load(file) => planner.load(file).map(nothing),
            Call::Clear => Ok(nothing(planner.clear())),
            Call::Plan(tables) => planner.plan(tables).map(Granted::Plan),
        }
    }
}
