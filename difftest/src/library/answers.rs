//! The structs in which answers come back from C.

use std::fmt::Debug;

use super::ratings::CRating;
use crate::model::refusals::Told;
use crate::planning::{Answer, Plan, ToldStage};

#[repr(C)]
#[derive(Clone, Copy, PartialEq, Eq, Default, Debug)]
pub struct CRefusal {
    entry: usize,
    number: u8,
    section: u8,
    reason: u8,
}

/// A refusal and what is answered beside it. The header has each such struct flat, which is laid out alike.
#[repr(C)]
pub struct Answered<T> {
    refusal: CRefusal,
    value: T,
}

#[repr(C)]
#[derive(Clone, Copy, PartialEq, Default, Debug)]
pub struct CPlan<R> {
    stages: usize,
    ideals: usize,
    rating: R,
}

#[repr(C)]
#[derive(Clone, Copy, PartialEq, Default, Debug)]
pub struct CStage {
    mask: u64,
    operators: u32,
    kind: u8,
}

impl CRefusal {
    /// Where it is granted, all of it is 0.
    pub fn answer(self) -> Answer<()> {
        if self.number == 0 {
            assert_eq!(self, CRefusal::default(), "values of a granted call");
            return Ok(());
        }
        Err(Told {
            number: self.number.into(),
            section: self.section.into(),
            entry: self.entry as u64,
            reason: self.reason.into(),
        })
    }
}

impl<T: Default + PartialEq + Debug> Answered<T> {
    /// Where it is refused, all but the refusal is 0.
    pub fn answer(self) -> Answer<T> {
        let Err(told) = self.refusal.answer() else {
            return Ok(self.value);
        };
        assert_eq!(self.value, T::default(), "what is answered beside {told:?}");
        Err(told)
    }
}

impl<R: CRating> CPlan<R> {
    pub fn plan(self) -> Plan {
        Plan {
            rating: self.rating.rating(),
            stages: self.stages,
            ideals: self.ideals,
        }
    }
}

impl CStage {
    pub fn stage(self) -> ToldStage {
        ToldStage {
            kind: self.kind.into(),
            mask: self.mask,
            operators: self.operators as usize,
        }
    }
}
