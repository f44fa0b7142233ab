//! A stage's figures and what the device kinds answer for them: docs/RULES.md, *Figures of a stage*, *Device kinds*.

use super::limits::MOST_TOLD;
use super::masks::{has, members};
use super::refusals::Refusal;
use super::sheets::Sheet;

#[derive(Clone, Copy, PartialEq, Eq, Default, Debug)]
pub struct Figures {
    pub acc: u64,
    pub cpu: u64,
    pub size: u64,
    pub into: u64,
    pub out: u64,
}

#[derive(Clone, Copy, PartialEq, Eq, Debug)]
pub struct Load {
    pub ticks: u64,
    pub link: u64,
}

#[derive(Clone, Copy, Debug)]
pub enum Kind {
    Accelerator { limit: u64 },
    Processor,
}

impl Sheet {
    pub fn figures(&self, stage: u64) -> Figures {
        let (mut feeding, mut leaving) = (0, 0);
        for &(from, to) in &self.edges {
            if !has(stage, from) && has(stage, to) {
                feeding |= 1 << from;
            }
            if has(stage, from) && !has(stage, to) {
                leaving |= 1 << from;
            }
        }
        let mut sums = Figures {
            into: self.link(feeding),
            out: self.link(leaving),
            ..Figures::default()
        };
        for operator in members(stage).filter_map(|place| self.operators.get(place)) {
            sums.acc += operator.acc;
            sums.cpu += operator.cpu;
            sums.size += operator.size;
        }
        sums
    }

    /// The links of these operators, each once.
    fn link(&self, charged: u64) -> u64 {
        members(charged)
            .map(|place| self.operators[place].link)
            .sum()
    }
}

impl Kind {
    pub fn accelerator(limit: u64) -> Result<Kind, Refusal> {
        if limit > MOST_TOLD {
            Err(Refusal::AboveLimit)
        } else {
            Ok(Kind::Accelerator { limit })
        }
    }

    /// The load of a stage, if it fits.
    pub fn load(self, figures: Figures) -> Option<Load> {
        match self {
            Kind::Accelerator { limit } if figures.size > limit => None,
            Kind::Accelerator { .. } => {
                let link = figures.into + figures.out;
                Some(Load {
                    ticks: figures.acc + link,
                    link,
                })
            }
            Kind::Processor => Some(Load {
                ticks: figures.cpu,
                link: 0,
            }),
        }
    }
}
