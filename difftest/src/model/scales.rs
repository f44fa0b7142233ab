//! How splits are rated: docs/RULES.md, *Scales*.

use super::devices::Load;

#[derive(Clone, Copy, PartialEq, Eq, Debug)]
pub enum Scale {
    Peak,
    Line,
    Pair,
}

/// Compared by ticks and on equal ticks by link; peak and line have no link, it stays 0.
#[derive(Clone, Copy, PartialEq, Eq, PartialOrd, Ord, Debug)]
pub struct Rating {
    pub ticks: u64,
    pub link: u64,
}

impl Scale {
    pub fn start(self) -> Rating {
        Rating { ticks: 0, link: 0 }
    }

    pub fn joined(self, rating: Rating, load: Load) -> Rating {
        match self {
            Scale::Peak => Rating {
                ticks: rating.ticks.max(load.ticks),
                link: 0,
            },
            Scale::Line => Rating {
                ticks: rating.ticks.saturating_add(load.ticks),
                link: 0,
            },
            Scale::Pair => rating.max(Rating {
                ticks: load.ticks,
                link: load.link,
            }),
        }
    }
}
