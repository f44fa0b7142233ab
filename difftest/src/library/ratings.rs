//! Ratings as they cross to C.

use super::lent::Lendable;
use super::narrow;
use crate::model::scales::Rating;

/// Of one scale.
pub trait CRating: Lendable + Default {
    fn of(rating: Rating) -> Self;
    fn rating(self) -> Rating;
}

/// On the scale pair.
#[repr(C)]
#[derive(Clone, Copy, PartialEq, Eq, Default, Debug)]
pub struct TicksAndLink {
    ticks: u32,
    link: u32,
}

impl CRating for u32 {
    fn of(rating: Rating) -> u32 {
        narrow(rating.ticks)
    }

    fn rating(self) -> Rating {
        Rating {
            ticks: self.into(),
            link: 0,
        }
    }
}

impl CRating for u64 {
    fn of(rating: Rating) -> u64 {
        rating.ticks
    }

    fn rating(self) -> Rating {
        Rating {
            ticks: self,
            link: 0,
        }
    }
}

impl CRating for TicksAndLink {
    fn of(rating: Rating) -> TicksAndLink {
        TicksAndLink {
            ticks: narrow(rating.ticks),
            link: narrow(rating.link),
        }
    }

    fn rating(self) -> Rating {
        Rating {
            ticks: self.ticks.into(),
            link: self.link.into(),
        }
    }
}

impl Lendable for TicksAndLink {
    const AROUND: TicksAndLink = TicksAndLink {
        ticks: u32::AROUND,
        link: u32::AROUND,
    };
}
