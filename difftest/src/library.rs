//! The proved library as include/controller.h declares it, in the form that it shares with the model.

mod answers;
mod calls;
mod header;
mod lent;
mod planning;
mod ratings;
mod tables;

use std::fmt::Debug;

use crate::model::limits::MOST_TOLD;
use crate::model::refusals::Refusal;
use crate::model::scales::Scale;
use crate::planning::Planning;
use calls::{Calls, LINE, PAIR, PEAK};
use lent::Lent;
use ratings::CRating;

/// A planner of the library.
pub struct Controller<R: 'static> {
    calls: &'static Calls<R>,
    planner: Lent<u64>,
}

/// A planner of this scale, made with accelerators of limit 0.
pub fn controller(scale: Scale) -> Box<dyn Controlling> {
    match scale {
        Scale::Peak => Box::new(Controller::of(&PEAK)),
        Scale::Line => Box::new(Controller::of(&LINE)),
        Scale::Pair => Box::new(Controller::of(&PAIR)),
    }
}

/// Stops where the header is not as it is called here.
pub fn check() {
    header::check(&[
        (PEAK.name, PEAK.words),
        (LINE.name, LINE.words),
        (PAIR.name, PAIR.words),
    ]);
}

/// What is asked of the library alone.
pub trait Controlling: Planning {
    /// A copy of all its bytes is a planner of its own.
    fn copied(&self) -> Box<dyn Controlling>;
    /// To another place of memory; nothing is left where it was.
    fn move_away(&mut self);
}

/// A number in the width of the C parameter; none that is drawn is wider.
fn narrow<N: TryFrom<u64, Error: Debug>>(number: u64) -> N {
    number
        .try_into()
        .expect("a number that the parameter takes")
}

impl<R: CRating> Controller<R> {
    /// A new planner must not come of a limit that is refused.
    fn of(calls: &'static Calls<R>) -> Controller<R> {
        let mut made = Controller {
            calls,
            planner: Lent::of(&vec![0; calls.words]),
        };
        assert_eq!(made.renew(MOST_TOLD + 1), Err(Refusal::AboveLimit.into()));
        assert!(
            made.planner.kept().iter().all(|&word| word == 0),
            "nothing is made"
        );
        made.renew(0).expect("a limit of 0");
        made
    }

    fn planner(&mut self) -> *mut u64 {
        self.planner.pointer()
    }
}

impl<R: CRating> Controlling for Controller<R> {
    fn copied(&self) -> Box<dyn Controlling> {
        let planner = Lent::of(self.planner.kept());
        Box::new(Controller {
            calls: self.calls,
            planner,
        })
    }

    fn move_away(&mut self) {
        let mut left = std::mem::replace(&mut self.planner, Lent::of(&[]));
        self.planner = Lent::of(left.kept());
        left.spoil(u64::MAX);
    }
}
