//! A planner of the library beside one of the model, through the same calls.

use crate::drawn::calls::{Call, Granted};
use crate::drawn::draws::Draws;
use crate::drawn::questions::Questions;
use crate::drawn::readings::Reading;
use crate::library::{Controlling, controller};
use crate::model::devices::Kind;
use crate::model::planners::Planner;
use crate::model::scales::Scale;
use crate::model::splits::Stage;
use crate::planning::{Answer, Tables};
use crate::tally::Tally;

pub struct Both<'a> {
    pub model: Planner,
    library: Box<dyn Controlling>,
    tally: &'a mut Tally,
    /// Asked after the last call, and what the library answered.
    questions: Questions,
    reading: Reading,
}

impl Both<'_> {
    pub fn new<'a>(draws: &mut Draws, scale: Scale, tally: &'a mut Tally) -> Both<'a> {
        let model = Planner::new([Kind::Accelerator { limit: 0 }, Kind::Processor], scale);
        let mut library = controller(scale);
        let questions = Questions::about(draws, &model);
        let reading = questions.asked(&mut *library);
        Both {
            model,
            library,
            tally,
            questions,
            reading,
        }
    }

    /// Makes a call on both, and holds the answers, what was lent, and all that both tell afterwards against each other.
    pub fn step(&mut self, draws: &mut Draws, call: Call) -> Answer<Granted> {
        let copy = draws.is_one_in(16).then(|| self.library.copied());
        let (mut ours, mut models) = (call.clone(), call);
        let (answer, due) = (ours.made(&mut *self.library), models.made(&mut self.model));
        self.tally.note(ours.name(), &answer);
        assert_eq!(
            answer, due,
            "the answer to {ours:?}, with {:?}",
            self.model.sheet
        );
        if let (Call::Plan(found), Call::Plan(due)) = (&ours, &models) {
            same_tables(found, due);
        }
        if answer.is_err() {
            let reading = self.questions.asked(&mut *self.library);
            reading.must_be(
                &self.reading,
                format_args!("after {ours:?}, which is refused"),
            );
        }
        if let Some(mut copy) = copy {
            let reading = self.questions.asked(&mut *copy);
            reading.must_be(
                &self.reading,
                format_args!("of a copy from before {ours:?}"),
            );
        }
        if draws.is_one_in(16) {
            self.library.move_away();
        }
        self.ask(draws, &ours);
        if let Ok(Granted::Plan(plan)) = answer {
            let stages = self.stages(plan.stages);
            assert_eq!(
                self.model.problem().rating(&stages),
                Some(plan.rating),
                "a lawful split"
            );
        }
        answer
    }

    fn ask(&mut self, draws: &mut Draws, last: &Call) {
        self.questions = Questions::about(draws, &self.model);
        self.reading = self.questions.asked(&mut *self.library);
        self.reading.note(self.tally);
        let due = self.questions.asked(&mut self.model);
        self.reading.must_be(
            &due,
            format_args!("after {last:?}, by {:?}", self.questions),
        );
    }

    /// The stages of the library's split.
    fn stages(&mut self, count: usize) -> Vec<Stage> {
        let stage = |number| {
            self.library
                .stage(number)
                .expect("a number below that of the stages")
        };
        (0..count as u64)
            .map(stage)
            .map(|told| Stage {
                kind: told.kind,
                mask: told.mask,
            })
            .collect()
    }
}

fn same_tables(found: &Tables, due: &Tables) {
    same_places("ideals", &found.ideals, &due.ideals);
    same_places("ratings", &found.ratings, &due.ratings);
    same_places("choices", &found.choices, &due.choices);
}

fn same_places<T: PartialEq + std::fmt::Debug>(table: &str, found: &[T], due: &[T]) {
    for (place, (found, due)) in found.iter().zip(due).enumerate() {
        assert_eq!(found, due, "place {place} of the table of {table}");
    }
}
