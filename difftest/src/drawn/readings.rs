//! All that a planner answers to questions.

use std::fmt::Arguments;

use crate::model::scales::Rating;
use crate::planning::{Answer, ToldStage};
use crate::tally::Tally;

/// An answer to `page` or `write` and the buffer after it.
pub type Written = (Answer<usize>, Vec<u8>);

pub struct Reading {
    pub rating: Answer<Rating>,
    pub stages: Vec<Answer<ToldStage>>,
    pub places: Vec<Answer<usize>>,
    pub margins: Vec<Answer<i64>>,
    pub pages: Vec<Written>,
    pub files: Vec<Written>,
}

impl Reading {
    /// Stops at the first answer that is not as it is due.
    pub fn must_be(&self, due: &Reading, when: Arguments) {
        assert_eq!(self.rating, due.rating, "the rating {when}");
        assert_eq!(self.stages, due.stages, "the stages {when}");
        assert_eq!(self.places, due.places, "the places {when}");
        assert_eq!(self.margins, due.margins, "the margins {when}");
        assert_eq!(self.pages, due.pages, "the pages {when}");
        assert_eq!(self.files, due.files, "the files {when}");
    }

    pub fn note(&self, tally: &mut Tally) {
        tally.note("rating", &self.rating);
        self.stages
            .iter()
            .for_each(|answer| tally.note("stage", answer));
        self.places
            .iter()
            .for_each(|answer| tally.note("place", answer));
        self.margins
            .iter()
            .for_each(|answer| tally.note("margin", answer));
        self.pages
            .iter()
            .for_each(|(answer, _)| tally.note("page", answer));
        self.files
            .iter()
            .for_each(|(answer, _)| tally.note("write", answer));
    }
}
