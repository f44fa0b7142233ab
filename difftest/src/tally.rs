//! How often each call was granted, and refused with what.

use std::collections::BTreeMap;

use crate::model::refusals::Told;
use crate::planning::Answer;

/// What is told apart: the number of a refusal, with the entry for 13, with section and reason for 14; 0 for a granted call.
type Kind = [u64; 3];

const GRANTED: Kind = [0; 3];

#[derive(Default)]
pub struct Tally {
    seen: BTreeMap<(&'static str, Kind), usize>,
}

/// What each call must be refused with at least once: docs/REFUSALS.md, *Order of the checks*.
const DUE: [(&str, &[u64]); 14] = [
    ("new", &[1]),
    ("add", &[2, 1]),
    ("join", &[3, 4, 5]),
    ("retime", &[3, 1]),
    ("count", &[6]),
    ("load", &[12]),
    ("clear", &[]),
    ("plan", &[7, 8, 9]),
    ("stage", &[10, 11]),
    ("place", &[10, 3]),
    ("rating", &[10]),
    ("margin", &[10, 1]),
    ("page", &[10, 15]),
    ("write", &[15]),
];

/// And a load with each contents entry, and each reason of each section.
const DUE_OF_LOAD: [Kind; 8] = [
    [13, 0, 0],
    [13, 1, 0],
    [13, 2, 0],
    [14, 1, 1],
    [14, 2, 3],
    [14, 2, 4],
    [14, 2, 5],
    [14, 3, 6],
];

impl Tally {
    pub fn note<T>(&mut self, call: &'static str, answer: &Answer<T>) {
        let kind = match *answer {
            Ok(_) => GRANTED,
            Err(Told {
                number: 13, entry, ..
            }) => [13, entry, 0],
            Err(Told {
                number: 14,
                section,
                reason,
                ..
            }) => [14, section, reason],
            Err(Told { number, .. }) => [number, 0, 0],
        };
        *self.seen.entry((call, kind)).or_default() += 1;
    }

    pub fn granted(&self, call: &'static str) -> usize {
        self.seen.get(&(call, GRANTED)).copied().unwrap_or(0)
    }

    /// How many calls were made.
    pub fn calls(&self) -> usize {
        self.seen.values().sum()
    }

    /// What must be seen and never was.
    pub fn missing(&self) -> Vec<String> {
        let plain = DUE.iter().flat_map(|&(call, numbers)| {
            numbers
                .iter()
                .map(move |&number| (call, [number, 0, 0]))
                .chain([(call, GRANTED)])
        });
        plain
            .chain(DUE_OF_LOAD.map(|kind| ("load", kind)))
            .filter(|due| !self.seen.contains_key(due))
            .map(|(call, kind)| format!("{call} {}", shown(kind)))
            .collect()
    }

    /// How often each refusal was seen, whichever call it came from.
    pub fn refusals(&self) -> String {
        let mut refusals: BTreeMap<Kind, usize> = BTreeMap::new();
        for (&(_, kind), count) in self.seen.iter().filter(|((_, kind), _)| *kind != GRANTED) {
            *refusals.entry(kind).or_default() += count;
        }
        let each = refusals
            .iter()
            .map(|(&kind, count)| format!("{} x {count}", shown(kind)));
        each.collect::<Vec<_>>().join(", ")
    }
}

fn shown(kind: Kind) -> String {
    match kind {
        GRANTED => "granted".into(),
        [13, entry, _] => format!("13/{entry}"),
        [14, section, reason] => format!("14/{section}/{reason}"),
        [number, _, _] => number.to_string(),
    }
}
