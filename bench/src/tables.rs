//! The three tables that a caller lends, and what a search answers.

/// Where a cell's rating comes from: the index of the ideal before the last stage, and the stage's kind, 0 where there is none.
#[repr(C)]
#[derive(Clone, Copy, PartialEq, Eq, Debug)]
pub struct Choice {
    pub ideal: u32,
    pub kind: u8,
}

pub const NONE: Choice = Choice { ideal: 0, kind: 0 };

#[repr(C)]
#[derive(Clone, Copy, PartialEq, Eq, Debug)]
pub struct Stage {
    pub mask: u64,
    pub kind: u8,
}

/// The number of a refusal, or 0 and then a rating, how many ideals there are, and the first `count` of the stages.
#[repr(C)]
#[derive(Clone, Copy, PartialEq, Eq, Debug)]
pub struct Found {
    pub refusal: u8,
    pub rating: u32,
    pub ideals: usize,
    pub count: usize,
    pub stages: [Stage; 16],
}

impl Found {
    pub fn refused(refusal: u8) -> Found {
        Found {
            refusal,
            rating: 0,
            ideals: 0,
            count: 0,
            stages: [Stage { mask: 0, kind: 0 }; 16],
        }
    }
}

#[derive(Clone, PartialEq, Eq)]
pub struct Tables {
    pub ideals: Vec<u64>,
    pub ratings: Vec<u32>,
    pub choices: Vec<Choice>,
}

impl Tables {
    /// Tables of 4,096 ideals and this many cells, all full of numbers that no search writes.
    pub fn new(cells: usize) -> Tables {
        Tables {
            ideals: vec![0xA5A5_A5A5_A5A5_A5A5; 4096],
            ratings: vec![0xA5A5_A5A5; cells],
            choices: vec![
                Choice {
                    ideal: 0xA5A5_A5A5,
                    kind: 0xA5,
                };
                cells
            ],
        }
    }
}
