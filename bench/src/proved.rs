//! The proved implementation, as its static library exports it. It is linked twice, beginning at a multiple of 64 bytes and
//! 16 bytes past one: how fast loops run depends on where they stand.

use crate::tables::{Choice, Found, Tables};

type Export = unsafe extern "C" fn(
    file: *const u8,
    file_length: usize,
    limit: u32,
    ideals: *mut u64,
    ideals_length: usize,
    ratings: *mut u32,
    ratings_length: usize,
    choices: *mut Choice,
    choices_length: usize,
) -> Found;

unsafe extern "C" {
    fn planner_find_split_at_0(
        file: *const u8,
        file_length: usize,
        limit: u32,
        ideals: *mut u64,
        ideals_length: usize,
        ratings: *mut u32,
        ratings_length: usize,
        choices: *mut Choice,
        choices_length: usize,
    ) -> Found;
    fn planner_find_split_at_16(
        file: *const u8,
        file_length: usize,
        limit: u32,
        ideals: *mut u64,
        ideals_length: usize,
        ratings: *mut u32,
        ratings_length: usize,
        choices: *mut Choice,
        choices_length: usize,
    ) -> Found;
}

/// One of the two copies.
#[derive(Clone, Copy)]
pub struct Linked(Export);

pub const AT_0: Linked = Linked(planner_find_split_at_0);
pub const AT_16: Linked = Linked(planner_find_split_at_16);

impl Linked {
    /// Where it begins, past a multiple of 64 bytes. The linker's script puts that many bytes before it.
    pub fn place(self) -> usize {
        self.0 as usize % 64
    }

    /// Finds a least split of the sheet of a file. The export asks nothing of its caller but slices.
    pub fn find(self, file: &[u8], limit: u32, tables: &mut Tables) -> Found {
        unsafe {
            self.0(
                file.as_ptr(),
                file.len(),
                limit,
                tables.ideals.as_mut_ptr(),
                tables.ideals.len(),
                tables.ratings.as_mut_ptr(),
                tables.ratings.len(),
                tables.choices.as_mut_ptr(),
                tables.choices.len(),
            )
        }
    }
}
