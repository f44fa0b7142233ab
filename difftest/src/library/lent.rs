//! Memory that the library is lent, with some more on both sides that must stay as it is.

use std::fmt::Debug;

/// Elements on either side.
const AROUND: usize = 8;

pub trait Lendable: Copy + PartialEq + Debug {
    /// What stands on both sides.
    const AROUND: Self;
}

impl Lendable for u8 {
    const AROUND: u8 = 0xA5;
}

impl Lendable for u32 {
    const AROUND: u32 = 0xA5A5_A5A5;
}

impl Lendable for u64 {
    const AROUND: u64 = 0xA5A5_A5A5_A5A5_A5A5;
}

pub struct Lent<T> {
    memory: Vec<T>,
}

impl<T: Lendable> Lent<T> {
    pub fn of(lent: &[T]) -> Lent<T> {
        let around = [T::AROUND; AROUND];
        Lent {
            memory: [&around, lent, &around].concat(),
        }
    }

    pub fn pointer(&mut self) -> *mut T {
        self.memory[AROUND..].as_mut_ptr()
    }

    pub fn length(&self) -> usize {
        self.memory.len() - 2 * AROUND
    }

    /// What is in it now; on both sides nothing may have been written.
    pub fn kept(&self) -> &[T] {
        let (before, rest) = self.memory.split_at(AROUND);
        let (lent, after) = rest.split_at(self.length());
        let due = [T::AROUND; AROUND];
        assert_eq!([before, after], [due, due], "memory beside what was lent");
        lent
    }

    pub fn spoil(&mut self, with: T) {
        self.memory.fill(with);
    }
}
