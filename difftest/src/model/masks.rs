//! Sets of operators as numbers of 64 bits: docs/RULES.md, *Sets of operators*.

pub fn has(mask: u64, operator: usize) -> bool {
    mask >> operator & 1 == 1
}

pub fn members(mask: u64) -> impl Iterator<Item = usize> {
    (0..64).filter(move |&operator| has(mask, operator))
}

pub fn is_inside(inner: u64, outer: u64) -> bool {
    members(inner).all(|operator| has(outer, operator))
}

/// The mask of the operators 0 to `count` − 1.
pub fn first(count: usize) -> u64 {
    (0..count).fold(0, |mask, operator| mask | 1 << operator)
}
