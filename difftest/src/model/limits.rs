//! The limits of docs/RULES.md and docs/FORMAT.md.

/// Operators of a sheet.
pub const MOST_OPERATORS: usize = 64;
/// Each of an operator's four figures.
pub const MOST_FIGURE: u64 = 1_000_000;
/// Devices of a kind.
pub const MOST_DEVICES: u64 = 8;
/// An accelerator's limit, and a pick time.
pub const MOST_TOLD: u64 = 1_000_000_000;
/// Ideals that a table takes.
pub const MOST_IDEALS: usize = 4096;
/// Pairs of 64 operators.
pub const MOST_EDGES: usize = 2016;
/// Bytes of a sheet file.
pub const LONGEST_FILE: usize = 5078;
