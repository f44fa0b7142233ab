//! The planner and all below it, written from docs/ alone. It shares nothing with the library.

mod calls;
pub mod devices;
pub mod files;
pub mod ideals;
pub mod limits;
pub mod masks;
pub mod pages;
pub mod planners;
pub mod reading;
pub mod recurrence;
pub mod refusals;
pub mod scales;
pub mod sheets;
pub mod splits;
