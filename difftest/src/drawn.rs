//! What the comparisons are made of, drawn from a fixed seed.

pub mod calls;
mod damages;
pub mod draws;
pub mod files;
pub mod next;
pub mod questions;
pub mod readings;
pub mod sheets;
pub mod tables;
