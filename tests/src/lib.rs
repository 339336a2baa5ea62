//! An independent model of the RTMS executive, and what it takes to compare another executive with it.

#![cfg_attr(not(feature = "in-process"), forbid(unsafe_code))]

pub mod batch;
pub mod comparison;
pub mod coverage;
pub mod damage;
pub mod difference;
mod digits;
pub mod effort;
pub mod executive;
pub mod generator;
pub mod golden;
#[cfg(feature = "in-process")]
pub mod in_process;
pub mod listing;
pub mod log;
pub mod program;
pub mod random;
pub mod run;
pub mod text;

#[cfg(test)]
mod tests;
