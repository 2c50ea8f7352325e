//! Compares the planner's exported calls with an implementation written from document 01 alone.

pub mod bends;
pub mod chart_cases;
pub mod document;
#[cfg(feature = "library")]
pub mod ffi;
pub mod files;
pub mod generate;
pub mod parallel;
pub mod random;
pub mod record;
pub mod report;
#[cfg(all(feature = "library", feature = "hunt"))]
pub mod soak;
#[cfg(feature = "library")]
pub mod stack;
#[cfg(feature = "library")]
pub mod stored;
pub mod suites;
