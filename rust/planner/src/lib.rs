//! The proved planner, called from Rust.

#[cfg(not(feature = "stand-in"))]
mod ffi;

#[cfg(not(feature = "stand-in"))]
pub use ffi::Linked;

pub use calls::{Answer, Best, Planner, Refusal, Size, Timetable, MARK, PLACES};
