//! Documents 01 and 02 written a second time, from them alone, and what compares the library with it.

pub mod base;
pub mod generate;
#[cfg(feature = "library")]
pub mod library;
pub mod program;
pub mod samples;
