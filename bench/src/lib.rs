//! The libraries, journals and images that are timed, and how.

#![forbid(unsafe_code)]

pub mod cases;
pub mod measure;
