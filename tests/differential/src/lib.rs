//! Libraries and journals from a seed, the check of a journal by itself, and the counts of what came up.

#![forbid(unsafe_code)]

pub mod coverage;
pub mod damage;
pub mod draft;
pub mod images;
pub mod ledger;
pub mod lines;
mod offcuts;
mod panels;
pub mod plans;
pub mod programs;
pub mod random;
pub mod scenario;
pub mod unreadable;
