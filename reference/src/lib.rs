//! Not proved, and not for linking: the cutting-cell agent and its journal in plain Rust, written from documents 01
//! and 02 and, for images, from docs/IMAGE-FORMAT.md.
//!
//! It shares nothing with the proved program: what the two answer is compared byte by byte
//! (`tests/differential`) and timed side by side (`bench`).
//!
//! A library of bytes becomes a [`library::Library`] of decoded plans; an [`agent::Agent`] made from it takes reports,
//! cycles and outcomes; a [`journal::Journal`] reads these calls as lines and writes a line for each. [`image::save`] and
//! [`image::restore`] carry an agent over as bytes, [`board::page`] shows its live instances. [`endings::Endings`] counts how the
//! body of a plan may end.

#![forbid(unsafe_code)]
#![warn(missing_docs)]

pub mod agent;
pub mod answer;
pub mod belief;
pub mod board;
pub mod division;
pub mod endings;
mod formed;
pub mod image;
pub mod journal;
pub mod library;
pub mod literal;
pub mod refusal;
pub mod state;
