//! What the proved library is compared with, in plain Rust. It shares no code and no rule with the library.
//!
//! - [`definitions`]: document 01's definitions as they stand: every m-mer cut out, no state, no table. For long
//!   sequences, and for shelves whose k-mers can be run through.
//! - [`ties`]: counts for shelves of any k, by the m-mers that are tied with the word so far.
//! - [`draws`]: numbers, words, keys and sequences from a seed.

#![forbid(unsafe_code)]

pub mod definitions;
pub mod draws;
pub mod ties;
