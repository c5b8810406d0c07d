//! Turns a QBF in QDIMACS and its refutation in QRP, as DepQBF traces it, into
//! a formula text and step records.
//!
//! Q-resolution is the part of Fork-Resolution without forks: an existential of
//! a QBF depends on the universals before it in the prefix. A QRP step names one
//! or two clauses and the clause that follows; universals that it leaves out are
//! reduced without saying so, and each becomes a record of its own here.

#![forbid(unsafe_code)]

pub mod convert;
pub mod qdimacs;
pub mod trace;

pub use convert::{convert, Converted};
