//! Compares a library behind the driver's calls with the reference checker,
//! call by call: the answer and every byte of every buffer.

#![forbid(unsafe_code)]

pub mod command;
pub mod compare;
pub mod fuzzed;
pub mod generate;
pub mod guarded;
pub mod library;
pub mod oracle;
pub mod program;
pub mod scenario;
pub mod soundness;
