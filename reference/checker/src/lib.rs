//! Reference checker for Fork-Resolution refutations of DQBF.
//!
//! Written from documents 01 and 02 alone, over `Vec`, `BTreeSet` and `BTreeMap`. It is
//! compared with the verified library, so it shares no code and no layout with
//! it: dependency sets are sets of variable numbers, clauses are sets of
//! literals, and the four lent tables appear only in [`tables`], [`wellformed`],
//! [`calls`] and [`driver`].

#![forbid(unsafe_code)]

pub mod calls;
pub mod clause;
pub mod driver;
pub mod formula;
pub mod limits;
pub mod listed;
pub mod records;
pub mod refusal;
pub mod rules;
pub mod state;
pub mod tables;
pub mod text;
pub mod tidy;
pub mod verdict;
pub mod wellformed;

use state::State;
use verdict::Verdict;

/// Document 01, "The line printed": the verdict on a text and a list of records.
///
/// The records of a refused formula are not examined.
pub fn check(text: &[u8], records: &[u8]) -> Verdict {
    match State::load(text) {
        Ok(mut state) => state.run(records),
        Err(refusal) => Verdict::Formula(refusal),
    }
}
