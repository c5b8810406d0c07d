//! Document 01, "The line printed", and document 02, Note 4.

use std::fmt;

use crate::refusal::{FormulaRefusal, Number};

/// The outcome of a formula and a list of steps. Displayed, it is the line
/// without its line feed.
#[derive(Clone, Copy, Debug, PartialEq, Eq)]
pub enum Verdict {
    /// Accepted steps and the lowest empty clause.
    Refuted { steps: usize, clause: usize },
    /// Accepted steps.
    Open { steps: usize },
    /// The refused step within its list, 0 for the whole list, and why.
    Bad { step: usize, number: Number },
    /// The refused line, 0 for the whole text.
    Formula(FormulaRefusal),
}

impl Verdict {
    pub fn bad(step: usize, number: Number) -> Verdict {
        Verdict::Bad { step, number }
    }
}

impl fmt::Display for Verdict {
    fn fmt(&self, line: &mut fmt::Formatter) -> fmt::Result {
        match self {
            Verdict::Refuted { steps, clause } => write!(line, "refuted {steps} {clause}"),
            Verdict::Open { steps } => write!(line, "open {steps}"),
            Verdict::Bad { step, number } => write!(line, "bad {step} {number}"),
            Verdict::Formula(refusal) => {
                write!(line, "formula {} {}", refusal.line, refusal.number)
            }
        }
    }
}
