//! Document 01, "Numbers of refusal", and document 02, Notes 1 and 4.

use std::fmt;

/// Why a call, a line or a step is refused.
#[derive(Clone, Copy, Debug, PartialEq, Eq, PartialOrd, Ord)]
pub enum Number {
    /// A table is lent too short.
    TooShort,
    /// The tables are not well formed.
    IllFormed,
    /// A line has none of the forms, or stands out of order; header missing.
    NoForm,
    /// Over a limit of the text or of the list.
    OverLimit,
    /// Variable above V, declared twice, used undeclared, or no earlier universal.
    Variable,
    /// Complementary literals in a clause of the text.
    Complementary,
    /// The number of clauses is not C.
    ClauseCount,
    /// Kind not 1 to 3, a byte stated as 0 is not, or fewer than 16 bytes left.
    Record,
    /// Clause number 0 or above the count.
    ClauseNumber,
    /// Literal or complement not in its clause; variable not in use.
    NotThere,
    /// The resolvent has complementary literals: the lowest variable that it holds
    /// in both signs.
    Tautology(u32),
    /// The resolvent has too many literals.
    TooWide,
    /// No room for the new clauses or the new variable.
    NoRoom,
    /// The literal to reduce is not universal.
    NotUniversal,
    /// Another literal's set has the variable to reduce.
    Depended,
    /// The masks do not make the clause.
    Masks,
    /// One part's set contains the other's.
    Comparable,
    /// The output is lent shorter than the text.
    ShortOutput,
}

impl Number {
    /// The number without the variable.
    pub fn value(self) -> u16 {
        match self {
            Number::TooShort => 1,
            Number::IllFormed => 2,
            Number::NoForm => 10,
            Number::OverLimit => 11,
            Number::Variable => 12,
            Number::Complementary => 13,
            Number::ClauseCount => 14,
            Number::Record => 20,
            Number::ClauseNumber => 21,
            Number::NotThere => 22,
            Number::Tautology(_) => 23,
            Number::TooWide => 24,
            Number::NoRoom => 25,
            Number::NotUniversal => 26,
            Number::Depended => 27,
            Number::Masks => 28,
            Number::Comparable => 29,
            Number::ShortOutput => 30,
        }
    }

    /// The variable that is told with the number; only 23 has one.
    pub fn variable(self) -> Option<u32> {
        match self {
            Number::Tautology(variable) => Some(variable),
            _ => None,
        }
    }
}

/// As it stands in a line: the number, and behind 23 its variable.
impl fmt::Display for Number {
    fn fmt(&self, line: &mut fmt::Formatter) -> fmt::Result {
        write!(line, "{}", self.value())?;
        match self.variable() {
            Some(variable) => write!(line, " {variable}"),
            None => Ok(()),
        }
    }
}

/// A refused formula: its line (0 for the whole text) and why.
#[derive(Clone, Copy, Debug, PartialEq, Eq)]
pub struct FormulaRefusal {
    pub line: usize,
    pub number: Number,
}
