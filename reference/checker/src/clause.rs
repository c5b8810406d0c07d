//! Document 01, "The four lent tables": literals and clauses.

use std::collections::BTreeSet;

/// A variable number or its negation.
///
/// The derived order compares the variable first, so a set of literals is
/// walked in ascending order of variables.
#[derive(Clone, Copy, Debug, PartialEq, Eq, PartialOrd, Ord)]
pub struct Literal {
    variable: u32,
    negated: bool,
}

/// A clause as the set of its literals.
pub type Clause = BTreeSet<Literal>;

impl Literal {
    pub fn positive(variable: u32) -> Literal {
        Literal {
            variable,
            negated: false,
        }
    }

    pub fn negative(variable: u32) -> Literal {
        Literal {
            variable,
            negated: true,
        }
    }

    /// The literal that a signed number stands for.
    pub fn of(number: i32) -> Literal {
        Literal {
            variable: number.unsigned_abs(),
            negated: number < 0,
        }
    }

    pub fn variable(self) -> u32 {
        self.variable
    }

    pub fn complement(self) -> Literal {
        Literal {
            negated: !self.negated,
            ..self
        }
    }

    /// The signed number, wide enough for every 32-bit literal of a record.
    pub fn number(self) -> i64 {
        let variable = i64::from(self.variable);
        if self.negated {
            -variable
        } else {
            variable
        }
    }
}

/// The clause of the given signed numbers.
pub fn clause_of(numbers: &[i32]) -> Clause {
    numbers.iter().map(|&number| Literal::of(number)).collect()
}

/// The signed numbers of a clause, ascending by variable.
pub fn numbers_of(clause: &Clause) -> Vec<i64> {
    clause.iter().map(|literal| literal.number()).collect()
}

/// The lowest variable that stands in the clause in both signs.
pub fn lowest_in_both_signs(clause: &Clause) -> Option<u32> {
    let paired = |literal: &&Literal| clause.contains(&literal.complement());
    let variables = clause.iter().filter(paired).map(|l| l.variable());
    variables.min()
}

/// Whether some literal stands in the clause together with its complement.
pub fn has_complementary(clause: &Clause) -> bool {
    lowest_in_both_signs(clause).is_some()
}

/// The clause without one literal.
pub fn without(clause: &Clause, literal: Literal) -> Clause {
    let mut rest = clause.clone();
    rest.remove(&literal);
    rest
}

/// The literal of the clause that has this number, if there is one.
pub fn find(clause: &Clause, number: i64) -> Option<Literal> {
    clause
        .iter()
        .copied()
        .find(|literal| literal.number() == number)
}
