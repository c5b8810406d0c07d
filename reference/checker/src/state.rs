//! Document 01, "The four lent tables" (the state and the questions) and "Step
//! records" (lists of steps): the formula with its derived clauses.

use std::collections::BTreeSet;

use crate::clause::Clause;
use crate::formula::{self, Formula, Quantifier};
use crate::limits;
use crate::records;
use crate::refusal::{FormulaRefusal, Number};
use crate::rules::{self, Addition};
use crate::verdict::Verdict;

/// The kind of a variable, with its number in the kinds table.
#[derive(Clone, Copy, Debug, PartialEq, Eq)]
pub enum Kind {
    Undeclared = 0,
    Universal = 1,
    Existential = 2,
    Fork = 3,
}

/// A variable in use.
#[derive(Clone, Debug, PartialEq, Eq)]
pub struct Variable {
    pub kind: Kind,
    /// Its dependency set, as variable numbers.
    pub set: BTreeSet<u32>,
}

/// The counts that go with the tables, in the order of document 01.
#[derive(Clone, Copy, Debug, Default, PartialEq, Eq)]
pub struct Counts {
    pub header_variables: u16,
    pub variables: u16,
    pub universals: u16,
    pub formula_clauses: u16,
    pub clauses: u16,
    pub literals: u16,
    pub steps: u16,
    pub lowest_empty: u16,
}

/// The formula, the clauses derived so far and the steps accepted so far.
#[derive(Clone, Debug, Default, PartialEq, Eq)]
pub struct State {
    pub(crate) header_variables: usize,
    /// Variable 1, 2, .. in use.
    pub(crate) variables: Vec<Variable>,
    /// The universals in the order of their bits.
    pub(crate) universals: Vec<u32>,
    pub(crate) formula_clauses: usize,
    /// Clause 1, 2, ..
    pub(crate) clauses: Vec<Clause>,
    pub(crate) steps: usize,
}

/// The entry that a number counted from 1 names.
fn entry<T>(entries: &[T], number: u32) -> Option<&T> {
    let index = (number as usize).checked_sub(1)?;
    entries.get(index)
}

impl State {
    /// Reads a formula; V variables are in use then, and no step is accepted.
    pub fn load(text: &[u8]) -> Result<State, FormulaRefusal> {
        Ok(State::of(&formula::read(text)?))
    }

    /// The state of a formula with no step.
    pub fn of(formula: &Formula) -> State {
        let variable = |number| Variable {
            kind: match formula.prefix.get(&number) {
                None => Kind::Undeclared,
                Some(Quantifier::Universal) => Kind::Universal,
                Some(Quantifier::On(_)) => Kind::Existential,
            },
            set: formula.set(number),
        };
        State {
            header_variables: formula.variables as usize,
            variables: (1..=formula.variables).map(variable).collect(),
            universals: formula.universals.clone(),
            formula_clauses: formula.clauses.len(),
            clauses: formula.clauses.clone(),
            steps: 0,
        }
    }

    /// Examines the record at the front of the bytes and adds what it derives.
    /// A refused step changes nothing.
    pub fn step(&mut self, bytes: &[u8]) -> Result<(), Number> {
        let step = records::decode(bytes).ok_or(Number::Record)?;
        let addition = rules::examine(self, step)?;
        self.add(addition);
        Ok(())
    }

    fn add(&mut self, addition: Addition) {
        self.clauses.extend(addition.clauses);
        self.variables.extend(addition.variable);
        self.steps += 1;
    }

    /// Examines a whole list up to its first refused step.
    /// An empty clause does not end it.
    pub fn run(&mut self, list: &[u8]) -> Verdict {
        if list.len() > limits::RECORD_BYTES {
            return Verdict::bad(0, Number::OverLimit);
        }
        for (index, record) in list.chunks(limits::RECORD).enumerate() {
            if let Err(number) = self.step(record) {
                return Verdict::bad(index + 1, number);
            }
        }
        self.verdict()
    }

    /// Refuted if there is an empty clause, else open.
    pub fn verdict(&self) -> Verdict {
        let steps = self.steps;
        match self.lowest_empty() {
            Some(clause) => Verdict::Refuted { steps, clause },
            None => Verdict::Open { steps },
        }
    }

    /// The clause of a number, or refusal 21.
    pub fn clause(&self, number: u32) -> Result<&Clause, Number> {
        entry(&self.clauses, number).ok_or(Number::ClauseNumber)
    }

    /// The variable of a number, or refusal 22 if it is not in use.
    pub fn variable(&self, number: u32) -> Result<&Variable, Number> {
        entry(&self.variables, number).ok_or(Number::NotThere)
    }

    /// The kind of a variable and how many universals its set holds.
    pub fn ask_variable(&self, number: u32) -> Result<(Kind, usize), Number> {
        let variable = self.variable(number)?;
        Ok((variable.kind, variable.set.len()))
    }

    /// The kind of a variable that stands in a clause.
    pub fn kind(&self, number: u32) -> Kind {
        entry(&self.variables, number).map_or(Kind::Undeclared, |variable| variable.kind)
    }

    /// The set of a clause: the union over its literals.
    pub fn set_of(&self, clause: &Clause) -> BTreeSet<u32> {
        let variables = clause
            .iter()
            .filter_map(|literal| entry(&self.variables, literal.variable()));
        variables
            .flat_map(|variable| variable.set.iter().copied())
            .collect()
    }

    /// The next number above the variables in use.
    pub fn next_variable(&self) -> u32 {
        self.variables.len() as u32 + 1
    }

    /// The least number of an empty clause.
    pub fn lowest_empty(&self) -> Option<usize> {
        let index = self.clauses.iter().position(BTreeSet::is_empty)?;
        Some(index + 1)
    }

    pub fn clauses(&self) -> &[Clause] {
        &self.clauses
    }

    pub fn variables(&self) -> &[Variable] {
        &self.variables
    }

    /// The universals in the order of their bits.
    pub fn universals(&self) -> &[u32] {
        &self.universals
    }

    /// The literals of all clauses.
    pub fn literals(&self) -> usize {
        self.clauses.iter().map(BTreeSet::len).sum()
    }

    /// All counts; each is within 16 bits, since the limits are.
    pub fn counts(&self) -> Counts {
        Counts {
            header_variables: self.header_variables as u16,
            variables: self.variables.len() as u16,
            universals: self.universals.len() as u16,
            formula_clauses: self.formula_clauses as u16,
            clauses: self.clauses.len() as u16,
            literals: self.literals() as u16,
            steps: self.steps as u16,
            lowest_empty: self.lowest_empty().unwrap_or(0) as u16,
        }
    }
}
