//! The records of a trace. Every record is tried on the reference checker, so
//! that a trace with a wrong step, or one over the limits, is told here.

use std::collections::BTreeMap;

use checker::clause::{without, Clause, Literal};
use checker::records::{encode, Step as Record};
use checker::refusal::Number;
use checker::state::{Kind, State};

use crate::qdimacs;
use crate::trace::{self, Step};

/// The two files.
pub struct Converted {
    pub formula: String,
    pub steps: Vec<u8>,
}

/// The formula text and the records, or what is wrong.
pub fn convert(qdimacs: &str, trace: &str) -> Result<Converted, String> {
    let formula = qdimacs::read(qdimacs)?.text();
    let state = State::load(formula.as_bytes()).map_err(|refusal| {
        let (line, number) = (refusal.line, refusal.number.value());
        format!("line {line} of the formula is refused with {number}")
    })?;
    let mut converter = Converter {
        state,
        records: Vec::new(),
        numbers: BTreeMap::new(),
    };
    for step in trace::read(trace)? {
        let number = converter.step(&step);
        let number = number.map_err(|error| format!("step {}: {error}", step.number))?;
        converter.numbers.insert(step.number, number);
    }
    Ok(Converted {
        formula,
        steps: converter.records,
    })
}

struct Converter {
    state: State,
    records: Vec<u8>,
    /// The clause number of each step of the trace.
    numbers: BTreeMap<i32, u32>,
}

impl Converter {
    /// The number of a clause with the step's literals.
    fn step(&mut self, step: &Step) -> Result<u32, String> {
        let known = |number: &i32| self.numbers.get(number).copied().ok_or("an unknown clause");
        let number = match step.antecedents.as_slice() {
            [] => self.of_formula(&step.clause)?,
            [one] => known(one)?,
            [one, other] => {
                let (one, other) = (known(one)?, known(other)?);
                self.resolve(one, other)?
            }
            _ => return Err("more than two antecedents".into()),
        };
        let number = self.reduce(number, |literal| !step.clause.contains(&literal))?;
        if *self.clause(number) == step.clause {
            Ok(number)
        } else {
            Err("another clause follows".into())
        }
    }

    fn clause(&self, number: u32) -> &Clause {
        self.state.clause(number).expect("a number given out")
    }

    fn is_universal(&self, literal: Literal) -> bool {
        self.state.kind(literal.variable()) == Kind::Universal
    }

    /// Takes a step; the number of its clause.
    fn take(&mut self, record: Record) -> Result<u32, String> {
        let bytes = encode(record);
        let taken = self.state.step(&bytes);
        taken.map_err(|number| match number {
            Number::NoRoom => "over 2,048 clauses or 8,192 literals".into(),
            other => format!("refused with {other}"),
        })?;
        self.records.extend(bytes);
        Ok(self.state.clauses().len() as u32)
    }

    /// The formula's clause, which the trace may list with universals reduced.
    fn of_formula(&self, clause: &Clause) -> Result<u32, String> {
        let found = |other: &Clause| {
            let mut more = other.difference(clause);
            clause.is_subset(other) && more.all(|&literal| self.is_universal(literal))
        };
        let clauses = self.state.clauses();
        let exact = clauses.iter().position(|other| other == clause);
        let place = exact.or_else(|| clauses.iter().position(found));
        Ok(place.ok_or("no clause of the formula")? as u32 + 1)
    }

    /// Reduces the universal literals that are chosen, one by one.
    fn reduce(&mut self, number: u32, chosen: impl Fn(Literal) -> bool) -> Result<u32, String> {
        let literals: Vec<Literal> = self.clause(number).iter().copied().collect();
        let each = literals.into_iter();
        let chosen: Vec<Literal> = each
            .filter(|&l| self.is_universal(l) && chosen(l))
            .collect();
        chosen.into_iter().try_fold(number, |clause, literal| {
            let literal = literal.number() as i32;
            self.take(Record::Reduction { clause, literal })
        })
    }

    /// Resolves on the existential that stands in both, complementary; where a
    /// universal does too, it is reduced before.
    fn resolve(&mut self, one: u32, other: u32) -> Result<u32, String> {
        let second = self.clause(other).clone();
        let first = self.clause(one).iter().copied();
        let both: Vec<Literal> = first.filter(|l| second.contains(&l.complement())).collect();
        let (clashes, pivots): (Vec<_>, Vec<_>) =
            both.into_iter().partition(|&l| self.is_universal(l));
        let [pivot] = pivots.as_slice() else {
            return Err("no single pivot".into());
        };
        let (mut first, mut second) = (one, other);
        for literal in clashes {
            if self.is_reducible(first, literal) {
                first = self.reduce(first, |l| l == literal)?;
            } else {
                second = self.reduce(second, |l| l == literal.complement())?;
            }
        }
        let pivot = pivot.number() as i32;
        self.take(Record::Resolution {
            first,
            second,
            pivot,
        })
    }

    fn is_reducible(&self, number: u32, literal: Literal) -> bool {
        let rest = without(self.clause(number), literal);
        !self.state.set_of(&rest).contains(&literal.variable())
    }
}
