//! Document 01, "Formula text" and "Numbers of refusal", with Note 3 of document
//! 02: a formula is read line by line from the top; each line is tested 10, 11,
//! 12, 13, 14.

use std::collections::{BTreeMap, BTreeSet};

use crate::clause::{has_complementary, Clause, Literal};
use crate::limits;
use crate::refusal::{FormulaRefusal, Number};
use crate::text::{self, Line};

/// What a prefix line says about a variable.
#[derive(Clone, Debug, PartialEq, Eq)]
pub enum Quantifier {
    /// On an `a` line.
    Universal,
    /// On an `e` line: depends on the universals declared on lines before it. On
    /// a `d` line: depends on the universals named there.
    On(BTreeSet<u32>),
}

/// What an accepted text says.
#[derive(Clone, Debug, Default, PartialEq, Eq)]
pub struct Formula {
    /// V of the header.
    pub variables: u32,
    /// The declared variables.
    pub prefix: BTreeMap<u32, Quantifier>,
    /// The universals in order of declaration.
    pub universals: Vec<u32>,
    pub clauses: Vec<Clause>,
}

impl Formula {
    /// The dependency set of a variable; a universal's set is the variable itself.
    pub fn set(&self, variable: u32) -> BTreeSet<u32> {
        match self.prefix.get(&variable) {
            Some(Quantifier::Universal) => BTreeSet::from([variable]),
            Some(Quantifier::On(set)) => set.clone(),
            None => BTreeSet::new(),
        }
    }
}

/// Reads a text, or tells the first refusal.
pub fn read(text: &[u8]) -> Result<Formula, FormulaRefusal> {
    let at = |line| move |number| FormulaRefusal { line, number };
    if text.len() > limits::TEXT_BYTES {
        return Err(at(0)(Number::OverLimit));
    }
    let lines = text::lines(text);
    let mut reader = Reader::default();
    for (index, line) in lines.iter().enumerate() {
        reader.line(line).map_err(at(index + 1))?;
    }
    if reader.wanted_clauses.is_none() {
        return Err(at(lines.len() + 1)(Number::NoForm));
    }
    if reader.wanted_clauses != Some(reader.formula.clauses.len()) {
        return Err(at(lines.len())(Number::ClauseCount));
    }
    Ok(reader.formula)
}

/// The forms of the lines behind the header.
enum Form {
    Universals(Vec<u32>),
    Existentials(Vec<u32>),
    Existential(u32, Vec<u32>),
    Clause(Clause),
}

/// V and C, if the line is a header.
fn header_form(line: &[u8]) -> Option<(u32, u32)> {
    match text::tokens(line)?.as_slice() {
        [b"p", b"cnf", variables, clauses] => {
            Some((text::number(variables)?, text::number(clauses)?))
        }
        _ => None,
    }
}

/// The form of a line behind the header.
fn body_form(line: &[u8]) -> Option<Form> {
    let tokens = text::tokens(line)?;
    let (last, front) = tokens.split_last()?;
    if *last != b"0" {
        return None;
    }
    match front {
        [b"a", rest @ ..] if !rest.is_empty() => variables(rest).map(Form::Universals),
        [b"e", rest @ ..] if !rest.is_empty() => variables(rest).map(Form::Existentials),
        [b"d", first, rest @ ..] => {
            Some(Form::Existential(text::variable(first)?, variables(rest)?))
        }
        _ => literals(front).map(Form::Clause),
    }
}

fn variables(tokens: &[&[u8]]) -> Option<Vec<u32>> {
    tokens.iter().map(|token| text::variable(token)).collect()
}

fn literals(tokens: &[&[u8]]) -> Option<Clause> {
    tokens.iter().map(|token| text::literal(token)).collect()
}

/// What the lines so far have said.
#[derive(Default)]
struct Reader {
    /// C, once the header is read.
    wanted_clauses: Option<usize>,
    formula: Formula,
    /// The different numbers on `a` lines so far.
    on_universal_lines: BTreeSet<u32>,
    /// The literals of all clauses so far.
    literals: usize,
}

impl Reader {
    fn line(&mut self, line: &Line) -> Result<(), Number> {
        if !line.ended {
            return Err(Number::NoForm);
        }
        match self.wanted_clauses {
            None if line.bytes.starts_with(b"c") => Ok(()),
            None => self.header(line.bytes),
            Some(wanted) => self.body(line.bytes, wanted),
        }
    }

    fn header(&mut self, line: &[u8]) -> Result<(), Number> {
        let (variables, clauses) = header_form(line).ok_or(Number::NoForm)?;
        if variables as usize > limits::VARIABLES || clauses as usize > limits::CLAUSES {
            return Err(Number::OverLimit);
        }
        self.formula.variables = variables;
        self.wanted_clauses = Some(clauses as usize);
        Ok(())
    }

    fn body(&mut self, line: &[u8], wanted: usize) -> Result<(), Number> {
        let form = body_form(line).ok_or(Number::NoForm)?;
        let prefix_is_over = !self.formula.clauses.is_empty();
        match form {
            Form::Clause(clause) => self.clause(clause, wanted),
            _ if prefix_is_over => Err(Number::NoForm),
            Form::Universals(named) => self.universals(&named),
            Form::Existentials(named) => self.existentials(&named),
            Form::Existential(variable, set) => self.existential(variable, set),
        }
    }

    fn universals(&mut self, named: &[u32]) -> Result<(), Number> {
        self.on_universal_lines.extend(named);
        if self.on_universal_lines.len() > limits::UNIVERSALS {
            return Err(Number::OverLimit);
        }
        for &variable in named {
            self.declare(variable, Quantifier::Universal)?;
            self.formula.universals.push(variable);
        }
        Ok(())
    }

    fn existentials(&mut self, named: &[u32]) -> Result<(), Number> {
        let before: BTreeSet<u32> = self.formula.universals.iter().copied().collect();
        for &variable in named {
            self.declare(variable, Quantifier::On(before.clone()))?;
        }
        Ok(())
    }

    fn existential(&mut self, variable: u32, set: Vec<u32>) -> Result<(), Number> {
        let universal = |named: &u32| self.formula.universals.contains(named);
        if !set.iter().all(universal) {
            return Err(Number::Variable);
        }
        self.declare(variable, Quantifier::On(set.into_iter().collect()))
    }

    fn declare(&mut self, variable: u32, quantifier: Quantifier) -> Result<(), Number> {
        let above = variable > self.formula.variables;
        if above || self.formula.prefix.contains_key(&variable) {
            return Err(Number::Variable);
        }
        self.formula.prefix.insert(variable, quantifier);
        Ok(())
    }

    fn clause(&mut self, clause: Clause, wanted: usize) -> Result<(), Number> {
        let literals = self.literals + clause.len();
        if clause.len() > limits::WIDTH || literals > limits::LITERALS {
            return Err(Number::OverLimit);
        }
        let declared = |l: &Literal| self.formula.prefix.contains_key(&l.variable());
        if !clause.iter().all(declared) {
            return Err(Number::Variable);
        }
        if has_complementary(&clause) {
            return Err(Number::Complementary);
        }
        if self.formula.clauses.len() == wanted {
            return Err(Number::ClauseCount);
        }
        self.literals = literals;
        self.formula.clauses.push(clause);
        Ok(())
    }
}
