//! Document 01, "Step records" and "Numbers of refusal", with Notes 4 and 5 of
//! document 02: the three rules, each with its tests in the stated order.

use std::collections::BTreeSet;

use crate::clause::{find, lowest_in_both_signs, without, Clause, Literal};
use crate::limits;
use crate::records::Step;
use crate::refusal::Number;
use crate::state::{Kind, State, Variable};

/// What an accepted step adds.
#[derive(Clone, Debug, PartialEq, Eq)]
pub struct Addition {
    /// The new clauses in order.
    pub clauses: Vec<Clause>,
    /// The new variable of a fork.
    pub variable: Option<Variable>,
}

/// Examines a step against the clauses so far.
pub fn examine(state: &State, step: Step) -> Result<Addition, Number> {
    match step {
        Step::Resolution {
            first,
            second,
            pivot,
        } => resolution(state, first, second, pivot),
        Step::Reduction { clause, literal } => reduction(state, clause, literal),
        Step::Fork {
            clause,
            left,
            right,
        } => fork(state, clause, left, right),
    }
}

/// Resolution: 21, 22, 23 with its variable, 24, 25.
pub fn resolution(state: &State, first: u32, second: u32, pivot: i32) -> Result<Addition, Number> {
    let first = state.clause(first)?;
    let second = state.clause(second)?;
    let pivot = i64::from(pivot);
    let positive = find(first, pivot).ok_or(Number::NotThere)?;
    let negative = find(second, -pivot).ok_or(Number::NotThere)?;
    let mut resolvent = without(first, positive);
    resolvent.extend(without(second, negative));
    if let Some(variable) = lowest_in_both_signs(&resolvent) {
        return Err(Number::Tautology(variable));
    }
    if resolvent.len() > limits::WIDTH {
        return Err(Number::TooWide);
    }
    within_room(state, vec![resolvent], None)
}

/// Universal reduction: 21, 22, 26, 27, 25.
pub fn reduction(state: &State, clause: u32, literal: i32) -> Result<Addition, Number> {
    let clause = state.clause(clause)?;
    let literal = find(clause, i64::from(literal)).ok_or(Number::NotThere)?;
    let variable = literal.variable();
    if state.kind(variable) != Kind::Universal {
        return Err(Number::NotUniversal);
    }
    let rest = without(clause, literal);
    if state.set_of(&rest).contains(&variable) {
        return Err(Number::Depended);
    }
    within_room(state, vec![rest], None)
}

/// Fork: 21, 28, 29, 25.
pub fn fork(state: &State, clause: u32, left: u32, right: u32) -> Result<Addition, Number> {
    let clause = state.clause(clause)?;
    if !masks_make(clause, left, right) {
        return Err(Number::Masks);
    }
    let mut left = picked(clause, left);
    let mut right = picked(clause, right);
    let left_set = state.set_of(&left);
    let right_set = state.set_of(&right);
    if left_set.is_subset(&right_set) || right_set.is_subset(&left_set) {
        return Err(Number::Comparable);
    }
    let new = state.next_variable();
    left.insert(Literal::positive(new));
    right.insert(Literal::negative(new));
    let variable = Variable {
        kind: Kind::Fork,
        set: left_set.intersection(&right_set).copied().collect(),
    };
    within_room(state, vec![left, right], Some(variable))
}

/// Whether mask bit `place` is set; no mask reaches beyond place 31.
fn picks(mask: u32, place: usize) -> bool {
    mask.checked_shr(place as u32).unwrap_or(0) & 1 == 1
}

/// The masks together pick every literal and no place beyond.
fn masks_make(clause: &Clause, left: u32, right: u32) -> bool {
    (0..32).all(|place| picks(left | right, place) == (place < clause.len()))
}

/// The literals that a mask picks, by their places in ascending order.
fn picked(clause: &Clause, mask: u32) -> Clause {
    let places = clause.iter().copied().enumerate();
    places
        .filter(|&(place, _)| picks(mask, place))
        .map(|(_, literal)| literal)
        .collect()
}

/// The last test of every rule: 25.
fn within_room(
    state: &State,
    clauses: Vec<Clause>,
    variable: Option<Variable>,
) -> Result<Addition, Number> {
    let literals: usize = clauses.iter().map(BTreeSet::len).sum();
    let fits = state.clauses().len() + clauses.len() <= limits::CLAUSES
        && state.literals() + literals <= limits::LITERALS
        && state.variables().len() + usize::from(variable.is_some()) <= limits::VARIABLES;
    if fits {
        Ok(Addition { clauses, variable })
    } else {
        Err(Number::NoRoom)
    }
}
