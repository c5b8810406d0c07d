//! Note 1 of document 02: the formula part of a state in one clean spelling.
//!
//! Fork variables and derived clauses are no part of the formula, and undeclared
//! variables have no line.

use crate::clause::numbers_of;
use crate::state::{Kind, State};
use crate::verdict::Verdict;

/// The tidy text of a formula's text; the line printed for one that is refused.
pub fn tidied(formula: &[u8]) -> String {
    match State::load(formula) {
        Ok(state) => text(&state),
        Err(refusal) => format!("{}\n", Verdict::Formula(refusal)),
    }
}

/// The header, one `a` line in order of declaration if there are universals, a
/// `d` line for each existential ascending with its set ascending, the clauses in
/// order with their literals ascending by variable.
pub fn text(state: &State) -> String {
    let (variables, clauses) = (state.header_variables, state.formula_clauses);
    let mut text = format!("p cnf {variables} {clauses}\n");
    if !state.universals.is_empty() {
        text += &line(&["a"], &state.universals);
    }
    for (number, variable) in (1..).zip(&state.variables) {
        if variable.kind == Kind::Existential {
            text += &line(&["d", &number.to_string()], &variable.set);
        }
    }
    for clause in &state.clauses[..clauses] {
        text += &line(&[], numbers_of(clause));
    }
    text
}

/// A line of some words, numbers and a 0, parted by single spaces.
fn line<T: ToString>(front: &[&str], numbers: impl IntoIterator<Item = T>) -> String {
    let front = front.iter().map(|word| word.to_string());
    let numbers = numbers.into_iter().map(|number| number.to_string());
    let words: Vec<String> = front.chain(numbers).chain(["0".into()]).collect();
    words.join(" ") + "\n"
}
