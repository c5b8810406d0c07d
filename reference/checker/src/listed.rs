//! The verdict's line, then each clause and each variable, then the tidy text and
//! its length: what the driver in C++ of examples/driver.cpp prints.

use crate::clause::numbers_of;
use crate::state::State;
use crate::tidy;
use crate::verdict::Verdict;

/// All lines for a text and a list of records; one line for a refused formula.
pub fn listed(text: &[u8], records: &[u8]) -> String {
    let mut state = match State::load(text) {
        Ok(state) => state,
        Err(refusal) => return format!("{}\n", Verdict::Formula(refusal)),
    };
    let mut lines = format!("{}\n", state.run(records));
    for (number, clause) in (1..).zip(state.clauses()) {
        let literals = numbers_of(clause).into_iter().map(|l| format!(" {l}"));
        lines += &format!("clause {number}:{}\n", literals.collect::<String>());
    }
    for (number, variable) in (1..).zip(state.variables()) {
        let (kind, universals) = (variable.kind as u8, variable.set.len());
        lines += &format!("variable {number}: kind {kind}, universals {universals}\n");
    }
    let text = tidy::text(&state);
    lines + &format!("text, {} bytes:\n{text}", text.len())
}
