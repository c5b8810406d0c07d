//! Note 3 of document 02: an `e` line sees the universals on lines before it. By
//! the rule before the note it saw every universal of the file.

use std::collections::BTreeSet;

use checker::formula::{self, Quantifier};
use checker::state::State;

/// The variables of an accepted text whose sets the note makes smaller: those on
/// `e` lines before an `a` line.
pub fn with_smaller_sets(text: &[u8]) -> BTreeSet<u32> {
    let text = String::from_utf8_lossy(text);
    let lines: Vec<&str> = text.lines().collect();
    let last = lines.iter().rposition(|line| line.starts_with('a'));
    let before = &lines[..last.unwrap_or(0)];
    let named = before.iter().filter_map(|line| line.strip_prefix('e'));
    let numbers = named.flat_map(|rest| rest.split_whitespace());
    let numbers = numbers.map(|word| word.parse().expect("an accepted text"));
    numbers.filter(|&number| number != 0).collect()
}

/// The state of an accepted text by the rule before the note.
pub fn old_state(text: &[u8]) -> State {
    let mut formula = formula::read(text).expect("an accepted text");
    let every: BTreeSet<u32> = formula.universals.iter().copied().collect();
    for variable in with_smaller_sets(text) {
        let sees = Quantifier::On(every.clone());
        formula.prefix.insert(variable, sees);
    }
    State::of(&formula)
}
