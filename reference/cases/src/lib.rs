//! Seeded cases for comparing checkers: a text, a list of records and the line
//! that the reference checker prints for them.

#![forbid(unsafe_code)]

pub mod bordered;
pub mod case;
pub mod clashing;
pub mod container;
pub mod damage;
pub mod draft;
pub mod e_lines;
pub mod formulas;
pub mod lent;
pub mod numbered;
pub mod packed;
pub mod prover;
pub mod published;
pub mod random;
pub mod seeded;
pub mod set_damage;
pub mod shaped;
pub mod stepped;
pub mod tabled;
pub mod tidied;
pub mod wide;

use case::Case;

/// The cases that do not depend on a seed.
pub fn fixed() -> Vec<Case> {
    [tabled::cases(), shaped::cases(), published::cases()].concat()
}

/// The cases of the program `vectors`: the fixed ones, and every step on the
/// formula of 000, Theorem 2.
pub fn vectors() -> Vec<Case> {
    [fixed(), published::theorem_steps()].concat()
}

/// The fixed cases, then seeded ones, `count` in all; without a count, the
/// fixed cases and a thousand seeded ones.
pub fn generate(seed: u64, count: Option<usize>) -> Vec<Case> {
    let mut cases = fixed();
    let count = count.unwrap_or(cases.len() + 1_000);
    cases.truncate(count);
    let seeded = (count - cases.len()) as u64;
    cases.extend((0..seeded).map(|index| seeded::case(seed, index)));
    cases
}
