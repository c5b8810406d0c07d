//! Document 02, Note 5: lists with resolutions whose resolvents have too many
//! literals, with a complementary pair or without, and clause lines that have both
//! faults.

use checker::records::Step;

use crate::case::Case;
use crate::clashing::{case_of, formula_of, opposites_of, Shares};
use crate::draft::Draft;
use crate::formulas::{self, random_formula};
use crate::prover::{resolution, Prover};
use crate::random::Random;
use crate::seeded::text_of;

/// A formula of which clauses 1 and 2 have a resolvent of more than 32 literals.
pub fn formula(random: &mut Random, with_pair: bool) -> Draft {
    let pairs = match with_pair {
        true => random.pick(&[2, 2, 2, 3, 5, 16, 20]),
        false => 1,
    };
    let alike = random.pick(&[0, 0, 1, 3]);
    let literals = random.pick(&[33, 33, 34, 45, 62]);
    formula_of(random, Shares::of(pairs, alike, literals))
}

/// Such a formula over universals, with pairs whose literals can be parted off.
pub fn opposites(random: &mut Random) -> Draft {
    let pairs = random.between(2, 6);
    let literals = random.pick(&[33, 34, 45, 58]);
    opposites_of(random, Shares::of(pairs, 0, literals))
}

/// A resolution of two clauses in either order, if its resolvent is too wide; else
/// of any two, with a pair or without by choice.
pub fn step(prover: &mut Prover, (first, second): (u32, u32), with_pair: bool) -> Option<Step> {
    let (first, second) = prover.random.pick(&[(first, second), (second, first)]);
    match prover.joined(first, second) {
        Some(joined) if joined.is_too_wide() => Some(joined.step),
        _ => prover.too_wide(with_pair),
    }
}

/// A random formula, or one of this module.
fn draft(random: &mut Random, with_pair: bool) -> Draft {
    match random.below(10) {
        0 | 1 if with_pair => random_formula(random, formulas::WIDE),
        0 | 1 => random_formula(random, formulas::ALIKE),
        _ => formula(random, with_pair),
    }
}

/// A list up to a resolution whose resolvent is too wide.
pub fn case(random: &mut Random) -> Case {
    let with_pair = random.chance(50);
    let start = match random.below(100) {
        0..=39 if with_pair => (opposites(random), true),
        _ => (draft(random, with_pair), false),
    };
    let last = |prover: &mut Prover, clauses| match step(prover, clauses, with_pair) {
        Some(found) if prover.random.chance(6) => Some(with_turned_pivot(found)),
        found => found,
    };
    case_of("seeded/wide", start, last, random)
}

/// A resolution whose pivot stands in the second clause, its complement in the
/// first.
fn with_turned_pivot(step: Step) -> Step {
    match step {
        Step::Resolution {
            first,
            second,
            pivot,
        } => resolution(first, second, -pivot),
        other => other,
    }
}

/// A text with two clauses in one line, which mostly has more than 32 different
/// literals and often a complementary pair.
pub fn text_case(random: &mut Random) -> Case {
    let size = random.pick(&[formulas::WIDE, formulas::WIDE, formulas::ALIKE]);
    let mut draft = random_formula(random, size);
    let last = draft.clauses.pop().expect("four clauses or more");
    let place = random.below(draft.clauses.len());
    draft.clauses[place].extend(last);
    let text = text_of(&draft, random);
    Case::checked("seeded/text, two clauses joined", text, Vec::new())
}
