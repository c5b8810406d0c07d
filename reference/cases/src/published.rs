//! The formulas printed in 000 and 002, with refutations of those that have
//! one, and lists known to be bad.

use std::collections::BTreeSet;

use checker::limits::RECORD;
use checker::records::{decode, encode, Step};
use checker::state::State;

use crate::case::Case;
use crate::draft::Draft;
use crate::formulas::{family_f, family_g, EXAMPLE, EXAMPLE_STEPS, THEOREM};
use crate::prover::{records_of, trimmed, Prover};
use crate::random::Random;

/// All cases of this module.
pub fn cases() -> Vec<Case> {
    [published(), bad_examples()].concat()
}

/// On the formula of 000, Theorem 2, every resolution on complementary literals,
/// every reduction of a literal and every fork into two parts: all are refused.
pub fn theorem_steps() -> Vec<Case> {
    let start = State::load(THEOREM).expect("the formula is within the limits");
    let clauses: Vec<Vec<i32>> = (1..=start.counts().clauses)
        .map(|number| start.clause(number.into()).expect("in use"))
        .map(|clause| {
            clause
                .iter()
                .map(|literal| literal.number() as i32)
                .collect()
        })
        .collect();
    let numbers = || (1..).zip(&clauses);
    let mut steps = Vec::new();
    for (first, clause) in numbers() {
        for &literal in clause {
            steps.push(Step::Reduction {
                clause: first,
                literal,
            });
            let others = numbers().filter(|(_, other)| other.contains(&-literal));
            steps.extend(others.map(|(second, _)| Step::Resolution {
                first,
                second,
                pivot: literal,
            }));
        }
        let all = (1u32 << clause.len()) - 1;
        steps.extend((0..=all).map(|left| Step::Fork {
            clause: first,
            left,
            right: all & !left,
        }));
    }
    let case = |step: &Step| {
        let label = format!("published/000 theorem 2, {}", words(*step));
        Case::checked(label, THEOREM.into(), encode(*step).to_vec())
    };
    steps.iter().map(case).collect()
}

/// A step in words, as the fixed tables write it.
fn words(step: Step) -> String {
    match step {
        Step::Resolution {
            first,
            second,
            pivot,
        } => format!("1 {first} {second} {pivot}"),
        Step::Reduction { clause, literal } => format!("2 {clause} 0 {literal}"),
        Step::Fork {
            clause,
            left,
            right,
        } => format!("3 {clause} {left} {right}"),
    }
}

/// The formulas of 000 and 002, with refutations of the false ones found.
fn published() -> Vec<Case> {
    let mut cases = vec![
        Case::checked(
            "published/002 section 5",
            EXAMPLE.into(),
            EXAMPLE_STEPS.into(),
        ),
        Case::checked("published/000 theorem 2", THEOREM.into(), Vec::new()),
    ];
    for n in 0..=14 {
        let steps = family_refutation(&family_f(n), 1, n + 1);
        cases.push(family_case(
            format!("published/F_{n}"),
            &family_f(n),
            &steps,
        ));
    }
    for n in 0..=6 {
        let draft = family_g(n);
        let first = draft.clauses.len() - 2 - 4 * (n + 1) + 1;
        let steps = family_refutation(&draft, first, n + 1);
        cases.push(family_case(format!("published/G_{n}"), &draft, &steps));
    }
    cases
}

fn family_case(label: String, draft: &Draft, steps: &[Step]) -> Case {
    Case::checked(label, draft.plain(), records_of(steps))
}

/// Refutes an equivalence from its two wide clauses, two of the first half and
/// two of the second, as 002 does. `first` is its first clause.
fn family_refutation(draft: &Draft, first: usize, half: usize) -> Vec<Step> {
    let start = State::load(&draft.plain()).expect("the families are within the limits");
    let other = first + 2 + 2 * half;
    let chosen = [first, first + 1, first + 2, first + 3, other, other + 1];
    let chosen: BTreeSet<u32> = chosen.iter().map(|&clause| clause as u32).collect();
    let mut random = Random::new(half as u64);
    let mut prover = Prover::new(start.clone(), &mut random);
    prover.forks_first = true;
    prover.saturate_from(chosen, 600);
    trimmed(&start, &prover.steps).expect("six clauses are enough")
}

/// The example of 002 with one record left out or changed.
fn bad_examples() -> Vec<Case> {
    let records: Vec<&[u8]> = EXAMPLE_STEPS.chunks(RECORD).collect();
    let mut cases = Vec::new();
    for index in 0..records.len() {
        let mut without = records.clone();
        without.remove(index);
        let label = format!("astray/002 without step {}", index + 1);
        cases.push(Case::checked(label, EXAMPLE.into(), without.concat()));
        let mut changed = records.clone();
        let other = decode(records[index]).map(|step| encode(mirrored(step)));
        let other = other.expect("the records of the example");
        changed[index] = &other;
        let label = format!("astray/002 with step {} mirrored", index + 1);
        cases.push(Case::checked(label, EXAMPLE.into(), changed.concat()));
    }
    cases
}

/// The same step with its two sides in the other order.
fn mirrored(step: Step) -> Step {
    match step {
        Step::Resolution {
            first,
            second,
            pivot,
        } => Step::Resolution {
            first: second,
            second: first,
            pivot,
        },
        Step::Reduction { clause, literal } => Step::Reduction {
            clause,
            literal: -literal,
        },
        Step::Fork {
            clause,
            left,
            right,
        } => Step::Fork {
            clause,
            left: right,
            right: left,
        },
    }
}
