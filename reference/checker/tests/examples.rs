//! Document 01, "Formulas on the desk": the example of 002, section 5, and the
//! formula of 000, Theorem 2, on which no rule applies.

use checker::check;
use checker::clause::numbers_of;
use checker::records::{encode, Step};
use checker::state::{Kind, State};

const EXAMPLE: &[u8] = include_bytes!("data/ex002_formula.dq");
const EXAMPLE_STEPS: &[u8] = include_bytes!("data/ex002_steps.bin");
const THEOREM: &[u8] = include_bytes!("data/thm2_000.dq");

#[test]
fn the_example_is_refuted() {
    assert_eq!(check(EXAMPLE, EXAMPLE_STEPS).to_string(), "refuted 26 38");
}

#[test]
fn every_prefix_of_the_example_is_open() {
    for steps in 0..26 {
        let verdict = check(EXAMPLE, &EXAMPLE_STEPS[..16 * steps]);
        assert_eq!(verdict.to_string(), format!("open {steps}"));
    }
}

#[test]
fn the_forks_of_the_example_depend_on_nothing() {
    let mut state = State::load(EXAMPLE).unwrap();
    state.run(EXAMPLE_STEPS);
    for variable in 5..=10 {
        assert_eq!(state.ask_variable(variable), Ok((Kind::Fork, 0)));
    }
    // 1a, 2b and 3a of 002.
    let clause = |number| numbers_of(state.clause(number).unwrap());
    assert_eq!(clause(7), [1, 3, 5]);
    assert_eq!(clause(10), [-4, -6]);
    assert_eq!(clause(11), [3, 7]);
}

#[test]
fn no_step_applies_to_the_formula_of_the_theorem() {
    let mut state = State::load(THEOREM).unwrap();
    assert_eq!(check(THEOREM, &[]).to_string(), "open 0");
    let mut tried = 0;
    for step in all_steps() {
        assert!(state.step(&encode(step)).is_err(), "{step:?}");
        tried += 1;
    }
    assert_eq!(state.verdict().to_string(), "open 0");
    assert_eq!(tried, 16 * 16 * 13 + 16 * 13 + 16 * 64 * 64);
}

/// All clause pairs with all pivots, all reductions and all pairs of masks.
fn all_steps() -> impl Iterator<Item = Step> {
    let resolutions = (1..=16).flat_map(|first| {
        (1..=16).flat_map(move |second| {
            (-6..=6).map(move |pivot| Step::Resolution {
                first,
                second,
                pivot,
            })
        })
    });
    let reductions = (1..=16)
        .flat_map(|clause| (-6..=6).map(move |literal| Step::Reduction { clause, literal }));
    let forks = (1..=16).flat_map(|clause| {
        (0..64 * 64).map(move |masks| Step::Fork {
            clause,
            left: masks / 64,
            right: masks % 64,
        })
    });
    resolutions.chain(reductions).chain(forks)
}
