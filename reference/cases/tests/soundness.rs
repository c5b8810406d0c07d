//! Document 01, "The refutation statement": no accepted step makes a true formula
//! false. (That nothing true is refuted: `differential/tests/soundness.rs`.)

use cases::bordered::sometimes_spread;
use cases::formulas::{self, random_formula};
use cases::prover::Prover;
use cases::random::Random;
use checker::state::{Kind, State};
use decide::{decide, meaning, BITS};

/// The formula of a state with all its derived clauses; fork variables are
/// existentials with their sets.
fn text_of_state(state: &State) -> Vec<u8> {
    let numbers = |set: &std::collections::BTreeSet<u32>| {
        let words = set.iter().map(|number| format!(" {number}"));
        words.collect::<String>()
    };
    let mut text = format!(
        "p cnf {} {}\n",
        state.variables().len(),
        state.clauses().len()
    );
    for universal in state.universals() {
        text.push_str(&format!("a {universal} 0\n"));
    }
    for (number, variable) in (1..).zip(state.variables()) {
        if matches!(variable.kind, Kind::Existential | Kind::Fork) {
            text.push_str(&format!("d {number}{} 0\n", numbers(&variable.set)));
        }
    }
    for clause in state.clauses() {
        let words = clause.iter().map(|l| format!("{} ", l.number()));
        text.push_str(&format!("{}0\n", words.collect::<String>()));
    }
    text.into_bytes()
}

#[test]
fn no_accepted_step_makes_a_true_formula_false() {
    let (mut tried, mut forks) = (0, 0);
    for index in 0..2_000 {
        let random = &mut Random::for_case(12, index);
        let size = random.pick(&[formulas::SMALL, formulas::FORKED]);
        let draft = random_formula(random, size);
        let text = sometimes_spread(draft, 30, random).plain();
        if decide(&text) != Some(true) {
            continue;
        }
        let mut prover = Prover::new(State::load(&text).unwrap(), random);
        prover.wander(25);
        let state = prover.state;
        let extended = text_of_state(&state);
        assert_eq!(checker::check(&extended, &[]).to_string(), "open 0");
        if let Some(is_true) = decide(&extended) {
            assert!(is_true, "{}", String::from_utf8_lossy(&extended));
            tried += 1;
            forks += usize::from(state.kind(state.variables().len() as u32) == Kind::Fork);
        }
    }
    assert!(
        tried > 200 && forks > 100,
        "{tried} tried, {forks} with forks"
    );
}

#[test]
fn decider_and_checker_read_texts_alike() {
    for index in 0..500 {
        let random = &mut Random::for_case(13, index);
        let text = random_formula(random, formulas::MEDIUM).loose(random);
        let read = checker::formula::read(&text).unwrap();
        let said = meaning(&String::from_utf8_lossy(&text));
        assert_eq!(said.universals, read.universals);
        for (&variable, set) in &said.existentials {
            assert_eq!(*set, read.set(variable));
        }
        assert_eq!(
            said.existentials.len() + said.universals.len(),
            read.prefix.len()
        );
        let clauses = said.clauses.iter().map(|c| checker::clause::clause_of(c));
        assert!(clauses.eq(read.clauses.iter().cloned()));
    }
}

#[test]
fn the_formulas_of_the_sources_are_false() {
    for text in [formulas::EXAMPLE, formulas::THEOREM] {
        assert_eq!(decide(text), Some(false));
    }
    assert_eq!(decide(&formulas::family_f(1).plain()), Some(false));
    assert_eq!(decide(&formulas::family_g(1).plain()), Some(false));
    let theorem = meaning(std::str::from_utf8(formulas::THEOREM).unwrap());
    assert!(theorem.bits().unwrap() <= u64::from(BITS));
    assert_eq!(checker::check(formulas::THEOREM, &[]).to_string(), "open 0");
}
