//! Note 1 of document 02: the tidy text says the formula, all of it and nothing
//! else.

use cases::formulas::{self, prefixed_formula, random_formula, Size};
use cases::lent::well_formed;
use cases::prover::Prover;
use cases::published;
use cases::random::Random;
use checker::calls::Lent;
use checker::limits::{TEXT_BYTES, TIDY_BYTES};
use checker::state::State;
use checker::tables::export;
use checker::tidy;

fn loaded(text: &[u8]) -> State {
    State::load(text).expect("an accepted text")
}

/// A text of at most 32,768 bytes, read again, restores tables and counts.
#[test]
fn the_text_restores_the_formula() {
    let (mut tried, mut long, mut stepped) = (0, 0, 0);
    for index in 0..1_500 {
        let random = &mut Random::for_case(41, index);
        let draft = match random.below(4) {
            0 => prefixed_formula(random),
            1 => formulas::crowded_formula(random),
            2 => random_formula(random, formulas::WIDE),
            _ => random_formula(random, formulas::MEDIUM),
        };
        let start = loaded(&draft.plain());
        let text = tidy::text(&start);
        let mut prover = Prover::new(start.clone(), random);
        prover.wander(20);
        assert_eq!(tidy::text(&prover.state), text, "steps change no text");
        stepped += usize::from(!prover.steps.is_empty());
        if text.len() > TEXT_BYTES {
            long += 1;
            continue;
        }
        let again = loaded(text.as_bytes());
        assert_eq!(export(&again), export(&start));
        assert_eq!(again.counts(), start.counts());
        assert_eq!(tidy::text(&again), text);
        tried += 1;
    }
    assert!(tried > 1_200 && long > 20, "{tried} tried, {long} too long");
    assert!(stepped > 800, "{stepped}");
}

/// The formulas of 000 and 002 and the families in one spelling.
#[test]
fn the_published_formulas() {
    let families = [formulas::family_f(0), formulas::family_g(1)];
    let [f, g] = families.map(|draft| tidy::text(&loaded(&draft.plain())));
    // F_0 is the example of 002 with its clauses in another order.
    let lines = |text: &str| {
        let mut lines: Vec<String> = text.lines().map(String::from).collect();
        lines.sort();
        lines
    };
    let example = String::from_utf8_lossy(formulas::EXAMPLE);
    assert_eq!(lines(&f), lines(&example));
    let prefix: Vec<&str> = g.lines().take(6).collect();
    let wanted = [
        "p cnf 10 16",
        "a 1 2 5 6 7 8 0",
        "d 3 1 0",
        "d 4 2 0",
        "d 9 5 6 0",
        "d 10 7 8 0",
    ];
    assert_eq!(prefix, wanted);
    for case in published::cases() {
        let mut state = loaded(&case.text);
        let text = tidy::text(&state);
        state.run(&case.records);
        assert_eq!(tidy::text(&state), text, "{}", case.label);
        assert_eq!(
            export(&loaded(text.as_bytes())),
            export(&loaded(&case.text))
        );
    }
}

#[test]
fn one_formula_has_one_text() {
    for index in 0..500 {
        let random = &mut Random::for_case(42, index);
        let draft = match random.below(3) {
            0 => prefixed_formula(random),
            _ => random_formula(random, formulas::MEDIUM),
        };
        let texts = [draft.plain(), draft.loose(random), draft.loose(random)];
        let tidied = texts.map(|text| tidy::text(&loaded(&text)));
        assert!(tidied.iter().all(|text| *text == tidied[0]));
    }
}

/// Two accepted formulas have the same text only if V, kinds, set words and
/// clauses agree, and then always.
#[test]
fn the_same_text_means_the_same_formula() {
    let size = Size {
        universals: (0, 2),
        existentials: (0, 1),
        clauses: (0, 1),
        width: (0, 2),
        ..formulas::TINY
    };
    let state = |index| {
        let random = &mut Random::for_case(43, index);
        loaded(&random_formula(random, size).loose(random))
    };
    let states: Vec<State> = (0..400).map(state).collect();
    let (mut same, mut different) = (0, 0);
    for one in &states {
        for other in &states {
            let texts = tidy::text(one) == tidy::text(other);
            let tables = export(one) == export(other) && one.counts() == other.counts();
            assert_eq!(texts, tables);
            same += usize::from(texts);
            different += usize::from(!texts);
        }
    }
    assert!(same > 2 * states.len() && different > 50_000, "{same}");
}

/// Tables that no list of steps reaches have the text of their formula part.
#[test]
fn any_well_formed_tables_have_a_text() {
    for index in 0..400 {
        let lent = well_formed(44, index).lent;
        let mut out = vec![b'x'; TIDY_BYTES];
        let length = lent.write(&mut out).unwrap();
        assert!(out[length..].iter().all(|&byte| byte == b'x'));
        let mut again = Lent::zero();
        again.load(&out[..length]).expect("a short text");
        let (read, lent_tables) = (&again.tables, &lent.tables);
        let declared = usize::from(lent.counts.header_variables);
        assert_eq!(read.kinds[..declared], lent_tables.kinds[..declared]);
        assert_eq!(read.sets[..declared], lent_tables.sets[..declared]);
        let formula = usize::from(lent.counts.formula_clauses);
        assert_eq!(read.ends[..formula], lent_tables.ends[..formula]);
        let literals = usize::from(again.counts.literals);
        assert_eq!(read.literals[..literals], lent_tables.literals[..literals]);
        let counts = [again.counts.header_variables, again.counts.formula_clauses];
        let wanted = [lent.counts.header_variables, lent.counts.formula_clauses];
        assert_eq!(counts, wanted);
        assert_eq!(again.counts.universals, lent.counts.universals);
    }
}
