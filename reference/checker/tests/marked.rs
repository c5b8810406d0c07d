//! Document 01, "Formulas on the desk": the cases marked there, and the line
//! that the listing prints.

use checker::check;
use checker::clause::clause_of;
use checker::records::record;
use checker::state::{Kind, State};
use checker::tables::export;

const LISTING: &[u8] = b"p cnf 2 2\na 1 0\nd 2 0\n1 2 0\n-1 -2 0\n";

fn listing_records() -> Vec<u8> {
    [
        record(2, [1, 0, 1]),
        record(2, [2, 0, -1i32 as u32]),
        record(1, [3, 4, 2]),
    ]
    .concat()
}

fn line(text: &str, records: &[[u8; 16]]) -> String {
    check(text.as_bytes(), &records.concat()).to_string()
}

/// The first word of each variable's set.
fn first_words(state: &State) -> Vec<u64> {
    export(state).sets.into_iter().step_by(4).collect()
}

#[test]
fn m1_the_empty_clause_in_the_text() {
    assert_eq!(line("p cnf 0 1\n0\n", &[]), "refuted 0 1");
}

#[test]
fn m2_nothing_at_all() {
    assert_eq!(line("p cnf 0 0\n", &[]), "open 0");
}

#[test]
fn m3_the_listing() {
    let records = listing_records();
    let bytes = [
        0x02, 0, 0, 0, 0x01, 0, 0, 0, 0, 0, 0, 0, 0x01, 0, 0, 0, 0x02, 0, 0, 0, 0x02, 0, 0, 0, 0,
        0, 0, 0, 0xFF, 0xFF, 0xFF, 0xFF, 0x01, 0, 0, 0, 0x03, 0, 0, 0, 0x04, 0, 0, 0, 0x02, 0, 0,
        0,
    ];
    assert_eq!(records, bytes);
    assert_eq!(check(LISTING, &records).to_string(), "refuted 3 5");
}

#[test]
fn m4_the_run_goes_on_behind_the_empty_clause() {
    let mut records = listing_records();
    records.extend(record(4, [0, 0, 0]));
    assert_eq!(check(LISTING, &records).to_string(), "bad 4 20");
}

#[test]
fn m5_m6_reductions_that_are_refused() {
    let text = "p cnf 3 1\na 1 0\nd 3 1 0\n1 3 0\n";
    assert_eq!(line(text, &[record(2, [1, 0, 1])]), "bad 1 27");
    assert_eq!(line(text, &[record(2, [1, 0, 3])]), "bad 1 26");
}

#[test]
fn m7_a_universal_has_a_set_of_its_own_in_a_fork() {
    let text = "p cnf 4 1\na 1 2 0\nd 4 2 0\n1 4 0\n";
    let mut state = State::load(text.as_bytes()).unwrap();
    let verdict = state.run(&record(3, [1, 1, 2]));
    assert_eq!(verdict.to_string(), "open 1");
    assert_eq!(state.ask_variable(5), Ok((Kind::Fork, 0)));
    assert_eq!(state.clause(2), Ok(&clause_of(&[1, 5])));
    assert_eq!(state.clause(3), Ok(&clause_of(&[4, -5])));
    assert_eq!(first_words(&state)[4], 0);
}

#[test]
fn m8_a_clause_with_itself() {
    let text = "p cnf 1 1\ne 1 0\n1 0\n";
    assert_eq!(line(text, &[record(1, [1, 1, 1])]), "bad 1 22");
}

#[test]
fn m9_the_universals_before_an_e_line() {
    let state = State::load(b"p cnf 3 0\na 1 0\ne 2 0\na 3 0\n").unwrap();
    assert_eq!(state.verdict().to_string(), "open 0");
    assert_eq!(state.ask_variable(2), Ok((Kind::Existential, 1)));
    assert_eq!(first_words(&state)[..3], [1, 1, 2]);
}

#[test]
fn each_e_line_sees_the_universals_before_it() {
    let text = b"p cnf 7 0\ne 7 0\na 1 0\ne 6 0\na 3 2 0\ne 5 0\na 4 0\n";
    let state = State::load(text).unwrap();
    assert_eq!(state.universals(), [1, 3, 2, 4]);
    assert_eq!(first_words(&state)[..8], [1, 4, 2, 8, 7, 1, 0, 0]);
}

#[test]
fn bits_follow_the_order_of_declaration() {
    let state = State::load(b"p cnf 5 0\na 4 0\nd 5 4 0\na 3 1 0\ne 2 0\n").unwrap();
    assert_eq!(state.universals(), [4, 3, 1]);
    assert_eq!(first_words(&state)[..6], [4, 7, 2, 1, 1, 0]);
}

/// Note 6 of document 02: four words for each variable, lowest bits first.
#[test]
fn sets_have_four_words() {
    let named: String = (1..=256).map(|v| format!("{v} ")).collect();
    let text = format!("p cnf 259 0\na {named}0\nd 257 1 64 65 128 129 256 0\ne 258 0\n");
    let state = State::load(text.as_bytes()).unwrap();
    let sets = export(&state).sets;
    assert_eq!(sets.len(), 2_048);
    let set = |variable: usize| &sets[4 * (variable - 1)..4 * variable];
    assert_eq!(set(1), [1, 0, 0, 0]);
    assert_eq!(set(64), [1 << 63, 0, 0, 0]);
    assert_eq!(set(65), [0, 1, 0, 0]);
    assert_eq!(set(129), [0, 0, 1, 0]);
    assert_eq!(set(193), [0, 0, 0, 1]);
    assert_eq!(set(256), [0, 0, 0, 1 << 63]);
    assert_eq!(set(257), [1 | 1 << 63, 1 | 1 << 63, 1, 1 << 63]);
    assert_eq!(set(258), [u64::MAX; 4]);
    assert_eq!(set(259), [0; 4]);
    assert_eq!(state.ask_variable(257), Ok((Kind::Existential, 6)));
    assert_eq!(state.ask_variable(258), Ok((Kind::Existential, 256)));
}

#[test]
fn m10_a_repeated_literal_counts_once() {
    let state = State::load(b"p cnf 2 1\ne 1 2 0\n2 2 1 0\n").unwrap();
    assert_eq!(state.clause(1), Ok(&clause_of(&[1, 2])));
    assert_eq!(export(&state).literals[..3], [1, 2, 0]);
}

#[test]
fn the_cases_that_are_not_marked() {
    let text = "p cnf 2 1\na 1 0\ne 2 0\n1 2 0\n";
    let minimum = i32::MIN as u32;
    assert_eq!(line(text, &[record(1, [1, 1, minimum])]), "bad 1 22");
    assert_eq!(line(text, &[record(2, [1, 0, minimum])]), "bad 1 22");
    for (width, wanted) in [(32, "open 0"), (33, "formula 3 11")] {
        let named: String = (1..=width).map(|v| format!("{v} ")).collect();
        let text = format!("p cnf 40 1\ne {named}0\n{named}0\n");
        assert_eq!(line(&text, &[]), wanted);
    }
    for (universals, wanted) in [(64, "open 0"), (65, "open 0"), (256, "open 0")] {
        let named: String = (1..=universals).map(|v| format!("{v} ")).collect();
        assert_eq!(line(&format!("p cnf 300 0\na {named}0\n"), &[]), wanted);
    }
    let named: String = (1..=257).map(|v| format!("{v} ")).collect();
    let text = format!("p cnf 300 0\na {named}0\n");
    assert_eq!(line(&text, &[]), "formula 2 11");
}
