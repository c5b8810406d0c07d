//! Document 01, "Step records" and "Numbers of refusal": the refusals of a
//! step, their order, and that a refused step changes nothing.

use checker::clause::{clause_of, numbers_of};
use checker::records::record;
use checker::state::{Kind, State};

fn loaded(text: &str) -> State {
    State::load(text.replace('|', "\n").as_bytes()).expect("an accepted text")
}

/// Tries each record (kind and words) alone; 0 is acceptance.
fn expect(text: &str, cases: &[(u8, [i64; 3], u16)]) {
    let state = loaded(text);
    for &(kind, words, number) in cases {
        let bytes = record(kind, words.map(|word| word as u32));
        let mut tried = state.clone();
        let found = tried.step(&bytes).map_or_else(|n| n.value(), |()| 0);
        assert_eq!(found, number, "{kind} {words:?}");
        if number != 0 {
            assert_eq!(tried, state, "a refused step changes nothing");
        }
    }
}

fn named(numbers: impl Iterator<Item = i32>) -> String {
    numbers.map(|number| format!("{number} ")).collect()
}

const SMALL: &str = "p cnf 6 6|a 1 2 0|d 3 1 0|d 4 2 0|e 5 0|\
    1 3 4 0|1 -3 -4 0|2 3 0|-2 -3 5 0|0|1 2 0|";

#[test]
fn resolutions() {
    expect(
        SMALL,
        &[
            (1, [3, 4, 3], 23),
            (1, [1, 2, 3], 23),
            (1, [1, 4, 3], 0),
            (1, [4, 1, -3], 0),
            (1, [3, 4, 2], 23),
            (1, [4, 1, 3], 22),
            (1, [1, 4, -3], 22),
            (1, [1, 1, 3], 22),
            (1, [1, 4, 5], 22),
            (1, [1, 4, 0], 22),
            (1, [1, 4, 65_539], 22),
            (1, [1, 4, 32_768], 22),
            (1, [1, 4, -32_768], 22),
            (1, [1, 4, i32::MIN as i64], 22),
            (1, [1, 4, i32::MAX as i64], 22),
            (1, [0, 4, 3], 21),
            (1, [1, 0, 3], 21),
            (1, [7, 4, 3], 21),
            (1, [1, 7, 3], 21),
            (1, [65_537, 4, 3], 21),
            (1, [1, 65_540, 3], 21),
            (1, [1, u32::MAX as i64, 3], 21),
            (1, [7, 7, 0], 21),
        ],
    );
}

#[test]
fn a_universal_pivot_and_a_fork_pivot() {
    expect(
        "p cnf 2 2|a 1 2 0|1 2 0|-1 2 0|",
        &[(1, [1, 2, 1], 0), (1, [2, 1, -1], 0)],
    );
    let mut state = loaded("p cnf 3 1|a 1 0|d 2 1 0|d 3 0|1 3 0|");
    assert!(state.step(&record(3, [1, 1, 2])).is_err());
    let mut state = loaded("p cnf 2 1|a 1 2 0|1 2 0|");
    state.step(&record(3, [1, 1, 2])).unwrap();
    state.step(&record(1, [2, 3, 3])).unwrap();
    assert_eq!(state.clause(4), Ok(&clause_of(&[1, 2])));
}

#[test]
fn reductions() {
    expect(
        SMALL,
        &[
            (2, [1, 0, 1], 27),
            (2, [1, 0, 3], 26),
            (2, [1, 0, -1], 22),
            (2, [1, 0, 2], 22),
            (2, [1, 0, 0], 22),
            (2, [3, 0, 2], 0),
            (2, [4, 0, -2], 27),
            (2, [6, 0, 1], 0),
            (2, [5, 0, 1], 22),
            (2, [1, 1, 1], 20),
            (2, [0, 0, 1], 21),
            (2, [7, 0, 1], 21),
            (2, [65_539, 0, 2], 21),
            (2, [3, 0, 65_538], 22),
        ],
    );
    let mut state = loaded(SMALL);
    state.step(&record(2, [6, 0, 1])).unwrap();
    assert_eq!(state.clause(7), Ok(&clause_of(&[2])));
}

#[test]
fn forks() {
    expect(
        SMALL,
        &[
            (3, [1, 3, 4], 0),
            (3, [1, 4, 3], 0),
            (3, [1, 5, 6], 29),
            (3, [1, 1, 2], 28),
            (3, [1, 3, 12], 28),
            (3, [1, 3, 4 | 1 << 31], 28),
            (3, [1, 0, 7], 29),
            (3, [1, 7, 0], 29),
            (3, [1, 0, 0], 28),
            (3, [1, 7, 7], 29),
            (3, [5, 0, 0], 29),
            (3, [5, 0, 1], 28),
            (3, [6, 1, 2], 0),
            (3, [6, 3, 2], 29),
            (3, [0, 1, 2], 21),
            (3, [7, 1, 2], 21),
            (3, [65_542, 1, 2], 21),
        ],
    );
}

#[test]
fn a_fork_takes_the_intersection_and_the_next_number() {
    let mut state = loaded("p cnf 9 1|a 1 2 3 0|d 4 1 2 0|d 5 2 3 0|4 5 0|");
    state.step(&record(3, [1, 1, 2])).unwrap();
    assert_eq!(state.ask_variable(10), Ok((Kind::Fork, 1)));
    assert_eq!(state.variable(10).unwrap().set, [2].into());
    assert_eq!(numbers_of(state.clause(2).unwrap()), [4, 10]);
    assert_eq!(numbers_of(state.clause(3).unwrap()), [5, -10]);
    state.step(&record(3, [1, 2, 1])).unwrap();
    assert_eq!(numbers_of(state.clause(4).unwrap()), [5, 11]);
    let counts = state.counts();
    assert_eq!(counts.array(), [9, 11, 3, 1, 5, 10, 2, 0]);
}

#[test]
fn a_literal_may_be_in_both_parts() {
    let mut state = loaded("p cnf 5 1|a 1 2 0|d 3 1 0|d 4 2 0|d 5 0|3 4 5 0|");
    state.step(&record(3, [1, 5, 6])).unwrap();
    assert_eq!(numbers_of(state.clause(2).unwrap()), [3, 5, 6]);
    assert_eq!(numbers_of(state.clause(3).unwrap()), [4, 5, -6]);
}

#[test]
fn records_of_other_forms() {
    let mut state = loaded(SMALL);
    let fine = record(2, [3, 0, 2]);
    for at in [1, 2, 3, 8, 9, 10, 11] {
        let mut bytes = fine;
        bytes[at] = 0x80;
        assert_eq!(state.step(&bytes).unwrap_err().value(), 20);
    }
    for kind in [0, 4, 255] {
        assert_eq!(
            state.step(&record(kind, [0, 0, 0])).unwrap_err().value(),
            20
        );
    }
    for length in 0..16 {
        assert_eq!(state.step(&fine[..length]).unwrap_err().value(), 20);
    }
    let longer = [&fine[..], &[9; 5]].concat();
    assert_eq!(state.step(&longer), Ok(()));
}

/// Clauses over 1..=64 with the pivot 65, wide enough to test the width.
fn wide(first: &str, second: &str) -> String {
    let all = named(1..=65);
    format!("p cnf 65 2|e {all}0|{first}65 0|{second}-65 0|")
}

#[test]
fn widths_of_resolvents() {
    let cases = [
        (named(1..=31), named(32..=62), 24),
        (named(1..=20), named(21..=40), 24),
        (named(1..=16), named(17..=32), 0),
        (named(1..=17), named(17..=33), 24),
        (named(1..=31), named(1..=31), 0),
        (named(1..=31), named(2..=32), 0),
        (named(1..=31), named(3..=33), 24),
        (named(1..=16), named((1..=16).map(|v| -v)), 23),
        (named(1..=17), named((1..=17).map(|v| -v)), 23),
        (named(1..=31), named((1..=31).map(|v| -v)), 23),
        (named(1..=17), named((17..=32).map(|v| -v)), 23),
        (named(1..=31), named((31..=61).map(|v| -v)), 23),
        (named(34..=64), named((4..=34).map(|v| -v)), 23),
        (named(1..=16), named((17..=33).map(|v| -v)), 24),
        (named(1..=31), named((32..=62).map(|v| -v)), 24),
    ];
    for (first, second, number) in cases {
        expect(&wide(&first, &second), &[(1, [1, 2, 65], number)]);
        expect(&wide(&first, &second), &[(1, [1, 2, -65], 22)]);
    }
}

#[test]
fn masks_on_32_and_31_literals() {
    let universals = named(1..=32);
    let full = u32::MAX as i64;
    let text = format!(
        "p cnf 32 2|a {universals}0|{universals}0|{}0|",
        named(1..=31)
    );
    expect(
        &text,
        &[
            (3, [1, 1, full - 1], 0),
            (3, [1, full >> 1, 1 << 31], 0),
            (3, [1, full, full], 29),
            (3, [1, full >> 1, 0], 28),
            (3, [2, full >> 2, 1 << 30], 0),
            (3, [2, full >> 2, 3 << 30], 28),
            (3, [2, full >> 1, full], 28),
        ],
    );
    let mut state = loaded(&text);
    state.step(&record(3, [1, 1, u32::MAX - 1])).unwrap();
    assert_eq!(state.clause(4).unwrap().len(), 32);
}

/// A full clause table: {1}, {2, 1}, {-2, 3}, {-1, 2}, {1, 3}, then empty ones.
fn full_clauses(clauses: usize) -> String {
    let rest = "0|".repeat(clauses - 5);
    format!("p cnf 3 {clauses}|a 1 0|d 2 1 0|d 3 0|1 0|2 1 0|-2 3 0|-1 2 0|1 3 0|{rest}")
}

#[test]
fn no_room_for_a_clause_comes_last() {
    let cases = [
        (1, [2, 3, 2], 25),
        (1, [2, 4, 1], 25),
        (1, [2, 4, 2], 22),
        (1, [3, 2, -2], 25),
        (2, [1, 0, 1], 25),
        (2, [2, 0, 1], 27),
        (2, [2, 0, 2], 26),
        (2, [5, 0, 1], 25),
        (3, [1, 1, 0], 29),
        (3, [1, 0, 0], 28),
    ];
    expect(&full_clauses(2_048), &cases);
    expect(
        &full_clauses(2_047),
        &[(1, [2, 3, 2], 0), (2, [1, 0, 1], 0)],
    );
}

/// The same table with {1, .., 20}, {21, .., 40} and {-1, .., -20}, each with 50 or
/// its complement.
#[test]
fn no_room_comes_behind_a_wide_resolvent() {
    let [first, second] = [named(1..=20), named(21..=40)];
    let (third, rest) = (named((1..=20).map(|v| -v)), "0|".repeat(2_045));
    let clauses = format!("{first}50 0|{second}-50 0|{third}-50 0|{rest}");
    let text = format!("p cnf 50 2048|e {}0|{clauses}", named(1..=50));
    let cases = [
        (1, [1, 2, 50], 24),
        (1, [1, 3, 50], 23),
        (1, [3, 1, -50], 23),
        (1, [1, 3, 49], 22),
        (1, [1, 3, -50], 22),
        (1, [1, 2_049, 50], 21),
    ];
    expect(&text, &cases);
}

#[test]
fn a_fork_needs_room_for_two_clauses() {
    for (clauses, number) in [(2_046, 0), (2_047, 25), (2_048, 25)] {
        let rest = "0|".repeat(clauses - 1);
        let text = format!("p cnf 2 {clauses}|a 1 2 0|1 2 0|{rest}");
        expect(&text, &[(3, [1, 1, 2], number)]);
    }
}

#[test]
fn no_room_for_a_variable() {
    for (variables, number) in [(511, 0), (512, 25)] {
        let text = format!("p cnf {variables} 1|a 1 2 0|1 2 0|");
        expect(&text, &[(3, [1, 1, 2], number), (2, [1, 0, 1], 0)]);
    }
}

/// A formula of `literals` literals whose clauses 1 to 4 are {1}, {-1}, {1, 2}
/// and {1, 2, 3}, all universal.
fn full_literals(literals: usize) -> String {
    let all = named(1..=32);
    let wide = (literals - 7) / 32;
    let rest = (literals - 7) % 32;
    let clauses = wide + 5;
    let body = format!("{all}0|").repeat(wide);
    let last = named(1..=rest as i32);
    format!("p cnf 32 {clauses}|a {all}0|1 0|-1 0|1 2 0|1 2 3 0|{body}{last}0|")
}

#[test]
fn no_room_for_literals() {
    let resolution_empty = (1, [1, 2, 1]);
    let reduction_empty = (2, [1, 0, 1]);
    let reduction_one = (2, [3, 0, 1]);
    let fork_four = (3, [3, 1, 2]);
    let fork_six = (3, [4, 3, 5]);
    let table = [
        (8_192, [0, 0, 25, 25, 25]),
        (8_191, [0, 0, 0, 25, 25]),
        (8_189, [0, 0, 0, 25, 25]),
        (8_188, [0, 0, 0, 0, 25]),
        (8_187, [0, 0, 0, 0, 25]),
        (8_186, [0, 0, 0, 0, 0]),
    ];
    for (literals, numbers) in table {
        let steps = [
            resolution_empty,
            reduction_empty,
            reduction_one,
            fork_four,
            fork_six,
        ];
        let cases: Vec<_> = steps
            .iter()
            .zip(numbers)
            .map(|(s, n)| (s.0, s.1, n))
            .collect();
        expect(&full_literals(literals), &cases);
    }
}

#[test]
fn lists() {
    let text = "p cnf 1 1|a 1 0|1 0|";
    let one = record(2, [1, 0, 1]);
    let run = |list: &[u8]| loaded(text).run(list).to_string();
    assert_eq!(run(&[]), "open 0");
    assert_eq!(run(&one.repeat(2_047)), "refuted 2047 2");
    assert_eq!(run(&one.repeat(2_048)), "bad 2048 25");
    assert_eq!(run(&one.repeat(2_049)), "bad 0 11");
    assert_eq!(run(&[0; 32_769]), "bad 0 11");
    assert_eq!(run(&[0; 32_768]), "bad 1 20");
    assert_eq!(run(&[one.as_slice(), &one[..15]].concat()), "bad 2 20");
    assert_eq!(run(&one[..1]), "bad 1 20");
}

#[test]
fn a_refused_run_keeps_the_steps_before() {
    let mut state = loaded("p cnf 1 1|a 1 0|1 0|");
    let list = [
        record(2, [1, 0, 1]),
        record(2, [1, 0, 1]),
        record(9, [0; 3]),
    ];
    assert_eq!(state.run(&list.concat()).to_string(), "bad 3 20");
    assert_eq!(state.counts().array(), [1, 1, 1, 1, 3, 1, 2, 2]);
    // Steps are numbered within the list, accepted ones in the state.
    assert_eq!(state.run(&record(9, [0; 3])).to_string(), "bad 1 20");
    assert_eq!(state.run(&record(2, [1, 0, 1])).to_string(), "refuted 3 2");
}

#[test]
fn questions() {
    let state = loaded("p cnf 3 1|a 1 0|e 2 0|1 2 0|");
    assert_eq!(state.ask_variable(1), Ok((Kind::Universal, 1)));
    assert_eq!(state.ask_variable(2), Ok((Kind::Existential, 1)));
    assert_eq!(state.ask_variable(3), Ok((Kind::Undeclared, 0)));
    for number in [0, 4, 65_537, u32::MAX] {
        assert_eq!(state.ask_variable(number).unwrap_err().value(), 22);
    }
    assert_eq!(state.clause(1).unwrap().len(), 2);
    for number in [0, 2, 65_537, u32::MAX] {
        assert_eq!(state.clause(number).unwrap_err().value(), 21);
    }
}
