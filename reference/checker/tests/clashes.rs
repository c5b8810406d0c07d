//! Document 02, Notes 4 and 5: 23 tells the lowest variable that the resolvent holds
//! in both signs, also if it has over 32 literals, and step, run and line pass it on.

use checker::calls::Lent;
use checker::driver::Buffers;
use checker::records::record;
use checker::refusal::Number;
use checker::rules;
use checker::state::State;

fn named(numbers: &[i32]) -> String {
    numbers.iter().map(|number| format!("{number} ")).collect()
}

fn loaded(text: &str) -> State {
    State::load(text.replace('|', "\n").as_bytes()).expect("an accepted text")
}

/// The lowest variable whose two literals are both among those left of the clauses.
fn lowest(first: &[i32], second: &[i32], pivot: i32) -> Option<u32> {
    let stands = |literal: i32| {
        first.contains(&literal) && literal != pivot
            || second.contains(&literal) && literal != -pivot
    };
    let mut variables = 1..=512;
    let found = variables.find(|&variable| stands(variable) && stands(-variable));
    found.map(i32::unsigned_abs)
}

/// Every clause in which each variable is missing, positive or negative.
fn every_clause(variables: &[i32]) -> Vec<Vec<i32>> {
    let mut clauses = vec![Vec::new()];
    for &variable in variables {
        let longer = [variable, -variable].map(|literal| {
            let each = clauses.iter().cloned();
            each.map(|clause| [clause, vec![literal]].concat())
                .collect::<Vec<_>>()
        });
        clauses.extend(longer.concat());
    }
    clauses
}

#[test]
fn every_resolution_over_five_variables() {
    let variables = [300, 3, 512, 17, 511];
    let clauses = every_clause(&variables);
    let lines: String = clauses.iter().map(|c| format!("{}0|", named(c))).collect();
    let count = clauses.len();
    let state = loaded(&format!(
        "p cnf 512 {count}|a 511 3 0|e 512 17 300 0|{lines}"
    ));
    let mut clashes = [0; 5];
    for (i, first) in clauses.iter().enumerate() {
        for (j, second) in clauses.iter().enumerate() {
            for &pivot in first.iter().filter(|pivot| second.contains(&-**pivot)) {
                let (one, other) = (i as u32 + 1, j as u32 + 1);
                let found = rules::resolution(&state, one, other, pivot).err();
                let wanted = lowest(first, second, pivot).map(Number::Tautology);
                assert_eq!(found, wanted, "{first:?}, {second:?}, {pivot}");
                let pairs = first.iter().filter(|literal| second.contains(&-**literal));
                clashes[pairs.count() - 1] += 1;
            }
        }
    }
    // For a pivot, each other variable stands in 9 ways in two clauses, in 2 of them
    // in both signs.
    let ways = [2_401, 4 * 2 * 343, 6 * 4 * 49, 4 * 8 * 7, 16];
    assert_eq!(clashes, ways.map(|each| 10 * each));
}

/// The line of one resolution of two clauses on a literal.
fn line(first: &[i32], second: &[i32], pivot: i32) -> String {
    let all: Vec<i32> = (1..=512).collect();
    let (all, first, second) = (named(&all), named(first), named(second));
    let mut state = loaded(&format!("p cnf 512 2|e {all}0|{first}0|{second}0|"));
    let before = state.clone();
    let verdict = state.run(&record(1, [1, 2, pivot as u32]));
    assert!(state == before || verdict.to_string() == "open 1");
    verdict.to_string()
}

#[test]
fn stated_ones() {
    assert_eq!(line(&[1, 2], &[-1, -2], 1), "bad 1 23 2");
    assert_eq!(line(&[1, 2], &[-1, -2], 2), "bad 1 23 1");
    assert_eq!(line(&[-1, -2], &[1, 2], -2), "bad 1 23 1");
    assert_eq!(line(&[40, -7], &[-40, 7], 40), "bad 1 23 7");
    assert_eq!(line(&[3, 7, 40, 50], &[-50, -7, 8, -40], 40), "bad 1 23 7");
    assert_eq!(line(&[-7, 40, 50], &[7, -40, -50], 40), "bad 1 23 7");
    assert_eq!(line(&[7, 40, -50], &[-7, -40, 50], 40), "bad 1 23 7");
    assert_eq!(line(&[3, -7, 40, 50], &[-50, -7, -40], 40), "bad 1 23 50");
    assert_eq!(line(&[41, 40, -39], &[39, -41, -40], 40), "bad 1 23 39");
    assert_eq!(line(&[41, 40, -39], &[39, -41, -40], -39), "bad 1 23 40");
    assert_eq!(line(&[40, 512], &[-40, -512], 40), "bad 1 23 512");
    assert_eq!(line(&[1, 2, 40], &[-40, 2, 1], 40), "open 1");
}

/// A resolution of two clauses of 32 literals each, which share a variable beside
/// the pivot.
fn widest(literal: i32, other: i32) -> String {
    let (one, more): (Vec<i32>, Vec<i32>) = (101..=160).partition(|v| *v <= 130);
    let first = [&one[..], &[literal, 512]].concat();
    let second = [&more[..], &[other, -512]].concat();
    line(&first, &second, 512)
}

#[test]
fn stated_wide_ones() {
    assert_eq!(widest(1, -1), "bad 1 23 1");
    assert_eq!(widest(1, 1), "bad 1 24");
    assert_eq!(widest(-511, 511), "bad 1 23 511");
    assert_eq!(widest(-511, -511), "bad 1 24");
    let (odd, even): (Vec<i32>, Vec<i32>) = (2..=34).partition(|v| v % 2 == 1);
    let with = |clause: &[i32], more: &[i32]| [clause, more].concat();
    assert_eq!(line(&with(&odd, &[1]), &with(&even, &[-1]), 1), "bad 1 24");
    let pair = with(&even[1..], &[-1, -3]);
    assert_eq!(line(&with(&odd, &[1]), &pair, 1), "bad 1 23 3");
    let pairs = with(&even, &[-1, -33, -31]);
    assert_eq!(line(&with(&odd, &[1]), &pairs, 1), "bad 1 23 31");
    assert_eq!(line(&pairs, &with(&odd, &[1]), -1), "bad 1 23 31");
    assert_eq!(line(&pairs, &with(&odd, &[1]), -31), "bad 1 23 1");
}

/// A resolvent over the variables 1, 2, .. that holds one in both signs, with a
/// pivot above them or, all numbers one higher, below.
fn with_pair(literals: i32, pair: i32, below: bool) -> String {
    let (shift, pivot) = if below { (1, 1) } else { (0, 60) };
    let others = (1..literals).filter(|&variable| variable != pair);
    let (mut first, mut second): (Vec<i32>, Vec<i32>) = others.partition(|&v| v <= 16);
    first.push(pair);
    for literal in first.iter_mut().chain(&mut second) {
        *literal += shift;
    }
    second.push(-(pair + shift));
    first.push(pivot);
    second.push(-pivot);
    let [there, back] = [(1, 2, pivot), (2, 1, -pivot)].map(|(one, other, pivot)| {
        let all: Vec<i32> = (1..=60).collect();
        let (all, first, second) = (named(&all), named(&first), named(&second));
        let mut state = loaded(&format!("p cnf 60 2|e {all}0|{first}0|{second}0|"));
        state
            .run(&record(1, [one, other, pivot as u32]))
            .to_string()
    });
    assert_eq!(there, back);
    there
}

#[test]
fn a_pair_at_every_place_of_a_wide_resolvent() {
    for literals in 30..=47 {
        for pair in 1..literals {
            for below in [false, true] {
                let wanted = format!("bad 1 23 {}", pair + i32::from(below));
                assert_eq!(with_pair(literals, pair, below), wanted, "{literals}");
            }
        }
    }
}

#[test]
fn a_fork_variable() {
    // {1, 3}, {2, -3} by a fork; {-1, -3} by a resolution; then the pair is 3 or 1.
    let before = [record(3, [1, 1, 2]), record(1, [4, 2, 2])].concat();
    for (pivot, wanted) in [(1, "bad 3 23 3"), (3, "bad 3 23 1")] {
        let mut state = loaded("p cnf 2 2|a 1 2 0|1 2 0|-1 -2 0|");
        let list = [&before[..], &record(1, [3, 5, pivot])].concat();
        assert_eq!(state.run(&list).to_string(), wanted);
        assert_eq!(state.counts().steps, 2);
    }
}

#[test]
fn step_and_run_pass_the_variable_on() {
    let text = b"p cnf 9 2\na 9 0\ne 5 7 0\n5 7 9 0\n-9 -7 -5 0\n";
    let clash = record(1, [1, 2, 7]);
    let mut lent = Lent::zero();
    lent.load(text).unwrap();
    let before = lent.clone();
    assert_eq!(lent.step(&clash), Err((1, Number::Tautology(5))));
    assert_eq!(lent.run(&clash).to_string(), "bad 1 23 5");
    assert_eq!(lent, before);
    let mut buffers = Buffers::zero();
    buffers.load(text).unwrap();
    let list = [record(2, [1, 0, 9]), record(1, [1, 2, 5])].concat();
    assert_eq!(buffers.run(&list).to_string(), "bad 1 27");
    assert_eq!(buffers.run(&record(1, [1, 2, 5])).to_string(), "bad 1 23 7");
    assert_eq!(checker::check(text, &clash).to_string(), "bad 1 23 5");
}

#[test]
fn no_other_number_has_a_variable() {
    assert_eq!(Number::Tautology(512).value(), 23);
    assert_eq!(Number::Tautology(512).variable(), Some(512));
    assert_eq!(Number::Tautology(512).to_string(), "23 512");
    let others = [
        Number::TooShort,
        Number::IllFormed,
        Number::OverLimit,
        Number::Record,
        Number::ClauseNumber,
        Number::NotThere,
        Number::TooWide,
        Number::NoRoom,
        Number::NotUniversal,
        Number::Depended,
        Number::Masks,
        Number::Comparable,
    ];
    let numbers = [1, 2, 11, 20, 21, 22, 24, 25, 26, 27, 28, 29];
    for (number, value) in others.into_iter().zip(numbers) {
        assert_eq!((number.value(), number.variable()), (value, None));
        assert_eq!(number.to_string(), value.to_string());
    }
}
