//! The fast checker against the reference checker.

use checker::calls::Lent;
use checker::driver::Buffers;
use checker::limits::TIDY_BYTES;
use differential::compare::compare;
use differential::generate::Scenarios;
use differential::library::Lean;
use differential::scenario::{Call, Scenario};

#[test]
fn the_fast_checker_agrees() {
    let scenarios = Scenarios::new(1);
    for index in 0..3_000 {
        let scenario = scenarios.scenario(index);
        let found = compare(&scenario, &mut Lean);
        assert_eq!(found, None, "{}", scenario.label);
    }
}

/// Tables that no load made, with numbers of every length: the last variables are
/// the universals, their bits fall, every seventh variable is undeclared, and the
/// clauses have as many literals as there is room for.
fn bordered(variables: usize, universals: usize, clauses: usize) -> Lent {
    let mut lent = Lent::zero();
    let tables = &mut lent.tables;
    let first = variables - universals;
    for index in 0..variables {
        let bit = variables - 1 - index;
        let (kind, has): (u8, fn(usize, usize) -> bool) = match index {
            _ if index >= first => (1, |place, bit| place == bit),
            _ if index % 7 == 6 => (0, |_, _| false),
            _ if index % 3 == 0 => (2, |_, _| true),
            _ => (2, |place, _| place % 5 < 3),
        };
        tables.kinds[index] = kind;
        for place in (0..universals).filter(|&place| has(place, bit)) {
            tables.sets[4 * index + place / 64] |= 1 << (place % 64);
        }
    }
    let kinds = &tables.kinds;
    let declared: Vec<usize> = (0..variables).filter(|&index| kinds[index] > 0).collect();
    let width = (8_192 / clauses.max(1)).min(32).min(declared.len());
    let last = declared.len().saturating_sub(width);
    for clause in 0..clauses {
        let start = (clause * 37) % (last + 1);
        for (place, index) in declared[start..start + width].iter().enumerate() {
            let sign = if (clause + place) % 2 == 0 { 1 } else { -1 };
            tables.literals[clause * width + place] = sign * (*index as i16 + 1);
        }
        tables.ends[clause] = ((clause + 1) * width) as u16;
    }
    let counts = &mut lent.counts;
    counts.header_variables = variables as u16;
    counts.variables = variables as u16;
    counts.universals = universals as u16;
    counts.formula_clauses = clauses as u16;
    counts.clauses = clauses as u16;
    counts.literals = (clauses * width) as u16;
    counts.lowest_empty = u16::from(width == 0 && clauses > 0);
    lent
}

#[test]
fn the_fast_checker_writes_the_borders() {
    let mut longest = 0;
    for variables in [0, 1, 9, 10, 11, 64, 99, 100, 101, 257, 511, 512] {
        for universals in [0, 1, 2, 63, 64, 65, 128, 129, 192, 193, 256] {
            for clauses in [0, 1, 9, 10, 99, 100, 256, 999, 1_000, 2_048] {
                if universals > variables {
                    continue;
                }
                let lent = bordered(variables, universals, clauses);
                let length = lent.write(&mut vec![0; TIDY_BYTES]).expect("a text");
                let [literals, ends, sets, kinds] = lent.tables.bytes();
                let lengths = [length, length + 1, length + 9, length - 1, 0];
                let scenario = Scenario {
                    label: format!("{variables}, {universals}, {clauses}"),
                    buffers: Buffers([literals, ends, sets, kinds, lent.counts.bytes()]),
                    calls: lengths.into_iter().map(Call::Write).collect(),
                };
                let found = compare(&scenario, &mut Lean);
                assert_eq!(found, None, "{}", scenario.label);
                longest = longest.max(length);
            }
        }
    }
    assert!(longest > 200_000, "{longest}");
}

/// The driver's header has the same number.
#[test]
fn the_header_has_this_interface() {
    let path = concat!(env!("CARGO_MANIFEST_DIR"), "/../../include/kefthrun.h");
    let header = std::fs::read_to_string(path).unwrap();
    let line = format!("\n#define KEFTHRUN_INTERFACE {}u\n", lean::INTERFACE);
    assert!(header.contains(&line), "{line}");
}
