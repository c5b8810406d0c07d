//! Note 1 of document 02: the tidy text, and what a write does to its output.

use std::ops::RangeInclusive;

use checker::calls::Lent;
use checker::driver::{Buffers, SIZES};
use checker::limits::{CLAUSES, LITERALS, TEXT_BYTES, TIDY_BYTES, UNIVERSALS, VARIABLES, WIDTH};
use checker::records::record;
use checker::refusal::Number;
use checker::state::State;
use checker::tables::export;
use checker::tidy;

const EXAMPLE: &[u8] = include_bytes!("data/ex002_formula.dq");
const EXAMPLE_STEPS: &[u8] = include_bytes!("data/ex002_steps.bin");
const THEOREM: &[u8] = include_bytes!("data/thm2_000.dq");

fn loaded(text: &[u8]) -> State {
    State::load(text).expect("an accepted text")
}

/// The tidy text of a text; a stroke is a line feed in both.
fn tidy(text: &str) -> String {
    tidy::text(&loaded(text.replace('|', "\n").as_bytes())).replace('\n', "|")
}

fn numbers(range: RangeInclusive<usize>) -> String {
    range.map(|number| format!("{number} ")).collect()
}

#[test]
fn the_spelling() {
    let cases = [
        ("p cnf 0 0|", "p cnf 0 0|"),
        // Empty clauses.
        ("p cnf 0 1|0|", "p cnf 0 1|0|"),
        ("p cnf 0 2|0|0|", "p cnf 0 2|0|0|"),
        // No comments, single spaces.
        ("c x|c|cnf|p   cnf  9     0|", "p cnf 9 0|"),
        // No clauses, no existentials.
        ("p cnf 1 0|a 1 0|", "p cnf 1 0|a 1 0|"),
        ("p cnf 2 1|a 2 1 0|2 1 0|", "p cnf 2 1|a 2 1 0|1 2 0|"),
        // No universals.
        ("p cnf 2 1|e 2 1 0|1 -2 0|", "p cnf 2 1|d 1 0|d 2 0|1 -2 0|"),
        ("p cnf 1 0|d 1 0|", "p cnf 1 0|d 1 0|"),
        // Undeclared variables.
        ("p cnf 9 1|e 5 0|-5 0|", "p cnf 9 1|d 5 0|-5 0|"),
        ("p cnf 512 0|", "p cnf 512 0|"),
        // One `a` line by declaration; existentials, sets and literals by number.
        (
            "p cnf 5 2|a 4 0|d 5 4 4 0|a 3 1 0|e 2 0|2  -5 2 0|0|",
            "p cnf 5 2|a 4 3 1 0|d 2 1 3 4 0|d 5 4 0|2 -5 0|0|",
        ),
        // By number, not by spelling.
        (
            "p cnf 512 1|a 512 10 9 100 99 0|e 511 0|512 -99 100 -9 10 511 0|",
            "p cnf 512 1|a 512 10 9 100 99 0|d 511 9 10 99 100 512 0|-9 10 -99 100 511 512 0|",
        ),
        // An `e` line becomes the sets that it gives: the universals before it.
        ("p cnf 3 0|a 1 0|e 2 0|a 3 0|", "p cnf 3 0|a 1 3 0|d 2 1 0|"),
        (
            "p cnf 4 0|e 2 0|a 3 1 0|d 4 1 0|",
            "p cnf 4 0|a 3 1 0|d 2 0|d 4 1 0|",
        ),
        (
            "p cnf 8 0|e 8 0|a 5 0|e 7 1 0|a 2 3 0|d 6 3 0|e 4 0|",
            "p cnf 8 0|a 5 2 3 0|d 1 5 0|d 4 2 3 5 0|d 6 3 0|d 7 5 0|d 8 0|",
        ),
        // Clauses keep their order, repeats of a clause too.
        (
            "p cnf 2 3|e 1 2 0|2 1 0|-1 0|1 2 2 0|",
            "p cnf 2 3|d 1 0|d 2 0|1 2 0|-1 0|1 2 0|",
        ),
    ];
    for (text, wanted) in cases {
        assert_eq!(tidy(text), wanted, "{text}");
        assert_eq!(tidy(wanted), wanted, "a tidy text stays as it is");
    }
}

/// The formulas printed in 000 and 002 are tidy as they stand here.
#[test]
fn the_published_formulas() {
    for text in [EXAMPLE, THEOREM] {
        assert_eq!(tidy::text(&loaded(text)).as_bytes(), text);
    }
    let mut example = loaded(EXAMPLE);
    assert_eq!(example.run(EXAMPLE_STEPS).to_string(), "refuted 26 38");
    assert_eq!(tidy::text(&example).as_bytes(), EXAMPLE);
    // The same in another spelling.
    let untidy = "c 002, section 5|p  cnf 4 6|a 1 0|d 3 1 1 0|a 2 0|d 4 2 0|4 3 1 0|1 -4 -3 0|\
        3 2 4 3 0|-4 -3 2 0|-1 3 -2 -4 0|4 -3 -2 -1 0|";
    assert_eq!(tidy(untidy).replace('|', "\n").as_bytes(), EXAMPLE);
}

const TEXT: &[u8] = b"p cnf 4 1\na 1 2 0\nd 4 2 0\n1 4 0\n";

/// The buffers of `TEXT` with a fork and a reduction.
fn stepped() -> Buffers {
    let mut buffers = Buffers::zero();
    buffers.load(TEXT).unwrap();
    let records = [record(3, [1, 1, 2]), record(2, [2, 0, 1])].concat();
    assert_eq!(buffers.run(&records).to_string(), "open 2");
    buffers
}

#[test]
fn derived_clauses_and_fork_variables_are_left_out() {
    let mut out = TEXT.to_vec();
    out.fill(b'x');
    assert_eq!(stepped().write(&mut out), Ok(TEXT.len()));
    assert_eq!(out, TEXT);
}

#[test]
fn the_output_behind_the_text_stays() {
    for more in [1, 5, 70_000] {
        let rest = vec![b'x'; more];
        let mut out = [&vec![b'y'; TEXT.len()], &rest[..]].concat();
        assert_eq!(stepped().write(&mut out), Ok(TEXT.len()));
        assert_eq!(out, [TEXT, &rest].concat());
    }
}

#[test]
fn a_short_output_stays() {
    for length in 0..TEXT.len() {
        let mut out = vec![b'x'; length];
        assert_eq!(stepped().write(&mut out), Err(Number::ShortOutput));
        assert_eq!(out, vec![b'x'; length]);
    }
    assert_eq!(Number::ShortOutput.value(), 30);
}

#[test]
fn the_tables_are_tested_first() {
    for (index, size) in SIZES.into_iter().enumerate() {
        let mut buffers = stepped();
        buffers.0[index].truncate(size - 1);
        let mut out = vec![b'x'; 100];
        for length in [0, 100] {
            assert_eq!(buffers.write(&mut out[..length]), Err(Number::TooShort));
        }
        assert_eq!(out, vec![b'x'; 100]);
    }
    let mut lent = Lent::zero();
    lent.counts.steps = 1;
    let mut out = vec![b'x'; 100];
    assert_eq!(lent.write(&mut []), Err(Number::IllFormed));
    assert_eq!(lent.write(&mut out), Err(Number::IllFormed));
    assert_eq!(out, vec![b'x'; 100]);
    lent.tables.kinds.pop();
    assert_eq!(lent.write(&mut out), Err(Number::TooShort));
}

/// Zero tables, as a refused load leaves them, are those of the empty formula.
#[test]
fn zero_tables_have_a_text() {
    let mut lent = Lent::zero();
    assert!(lent.load(b"p cnf 1\n").is_err());
    assert_eq!(lent.write(&mut [0; 9]), Err(Number::ShortOutput));
    let mut out = [b'x'; 11];
    assert_eq!(lent.write(&mut out), Ok(10));
    assert_eq!(&out, b"p cnf 0 0\nx");
}

/// Well-formed tables that no load made: the universals' bits in another order.
#[test]
fn the_a_line_goes_by_bits() {
    let mut lent = Lent::zero();
    lent.load(b"p cnf 4 0\na 1 2 3 0\nd 4 1 3 0\n").unwrap();
    for (variable, word) in [4, 1, 2, 6].into_iter().enumerate() {
        lent.tables.sets[4 * variable] = word;
    }
    let mut out = [0; 30];
    assert_eq!(lent.write(&mut out), Ok(30));
    assert_eq!(&out[..], b"p cnf 4 0\na 2 3 1 0\nd 4 1 3 0\n".as_slice());
}

/// Members in all four words; their bits fall where their numbers rise.
#[test]
fn sets_across_words() {
    let falling: String = (1..=256).rev().map(|number| format!("{number} ")).collect();
    let prefix = format!("p cnf 259 0|a {falling}0|");
    let lines = "d 257 1 64 65 128 129 192 193 256 0|d 258 64 0|d 259 193 0|";
    let untidy = "d 259 193 0|d 257 256 1 193 64 192 65 129 128 0|d 258 64 64 0|";
    let written = tidy(&format!("{prefix}{untidy}"));
    assert_eq!(written, format!("{prefix}{lines}"));
    assert_eq!(tidy(&written), written);
}

/// A formula of 512 variables whose last ones are so many universals, which all
/// others see.
fn full_sets(universals: usize) -> String {
    let existentials = 512 - universals;
    let (named, others) = (numbers(existentials + 1..=512), numbers(1..=existentials));
    format!("p cnf 512 0\na {named}0\ne {others}0\n")
}

#[test]
fn many_universals_and_512_variables() {
    // Lines of numbers of three digits: more than a load takes.
    let lengths = [
        12 + 260 + 448 * 260 + 9 * 2 + 90 * 3 + 349 * 4,
        12 + 1_028 + 256 * 1_028 + 9 * 2 + 90 * 3 + 157 * 4,
    ];
    for (universals, length) in [64, 256].into_iter().zip(lengths) {
        assert_full_sets(universals, length);
    }
}

fn assert_full_sets(universals: usize, length: usize) {
    let text = full_sets(universals);
    let written = tidy::text(&loaded(text.as_bytes()));
    let existentials = 512 - universals;
    let members = numbers(existentials + 1..=512);
    let mut wanted = format!("p cnf 512 0\na {members}0\n");
    for existential in 1..=existentials {
        wanted += &format!("d {existential} {members}0\n");
    }
    assert_eq!(written, wanted);
    assert_eq!(written.len(), length);
    assert!(written.len() > TEXT_BYTES && written.len() < TIDY_BYTES);
    let mut lent = Lent::zero();
    lent.load(text.as_bytes()).unwrap();
    let mut out = vec![b'x'; written.len() + 1];
    let (shorter, _) = out.split_at_mut(written.len() - 1);
    assert_eq!(lent.write(shorter), Err(Number::ShortOutput));
    assert!(out.iter().all(|&byte| byte == b'x'));
    assert_eq!(lent.write(&mut out), Ok(written.len()));
    assert_eq!(out, [written.as_bytes(), b"x"].concat());
}

/// The longest tidy text that is read again, and one that is a byte longer.
#[test]
fn texts_around_the_limit_of_a_load() {
    for (positive, negated, length) in [(331, 3, 32_768), (330, 4, 32_769)] {
        let prefix = format!("a {}0\ne {}0\n", numbers(1..=64), numbers(100..=259));
        let clauses = "100 0\n".repeat(positive) + &"-100 0\n".repeat(negated);
        let start = loaded(format!("p cnf 512 334\n{prefix}{clauses}").as_bytes());
        let text = tidy::text(&start);
        assert_eq!(text.len(), length);
        match State::load(text.as_bytes()) {
            Ok(again) => {
                assert!(length <= TEXT_BYTES);
                assert_eq!(export(&again), export(&start));
                assert_eq!(again.counts(), start.counts());
                assert_eq!(tidy::text(&again), text);
            }
            Err(refusal) => {
                assert!(length > TEXT_BYTES);
                assert_eq!((refusal.line, refusal.number), (0, Number::OverLimit));
            }
        }
    }
}

/// The length of the longest text with so many variables, universals and
/// existentials: the universals have the highest numbers, the existentials the
/// next ones, and all literals are of the longest spelling.
fn longest(variables: usize, universals: usize, existentials: usize, spaced: &[usize]) -> usize {
    let sum = |last: usize, count: usize| spaced[last] - spaced[last - count];
    let members = sum(variables, universals);
    let header = format!("p cnf {variables} {CLAUSES}\n").len();
    let declared = if universals > 0 { 4 + members } else { 0 };
    let named = sum(variables - universals, existentials);
    let literal = format!("-{variables} ").len();
    header + declared + existentials * (4 + members) + named + LITERALS * literal + CLAUSES * 2
}

/// No text is longer than `TIDY_BYTES`, whatever the tables hold.
#[test]
fn an_output_that_is_always_long_enough() {
    // The bytes of the numbers 1 to n, each with a space.
    let mut spaced = vec![0];
    for number in 1..=VARIABLES {
        spaced.push(spaced[number - 1] + number.to_string().len() + 1);
    }
    let mut most = (0, 0, 0, 0);
    for variables in 0..=VARIABLES {
        for universals in 0..=UNIVERSALS.min(variables) {
            for existentials in 0..=variables - universals {
                let length = longest(variables, universals, existentials, &spaced);
                most = most.max((length, variables, universals, existentials));
            }
        }
    }
    assert_eq!(most, (310_183, 512, 256, 256));
    assert!(most.0 <= TIDY_BYTES);
    assert_eq!(longest_tables().write(&mut vec![0; TIDY_BYTES]), Ok(most.0));
    assert_eq!(
        longest_tables().write(&mut vec![0; most.0 - 1]),
        Err(Number::ShortOutput)
    );
}

/// Tables with the longest text; no load makes them, since their clauses alone
/// are too long for one.
fn longest_tables() -> Lent {
    let mut lent = Lent::zero();
    lent.load(full_sets(256).as_bytes()).unwrap();
    let wide = LITERALS / WIDTH;
    for (place, literal) in lent.tables.literals.iter_mut().enumerate() {
        *literal = -((place % WIDTH) as i16 + 481);
    }
    for (place, end) in lent.tables.ends.iter_mut().enumerate() {
        *end = (WIDTH * (place + 1).min(wide)) as u16;
    }
    lent.counts.formula_clauses = CLAUSES as u16;
    lent.counts.clauses = CLAUSES as u16;
    lent.counts.literals = LITERALS as u16;
    lent.counts.lowest_empty = wide as u16 + 1;
    lent
}

/// The longest tidy text of a formula that a load accepts: each existential adds
/// four bytes and its set to what one `e` line says of it, no other line grows,
/// and clauses fill the text that is loaded.
#[test]
fn the_longest_text_of_a_load() {
    let mut text = full_sets(256).replace("p cnf 512 0", "p cnf 512 2048");
    let mut left = TEXT_BYTES - text.len() - 2 * CLAUSES;
    for _ in 0..CLAUSES {
        let mut variable = 512;
        while left >= 5 && variable > 512 - 3 {
            text += &format!("-{variable} ");
            left -= 5;
            variable -= 1;
        }
        if left == 4 {
            text += "100 ";
            left = 0;
        }
        text += "0\n";
    }
    assert_eq!((text.len(), left), (TEXT_BYTES, 0));
    let written = tidy::text(&loaded(text.as_bytes())).len();
    assert_eq!(written, TEXT_BYTES - "e 0\n".len() + 256 * (4 + 256 * 4));
    assert_eq!(written, 295_932);
}

/// The driver's header has the same size.
#[test]
fn the_header_names_the_size() {
    let path = concat!(env!("CARGO_MANIFEST_DIR"), "/../../include/kefthrun.h");
    let header = std::fs::read_to_string(path).unwrap();
    assert!(header.contains(&format!(" KEFTHRUN_TIDY_BYTES = {TIDY_BYTES} ")));
    assert!(header.contains(" KEFTHRUN_OUTPUT_TOO_SHORT = 30 "));
}
