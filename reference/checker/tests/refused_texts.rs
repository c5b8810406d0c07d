//! Document 01, "Formula text" and "Numbers of refusal": the refusals of a
//! formula, line by line, and their order.

use checker::check;
use checker::formula::read;

/// Checks each text against the line and number of its refusal; (0, 0) is
/// acceptance. A bar stands for a line feed.
fn expect(cases: &[(&str, usize, u16)]) {
    for &(text, line, number) in cases {
        let found = match read(text.replace('|', "\n").as_bytes()) {
            Ok(_) => (0, 0),
            Err(refusal) => (refusal.line, refusal.number.value()),
        };
        assert_eq!(found, (line, number), "{text:?}");
    }
}

fn named(numbers: impl Iterator<Item = i32>) -> String {
    numbers.map(|number| format!("{number} ")).collect()
}

#[test]
fn lines_and_tokens() {
    expect(&[
        ("p cnf 2 1|e 1 2 0|1 2 0|", 0, 0),
        ("p  cnf   2 1|e  1 2   0|1    2 0|", 0, 0),
        ("p cnf 2 1|e 1 2 0|1 2 0", 3, 10),
        ("p cnf 2 1|e 1 2 0|1 2 0 |", 3, 10),
        ("p cnf 2 1|e 1 2 0| 1 2 0|", 3, 10),
        ("p cnf 2 1|e 1 2 0|1 2\t0|", 3, 10),
        ("p cnf 2 1|e 1 2 0|1 2 0\r|", 3, 10),
        ("p cnf 2 1\r|e 1 2 0|1 2 0|", 1, 10),
        ("p cnf 2 1|e 1 2 0||1 2 0|", 3, 10),
        ("p cnf 2 1|e 1 2 0|1 2 0||", 4, 10),
        ("p cnf 2 1|e 1 2 0|1 2 0|c|", 4, 10),
        ("p cnf 2 1|c|e 1 2 0|1 2 0|", 2, 10),
        ("p cnf 2 1|e 1 2 0| |1 2 0|", 3, 10),
        (" p cnf 0 0|", 1, 10),
    ]);
}

#[test]
fn headers_and_comments() {
    expect(&[
        ("", 1, 10),
        ("|", 1, 10),
        ("c|", 2, 10),
        ("c|c x|", 3, 10),
        ("c", 1, 10),
        ("c|c", 2, 10),
        ("c\0\t \r|cnf|c |p cnf 0 0|", 0, 0),
        ("p cnf 1", 1, 10),
        ("p cnf 1|", 1, 10),
        ("p cnf 0 0 0|", 1, 10),
        ("p CNF 0 0|", 1, 10),
        ("p cnf 0 0|p cnf 0 0|", 2, 10),
        ("p cnf -1 0|", 1, 10),
        ("p cnf 00 0|", 1, 10),
        ("p cnf 512 2048|", 1, 14),
        ("p cnf 513 0|", 1, 11),
        ("p cnf 0 2049|", 1, 11),
        ("p cnf 99999 0|", 1, 11),
        ("p cnf 100000 0|", 1, 10),
        ("p cnf 513 x|", 1, 10),
        ("a 1 0|p cnf 1 0|", 1, 10),
        (" c|p cnf 0 0|", 1, 10),
    ]);
}

#[test]
fn prefix_lines() {
    expect(&[
        ("p cnf 3 0|a 1 0|d 2 0|d 3 1 1 0|", 0, 0),
        ("p cnf 3 0|a 0|", 2, 10),
        ("p cnf 3 0|e 0|", 2, 10),
        ("p cnf 3 0|d 0|", 2, 10),
        ("p cnf 3 0|d 0 0|", 2, 10),
        ("p cnf 3 0|d|", 2, 10),
        ("p cnf 3 0|a 1|", 2, 10),
        ("p cnf 3 0|a 1 0 2 0|", 2, 10),
        ("p cnf 3 0|a -1 0|", 2, 10),
        ("p cnf 3 0|a 01 0|", 2, 10),
        ("p cnf 3 0|a1 0|", 2, 10),
        ("p cnf 3 0|A 1 0|", 2, 10),
        ("p cnf 3 0|a 1 00|", 2, 10),
        ("p cnf 3 0|a 1 1 0|", 2, 12),
        ("p cnf 3 0|a 1 0|e 1 0|", 3, 12),
        ("p cnf 3 0|a 1 0|d 1 0|", 3, 12),
        ("p cnf 3 0|e 2 2 0|", 2, 12),
        ("p cnf 3 0|e 4 0|", 2, 12),
        ("p cnf 3 0|a 99999 0|", 2, 12),
        ("p cnf 3 0|a 100000 0|", 2, 10),
        ("p cnf 3 0|a 1 0|d 2 0|d 3 2 0|", 4, 12),
        ("p cnf 3 0|d 2 1 0|a 1 0|", 2, 12),
        ("p cnf 3 0|d 2 2 0|", 2, 12),
        ("p cnf 3 0|a 1 0|d 4 1 0|", 3, 12),
        ("p cnf 3 0|a 1 0|d 2 4 0|", 3, 12),
    ]);
}

#[test]
fn clause_lines() {
    expect(&[
        ("p cnf 3 1|e 1 2 0|1 3 0|", 3, 12),
        ("p cnf 3 1|e 1 2 0|4 0|", 3, 12),
        ("p cnf 3 1|e 1 2 0|99999 0|", 3, 12),
        ("p cnf 3 1|e 1 2 0|100000 0|", 3, 10),
        ("p cnf 3 1|e 1 2 0|-0 0|", 3, 10),
        ("p cnf 3 1|e 1 2 0|- 0|", 3, 10),
        ("p cnf 3 1|e 1 2 0|+1 0|", 3, 10),
        ("p cnf 3 1|e 1 2 0|1 -0|", 3, 10),
        ("p cnf 3 1|e 1 2 0|1 0 2 0|", 3, 10),
        ("p cnf 3 1|e 1 2 0|1 -1 0|", 3, 13),
        ("p cnf 3 1|e 1 2 0|-2 1 2 0|", 3, 13),
        ("p cnf 3 1|e 1 2 0|1 0|2 0|", 4, 14),
        ("p cnf 3 2|e 1 2 0|1 0|", 3, 14),
        ("p cnf 3 2|e 1 2 0|1 0|e 3 0|", 4, 10),
        ("p cnf 3 0|e 1 2 0|0|", 3, 14),
        ("p cnf 3 1|0|", 0, 0),
        ("p cnf 3 1|", 1, 14),
        ("c|p cnf 3 1|e 1 0|", 3, 14),
    ]);
}

#[test]
fn two_faults_on_one_line() {
    expect(&[
        ("p cnf 513 0 0|", 1, 10),
        ("p cnf 2 1|e 1 2 0|1 -1 9 0|", 3, 12),
        ("p cnf 2 1|e 1 2 0|9 x 0|", 3, 10),
        ("p cnf 2 1|e 1 2 0|1 0|1 -1 0|", 4, 13),
        ("p cnf 2 1|e 1 2 0|1 0|9 0|", 4, 12),
        ("p cnf 2 1|e 1 2 0|1 0|1 x 0|", 4, 10),
        ("p cnf 2 1|e 1 2 0|1 0|1 -1 9 0|", 4, 12),
        ("p cnf 2 2|e 1 2 0|1 -1 0|", 3, 13),
        ("p cnf 2 2|e 1 2 0|1 2", 3, 10),
    ]);
    let universals = named(1..=257);
    let wide = named(1..=33);
    let pairs = named((1..=17).flat_map(|v| [v, -v]));
    expect(&[
        (&format!("p cnf 9 0|a {universals}0|"), 2, 11),
        (&format!("p cnf 300 0|e 257 0|a {universals}0|"), 3, 11),
        (&format!("p cnf 300 0|a {universals}-1 0|"), 2, 10),
        (&format!("p cnf 9 1|e 1 0|{wide}0|"), 3, 11),
        (&format!("p cnf 99 1|e {wide}0|{wide}0|"), 3, 11),
        (&format!("p cnf 99 1|e {wide}0|{wide}x 0|"), 3, 10),
        (&format!("p cnf 99 1|e {wide}0|{pairs}0|"), 3, 11),
        (&format!("p cnf 99 0|e {wide}0|{wide}0|"), 3, 11),
    ]);
}

#[test]
fn universals_are_counted_as_different_numbers() {
    let first = named(1..=40);
    let second = named(41..=256);
    expect(&[
        (&format!("p cnf 300 0|a {first}0|a {second}0|"), 0, 0),
        (&format!("p cnf 300 0|a {first}0|a {second}257 0|"), 3, 11),
        (&format!("p cnf 300 0|a {first}0|a {second}256 0|"), 3, 12),
        (&format!("p cnf 300 0|a {first}0|a {second}1 0|"), 3, 12),
        (&format!("p cnf 300 0|a {first}0|a {second}301 0|"), 3, 11),
    ]);
}

#[test]
fn literals_in_all() {
    let all = named(1..=32);
    let text = |clauses: usize, last: &str| {
        let body = format!("{all}0\n").repeat(255);
        format!("p cnf 40 {clauses}\ne {all}0\n{body}{last}").replace('\n', "|")
    };
    let full = format!("{all}0|");
    expect(&[
        (&text(256, &full), 0, 0),
        (&text(257, &format!("{full}0|")), 0, 0),
        (&text(257, &format!("{full}1 0|")), 259, 11),
        (&text(257, &format!("{full}40 0|")), 259, 11),
        (&text(257, &format!("{full}1 -1 0|")), 259, 11),
        (&text(256, &format!("{full}1 0|")), 259, 11),
        (&text(256, &format!("{full}x 0|")), 259, 10),
        (&text(256, &format!("{full}0|")), 259, 14),
    ]);
    let half = named((1..=16).flat_map(|v| [v, v]));
    expect(&[(&text(256, &format!("{half}{half}{half}0|")), 0, 0)]);
}

#[test]
fn the_length_of_the_text() {
    for (length, wanted) in [(32_768, "open 0"), (32_769, "formula 0 11")] {
        let mut text = b"p cnf 0 0\n".to_vec();
        let comment = length - text.len() - 1;
        text.splice(0..0, [vec![b'c'; comment], vec![b'\n']].concat());
        assert_eq!(text.len(), length);
        assert_eq!(check(&text, &[]).to_string(), wanted);
    }
    assert_eq!(check(&[b'x'; 32_769], &[]).to_string(), "formula 0 11");
    assert_eq!(check(&[b'x'; 32_768], &[]).to_string(), "formula 1 10");
}

#[test]
fn no_list_is_examined_behind_a_refused_formula() {
    assert_eq!(check(b"", &[0; 40_000]).to_string(), "formula 1 10");
}
