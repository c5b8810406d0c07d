//! Fixed cases that a table cannot hold well: records with single bytes set,
//! cut lists, and texts that fill the literals to a given count.

use checker::records::record;

use crate::case::{bytes_of, Case, Words};
use crate::tabled::expanded;

/// All cases of this module.
pub fn cases() -> Vec<Case> {
    [lines(), bytes(), cuts(), full_literals()].concat()
}

fn stated(label: String, text: &str, records: Vec<u8>, line: String) -> Case {
    Case {
        label,
        text: expanded(text).into_bytes(),
        records,
        expected: line,
    }
}

/// One faulty line with its number, behind comments and clauses.
fn lines() -> Vec<Case> {
    let faults = [
        ("1 x 0", 10),
        ("1 2", 10),
        ("c", 10),
        ("{1..33}0", 11),
        ("8 0", 12),
        ("70 0", 12),
        ("2 1 -2 0", 13),
    ];
    let mut cases = Vec::new();
    for (fault, number) in faults {
        for (comments, clauses) in [(0, 0), (1, 2), (0, 40), (7, 5)] {
            let before = format!("{{c|*{comments}}}p cnf 60 50|a 1 2 0|e 3 4 5 0|");
            let text = format!("{before}{{1 -3 0|*{clauses}}}{fault}|");
            let line = format!("formula {} {number}", comments + 3 + clauses + 1);
            let label = format!("fault/text {number} behind {clauses} clauses");
            cases.push(stated(label, &text, Vec::new(), line));
        }
    }
    for (wanted, found) in [(0, 1), (3, 4), (9, 10), (2, 1), (9, 3)] {
        let text = format!("c|p cnf 3 {wanted}|e 3 0|{{3 0|*{found}}}");
        let label = format!("fault/text 14, {found} clauses of {wanted}");
        let line = format!("formula {} 14", found.min(wanted + 1) + 3);
        cases.push(stated(label, &text, Vec::new(), line));
    }
    cases
}

const SMALL: &str = "p cnf 4 3|a 1 2 0|d 3 1 0|d 4 2 0|1 3 4 0|-3 2 0|1 0|";

/// Permitted steps with one byte set that is stated as 0.
fn bytes() -> Vec<Case> {
    let steps = [(1, [1, 2, 3]), (2, [3, 0, 1]), (3, [1, 3, 4])];
    let mut cases = Vec::new();
    for (kind, words) in steps {
        let places: &[usize] = match kind {
            2 => &[1, 2, 3, 8, 9, 10, 11],
            _ => &[1, 2, 3],
        };
        for &at in places {
            let mut bytes = record(kind, words);
            bytes[at] = 1 << (at % 8);
            let label = format!("step border/kind {kind} with byte {at} set");
            cases.push(stated(label, SMALL, bytes.to_vec(), "bad 1 20".into()));
        }
    }
    cases
}

/// Lists whose length is no multiple of 16.
fn cuts() -> Vec<Case> {
    let text = "p cnf 1 1|a 1 0|1 0|";
    let whole = record(2, [1, 0, 1]).repeat(2_050);
    let lengths = [1, 4, 15, 17, 31, 49, 52, 63, 32_753, 32_767, 32_769, 32_783];
    let each = lengths.map(|length| {
        let line = match length {
            0..=32_768 => format!("bad {} 20", length / 16 + 1),
            _ => "bad 0 11".into(),
        };
        let label = format!("list/{length} bytes");
        stated(label, text, whole[..length].to_vec(), line)
    });
    each.to_vec()
}

/// A text of so many literals whose clauses 1 to 4 are {1}, {-1}, {1, 2} and
/// {1, 2, 3}, all universal; and its number of clauses.
fn text_of_literals(literals: usize) -> (String, usize) {
    let (wide, rest) = ((literals - 7) / 32, (literals - 7) % 32);
    let clauses = wide + 5;
    let front = format!("p cnf 32 {clauses}|a {{1..32}}0|1 0|-1 0|1 2 0|1 2 3 0|");
    assert!(rest > 0, "the last clause makes up the count");
    let back = format!("{{{{1..32}}0|*{wide}}}{{1..{rest}}}0|");
    (format!("{front}{back}"), clauses)
}

/// Steps that add 0, 1, 4 and 6 literals where few are left.
fn full_literals() -> Vec<Case> {
    let steps: [(&str, Words, usize); 6] = [
        ("empty resolvent", (1, [1, 2, 1]), 0),
        ("empty reduction", (2, [1, 0, 1]), 0),
        ("reduction to one", (2, [3, 0, 1]), 1),
        ("resolvent of one", (1, [3, 2, 1]), 1),
        ("fork of two", (3, [3, 1, 2]), 4),
        ("fork of three, one in both", (3, [4, 3, 6]), 6),
    ];
    let mut cases = Vec::new();
    for literals in [8_186, 8_187, 8_188, 8_189, 8_191, 8_192] {
        let (text, clauses) = text_of_literals(literals);
        for (name, step, added) in steps {
            let line = match added {
                0 => format!("refuted 1 {}", clauses + 1),
                _ if literals + added <= 8_192 => "open 1".into(),
                _ => "bad 1 25".into(),
            };
            let label = format!("room/{literals} literals: {name}");
            cases.push(stated(label, &text, bytes_of(&[step]), line));
        }
    }
    cases.extend(filled_up());
    cases
}

/// The last place is taken by an accepted step, and refusals stay in order.
fn filled_up() -> Vec<Case> {
    let table: [(&str, usize, Vec<Words>, &str); 4] = [
        (
            "one, none, one",
            8_191,
            vec![(2, [3, 0, 1]), (1, [1, 2, 1]), (2, [3, 0, 1])],
            "bad 3 25",
        ),
        ("22 and 25", 8_192, vec![(2, [3, 0, 3])], "bad 1 22"),
        ("29 and 25", 8_192, vec![(3, [3, 3, 1])], "bad 1 29"),
        ("28 and 25", 8_192, vec![(3, [3, 3, 4])], "bad 1 28"),
    ];
    let each = table.iter().map(|(name, literals, steps, line)| {
        let label = format!("room/{literals} literals: {name}");
        let (text, _) = text_of_literals(*literals);
        stated(label, &text, bytes_of(steps), line.to_string())
    });
    each.collect()
}
