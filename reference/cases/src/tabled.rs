//! The cases that are written down in tables: `data/texts.txt` and
//! `data/steps.txt`, whose heads tell their form. Each states its line.

use std::collections::BTreeMap;

use crate::case::{bytes_of, Case, Words};

const TEXTS: &str = include_str!("../data/texts.txt");
const STEPS: &str = include_str!("../data/steps.txt");

/// All cases of both tables.
pub fn cases() -> Vec<Case> {
    let texts = rows(TEXTS).map(|row| text_case(&row));
    let mut named = BTreeMap::new();
    let steps = rows(STEPS).filter_map(|row| step_case(&row, &mut named));
    texts.chain(steps).collect()
}

/// The fields of each line that is neither empty nor a comment.
fn rows(table: &str) -> impl Iterator<Item = Vec<&str>> {
    let lines = table.lines();
    lines
        .filter(|line| !line.is_empty() && !line.starts_with('#'))
        .map(|line| line.split(" ; ").collect())
}

fn text_case(row: &[&str]) -> Case {
    let &[label, line, text] = row else {
        panic!("label, line and text: {row:?}");
    };
    stated(label, line, Vec::new(), expanded(text))
}

/// A case, or none if the row names a text.
fn step_case<'a>(row: &[&'a str], named: &mut BTreeMap<&'a str, &'a str>) -> Option<Case> {
    match *row {
        [name, text] => {
            let name = name.strip_prefix("= ").expect("= name, and a text");
            named.insert(name, text);
            None
        }
        [label, line, steps, text] => {
            let text = text.strip_prefix('@').map_or(text, |name| named[name]);
            Some(stated(label, line, bytes_of(&words(steps)), expanded(text)))
        }
        _ => panic!("label, line, steps and text: {row:?}"),
    }
}

fn stated(label: &str, line: &str, records: Vec<u8>, text: String) -> Case {
    Case {
        label: label.into(),
        text: text.into_bytes(),
        records,
        expected: line.into(),
    }
}

/// Steps such as `1 1 2 3, 2 3 0 1 *4`.
fn words(steps: &str) -> Vec<Words> {
    let each = steps.split(',').filter(|step| !step.trim().is_empty());
    each.flat_map(|step| {
        let (step, times) = step.split_once('*').unwrap_or((step, "1"));
        let numbers: Vec<i64> = step.split_whitespace().map(parsed).collect();
        let &[kind, first, second, third] = numbers.as_slice() else {
            panic!("a kind and three words: {step}");
        };
        let step = (kind as u8, [first, second, third]);
        std::iter::repeat_n(step, parsed(times) as usize)
    })
    .collect()
}

fn parsed(number: &str) -> i64 {
    number.trim().parse().expect("a number")
}

/// A text with its braces and escapes expanded.
pub fn expanded(text: &str) -> String {
    let mut text = text.to_string();
    while let Some(close) = text.find('}') {
        let open = text[..close].rfind('{').expect("braces in pairs");
        let inner = expanded_braces(&text[open + 1..close]);
        text.replace_range(open..=close, &inner);
    }
    let escapes = [
        ("|", "\n"),
        ("\\s", " "),
        ("\\t", "\t"),
        ("\\r", "\r"),
        ("\\v", "\x0B"),
        ("\\0", "\0"),
    ];
    for (written, meant) in escapes {
        text = text.replace(written, meant);
    }
    text
}

fn expanded_braces(inner: &str) -> String {
    if let Some((repeated, times)) = inner.rsplit_once('*') {
        return repeated.repeat(parsed(times) as usize);
    }
    let range = inner.trim_start_matches(['-', '+', '=']);
    let (first, last) = range.split_once("..").expect("a range or a repetition");
    let each = (parsed(first)..=parsed(last)).map(|number| match inner.as_bytes()[0] {
        b'-' => format!("-{number} "),
        b'+' => format!("{number} -{number} "),
        b'=' => format!("{number} {number} "),
        _ => format!("{number} "),
    });
    each.collect()
}

#[cfg(test)]
mod tests {
    use super::*;

    #[test]
    fn texts_expand() {
        assert_eq!(expanded("a {1..3}0|"), "a 1 2 3 0\n");
        assert_eq!(expanded("{-1..2}{+3..4}{=5..5}"), "-1 -2 3 -3 4 -4 5 5 ");
        assert_eq!(expanded("{{1..2}0|*2}\\s"), "1 2 0\n1 2 0\n ");
    }

    #[test]
    fn steps_expand() {
        assert_eq!(words(""), []);
        let wanted = [(1, [1, 2, -3]), (2, [3, 0, 1]), (2, [3, 0, 1])];
        assert_eq!(words("1 1 2 -3, 2 3 0 1 *2"), wanted);
    }
}
