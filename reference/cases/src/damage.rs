//! Grammar-aware damage: one change to a text or to a list of records that
//! often, but not always, breaks a rule of document 01.

use checker::limits::RECORD;

use crate::random::Random;

/// The lines of a text without their line feeds.
fn lines_of(text: &[u8]) -> Vec<Vec<u8>> {
    let body = text.strip_suffix(b"\n").unwrap_or(text);
    body.split(|&byte| byte == b'\n')
        .map(<[u8]>::to_vec)
        .collect()
}

fn text_of(lines: &[Vec<u8>]) -> Vec<u8> {
    let each = lines.iter();
    each.flat_map(|line| line.iter().copied().chain([b'\n']))
        .collect()
}

/// Tokens that are wrong somewhere, or right but surprising.
const TOKENS: &[&[u8]] = &[
    b"0",
    b"00",
    b"-0",
    b"01",
    b"-01",
    b"1",
    b"-1",
    b"2",
    b"-2",
    b"7",
    b"-",
    b"--1",
    b"+1",
    b"512",
    b"513",
    b"99999",
    b"100000",
    b"-99999",
    b"65537",
    b"a",
    b"e",
    b"d",
    b"c",
    b"p",
    b"cnf",
    b"x",
    b"1\r",
    b"\t1",
    b"1\0",
    b"\xC3\xA9",
];

const LINES: &[&[u8]] = &[
    b"",
    b" ",
    b"c",
    b"c x",
    b"0",
    b"a 1 0",
    b"e 2 0",
    b"d 3 0",
    b"d 1 1 0",
    b"a 0",
    b"e 0",
    b"d 0",
    b"p cnf 3 3",
    b"1 -1 0",
    b"1 0",
    b"-2 0",
    b"600 0",
    b"1 2 3",
    b"a 9 9 0",
    b"\r",
];

const BYTES: &[u8] = b" \n\r\t0-19acdepx\0\xFF";

/// Changes a text in one place; the name says how.
pub fn damaged_text(text: &[u8], random: &mut Random) -> (&'static str, Vec<u8>) {
    match random.below(11) {
        0 => ("a byte changed", changed_byte(text, random)),
        1 => ("a byte inserted", inserted_byte(text, random)),
        2 => ("cut short", text[..random.below(text.len() + 1)].to_vec()),
        3..=5 => damaged_token(text, random),
        6 => ("header changed", changed_header(text, random)),
        7 => ("a complement inserted", complemented(text, random)),
        _ => damaged_line(text, random),
    }
}

fn changed_byte(text: &[u8], random: &mut Random) -> Vec<u8> {
    let mut text = text.to_vec();
    if !text.is_empty() {
        let place = random.below(text.len());
        text[place] = random.pick(BYTES);
    }
    text
}

fn inserted_byte(text: &[u8], random: &mut Random) -> Vec<u8> {
    let mut text = text.to_vec();
    text.insert(random.below(text.len() + 1), random.pick(BYTES));
    text
}

fn damaged_line(text: &[u8], random: &mut Random) -> (&'static str, Vec<u8>) {
    let mut lines = lines_of(text);
    let place = random.below(lines.len());
    let other = random.below(lines.len());
    let name = match random.below(6) {
        0 => {
            lines.remove(place);
            "a line removed"
        }
        1 => {
            lines.insert(place, lines[place].clone());
            "a line doubled"
        }
        2 => {
            lines.swap(place, other);
            "two lines swapped"
        }
        3 => {
            lines.insert(place, random.pick(LINES).to_vec());
            "a line inserted"
        }
        4 => {
            lines[place].insert(0, b' ');
            "a leading space"
        }
        _ => {
            lines[place].push(b' ');
            "a trailing space"
        }
    };
    (name, text_of(&lines))
}

fn damaged_token(text: &[u8], random: &mut Random) -> (&'static str, Vec<u8>) {
    let mut lines = lines_of(text);
    let line = random.below(lines.len());
    let mut tokens: Vec<Vec<u8>> = lines[line]
        .split(|&byte| byte == b' ')
        .map(<[u8]>::to_vec)
        .collect();
    let place = random.below(tokens.len());
    let name = match random.below(4) {
        0 => {
            tokens.remove(place);
            "a token removed"
        }
        1 => {
            tokens.insert(place, tokens[place].clone());
            "a token doubled"
        }
        2 => {
            tokens.insert(place, random.pick(TOKENS).to_vec());
            "a token inserted"
        }
        _ => {
            tokens[place] = random.pick(TOKENS).to_vec();
            "a token changed"
        }
    };
    lines[line] = tokens.join(&b' ');
    (name, text_of(&lines))
}

/// Puts the complement of a literal at the front of a clause.
fn complemented(text: &[u8], random: &mut Random) -> Vec<u8> {
    let mut lines = lines_of(text);
    let starts = |line: &[u8]| line.first().is_some_and(|b| b"-123456789".contains(b));
    let clauses: Vec<usize> = (0..lines.len()).filter(|&i| starts(&lines[i])).collect();
    if clauses.is_empty() {
        return text.to_vec();
    }
    let line = &mut lines[random.pick(&clauses)];
    let tokens = line.split(|&byte| byte == b' ');
    let tokens: Vec<&[u8]> = tokens.filter(|token| !token.is_empty()).collect();
    let literal = tokens[random.below(tokens.len() - 1)];
    let complement = match literal.strip_prefix(b"-") {
        Some(rest) => rest.to_vec(),
        None => [b"-", literal].concat(),
    };
    *line = [complement, line.clone()].join(&b' ');
    text_of(&lines)
}

/// Changes V or C by a little, or to a border.
fn changed_header(text: &[u8], random: &mut Random) -> Vec<u8> {
    let mut lines = lines_of(text);
    let Some(header) = lines.iter().position(|line| line.starts_with(b"p ")) else {
        return text.to_vec();
    };
    let line = String::from_utf8_lossy(&lines[header]).into_owned();
    let mut tokens: Vec<String> = line.split_whitespace().map(String::from).collect();
    let last = tokens.len() - 1;
    let place = if random.chance(50) {
        last
    } else {
        last.saturating_sub(1)
    };
    let value: i64 = tokens[place].parse().unwrap_or(0);
    let change = random.pick(&[-2, -1, 1, 2, 512, 513, 2_048, 2_049]);
    tokens[place] = (value + change).to_string();
    lines[header] = tokens.join(" ").into_bytes();
    text_of(&lines)
}

/// Changes a list of records in one place; the name says how.
pub fn damaged_records(records: &[u8], random: &mut Random) -> (&'static str, Vec<u8>) {
    if records.len() < RECORD {
        return ("bytes appended", [records, &[2; 7]].concat());
    }
    match random.below(10) {
        0 => ("cut short", records[..random.below(records.len())].to_vec()),
        1 => ("records moved", moved_records(records, random)),
        2 => ("bytes appended", appended(records, random)),
        3 => ("a bit flipped", flipped(records, random)),
        _ => damaged_record(records, random),
    }
}

fn flipped(records: &[u8], random: &mut Random) -> Vec<u8> {
    let mut bytes = records.to_vec();
    let place = random.below(bytes.len());
    bytes[place] ^= 1 << random.below(8);
    bytes
}

fn appended(records: &[u8], random: &mut Random) -> Vec<u8> {
    let extra = (0..random.between(1, 33)).map(|_| random.pick(&[0, 0, 0, 1, 2, 3, 255]));
    records.iter().copied().chain(extra).collect()
}

fn moved_records(records: &[u8], random: &mut Random) -> Vec<u8> {
    let mut list: Vec<Vec<u8>> = records.chunks(RECORD).map(<[u8]>::to_vec).collect();
    let place = random.below(list.len());
    let other = random.below(list.len());
    match random.below(3) {
        0 => {
            list.remove(place);
        }
        1 => list.insert(place, list[other].clone()),
        _ => list.swap(place, other),
    }
    list.concat()
}

/// Changes a field of one record, by choice a late one.
fn damaged_record(records: &[u8], random: &mut Random) -> (&'static str, Vec<u8>) {
    let mut bytes = records.to_vec();
    let count = records.len() / RECORD;
    let index = random.below(count).max(random.below(count));
    let record = &mut bytes[RECORD * index..RECORD * (index + 1)];
    let name = match random.below(8) {
        0 => {
            record[0] = random.pick(&[0, 1, 2, 3, 4, 255]);
            "kind changed"
        }
        1 => {
            record[random.between(1, 3)] = random.pick(&[1, 128]);
            "byte 1 to 3 set"
        }
        2 => {
            change_word(record, 4, random);
            "clause changed"
        }
        3 | 4 => {
            change_word(record, 8, random);
            "second word changed"
        }
        5 => {
            let pivot = word(record, 12).wrapping_neg();
            set_word(record, 12, pivot);
            "last word negated"
        }
        6 => {
            let (first, second) = (word(record, 4), word(record, 8));
            set_word(record, 4, second);
            set_word(record, 8, first);
            "clauses swapped"
        }
        _ => {
            change_word(record, 12, random);
            "last word changed"
        }
    };
    (name, bytes)
}

fn word(record: &[u8], at: usize) -> u32 {
    u32::from_le_bytes([0, 1, 2, 3].map(|i| record[at + i]))
}

fn set_word(record: &mut [u8], at: usize, value: u32) {
    record[at..at + 4].copy_from_slice(&value.to_le_bytes());
}

fn change_word(record: &mut [u8], at: usize, random: &mut Random) {
    let old = word(record, at);
    let choices = [
        0,
        1,
        old.wrapping_add(1),
        old.wrapping_sub(1),
        old.wrapping_add(65_536),
        old ^ 1 << random.below(8),
        old | 1 << 31,
        random.below(40) as u32,
        32_768,
        (-32_768i32) as u32,
        i32::MIN as u32,
        u32::MAX,
    ];
    set_word(record, at, random.pick(&choices));
}
