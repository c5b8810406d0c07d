//! Cases for the programs `vectors`, `steps_test` and `tidy_test`, packed: every
//! number is unsigned, 16 bits, little-endian.
//!
//! A file is the number of cases, then for each its text, records and label. A
//! byte string is the number of its runs and the runs; a run is how often it
//! stands there, the length of its unit and the unit. 65,535 runs stand for the
//! same string as in the case before.

use crate::case::Case;

const AS_BEFORE: usize = 65_535;
const LONGEST_UNIT: usize = 128;
const LEAST_SAVING: usize = 8;

fn number(value: usize) -> [u8; 2] {
    u16::try_from(value).expect("below 65,536").to_le_bytes()
}

/// How often the first `period` bytes stand at the front.
fn times(bytes: &[u8], period: usize) -> usize {
    let unit = &bytes[..period];
    bytes
        .chunks_exact(period)
        .take_while(|chunk| *chunk == unit)
        .count()
}

/// The period at the front that saves most, with its times.
fn repeat(bytes: &[u8]) -> Option<(usize, usize)> {
    (1..=LONGEST_UNIT.min(bytes.len()))
        .map(|period| (period, times(bytes, period)))
        .filter(|&(period, times)| period * (times - 1) >= LEAST_SAVING)
        .max_by_key(|&(period, times)| (period * (times - 1), usize::MAX - period))
}

fn runs(bytes: &[u8]) -> Vec<(usize, &[u8])> {
    let mut found = Vec::new();
    let (mut start, mut at) = (0, 0);
    while at < bytes.len() {
        let Some((period, times)) = repeat(&bytes[at..]) else {
            at += 1;
            continue;
        };
        if start < at {
            found.push((1, &bytes[start..at]));
        }
        found.push((times, &bytes[at..at + period]));
        at += period * times;
        start = at;
    }
    if start < at {
        found.push((1, &bytes[start..at]));
    }
    found
}

fn string(bytes: &[u8], before: &[u8]) -> Vec<u8> {
    if bytes == before && !bytes.is_empty() {
        return number(AS_BEFORE).to_vec();
    }
    let runs = runs(bytes);
    let mut packed = number(runs.len()).to_vec();
    for (times, unit) in runs {
        packed.extend(number(times));
        packed.extend(number(unit.len()));
        packed.extend(unit);
    }
    packed
}

/// The bytes of a packed file.
pub fn pack(cases: &[Case]) -> Vec<u8> {
    let mut packed = number(cases.len()).to_vec();
    let (mut text, mut records): (&[u8], &[u8]) = (&[], &[]);
    for case in cases {
        packed.extend(string(&case.text, text));
        packed.extend(string(&case.records, records));
        packed.extend(string(case.label.as_bytes(), &[]));
        (text, records) = (&case.text, &case.records);
    }
    packed
}

/// What the program `vectors` prints: each label with its line.
pub fn printed(cases: &[Case]) -> String {
    cases
        .iter()
        .map(|case| format!("{}: {}\n", case.label, case.expected))
        .collect()
}
