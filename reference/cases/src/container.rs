//! Cases on disk.
//!
//! A container is the number of cases, then each case as four byte strings:
//! text, records, expected line (without a line feed) and label. A byte string
//! is its length and its bytes. Every number is unsigned, 32 bits,
//! little-endian.
//!
//! Joined, each case is one file: the text, a 0 byte and the records.
//!
//! A folder holds one folder per case, numbered from 00001, each with
//! `formula.dq`, `steps.bin`, `expected` (the line with its line feed) and
//! `label`.

use std::fs;
use std::io;
use std::path::Path;

use crate::case::Case;

fn number(value: usize) -> [u8; 4] {
    let value = u32::try_from(value).expect("containers stay below 4 GiB");
    value.to_le_bytes()
}

/// The bytes of a container.
pub fn pack(cases: &[Case]) -> Vec<u8> {
    let mut bytes = number(cases.len()).to_vec();
    for case in cases {
        let strings: [&[u8]; 4] = [
            &case.text,
            &case.records,
            case.expected.as_bytes(),
            case.label.as_bytes(),
        ];
        for string in strings {
            bytes.extend(number(string.len()));
            bytes.extend(string);
        }
    }
    bytes
}

/// The cases of a container, or `None` if its bytes do not fit.
pub fn unpack(bytes: &[u8]) -> Option<Vec<Case>> {
    let mut rest = bytes;
    let count = take_number(&mut rest)?;
    let cases: Option<Vec<Case>> = (0..count).map(|_| take_case(&mut rest)).collect();
    cases.filter(|_| rest.is_empty())
}

fn take<'a>(rest: &mut &'a [u8], length: usize) -> Option<&'a [u8]> {
    let front = rest.get(..length)?;
    *rest = &rest[length..];
    Some(front)
}

fn take_number(rest: &mut &[u8]) -> Option<usize> {
    let bytes = take(rest, 4)?;
    Some(u32::from_le_bytes(bytes.try_into().ok()?) as usize)
}

fn take_string(rest: &mut &[u8]) -> Option<Vec<u8>> {
    let length = take_number(rest)?;
    take(rest, length).map(<[u8]>::to_vec)
}

fn take_case(rest: &mut &[u8]) -> Option<Case> {
    Some(Case {
        text: take_string(rest)?,
        records: take_string(rest)?,
        expected: String::from_utf8(take_string(rest)?).ok()?,
        label: String::from_utf8(take_string(rest)?).ok()?,
    })
}

/// The expected lines, each with its line feed.
pub fn lines(cases: &[Case]) -> String {
    cases
        .iter()
        .map(|case| format!("{}\n", case.expected))
        .collect()
}

/// Writes a folder for each case.
pub fn write_folders(cases: &[Case], folder: &Path) -> io::Result<()> {
    for (number, case) in (1..).zip(cases) {
        let place = folder.join(format!("{number:05}"));
        fs::create_dir_all(&place)?;
        fs::write(place.join("formula.dq"), &case.text)?;
        fs::write(place.join("steps.bin"), &case.records)?;
        fs::write(place.join("expected"), format!("{}\n", case.expected))?;
        fs::write(place.join("label"), format!("{}\n", case.label))?;
    }
    Ok(())
}

/// Writes a file for each case: the text, a 0 byte and the records.
pub fn write_joined(cases: &[Case], folder: &Path) -> io::Result<()> {
    fs::create_dir_all(folder)?;
    for (number, case) in (1..).zip(cases) {
        let bytes = [&case.text[..], &[0], &case.records].concat();
        fs::write(folder.join(format!("{number:05}")), bytes)?;
    }
    Ok(())
}
