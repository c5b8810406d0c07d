//! One case: what goes in and the line that must come out.

use checker::records::record;

/// A text and a list of records with the line expected for them.
#[derive(Clone, Debug, PartialEq, Eq)]
pub struct Case {
    /// What the case is for.
    pub label: String,
    pub text: Vec<u8>,
    pub records: Vec<u8>,
    /// The line without its line feed.
    pub expected: String,
}

/// A record as its kind and its three words; negative words are signed ones.
pub type Words = (u8, [i64; 3]);

/// The bytes of some records.
pub fn bytes_of(records: &[Words]) -> Vec<u8> {
    let each = records.iter();
    each.flat_map(|&(kind, words)| record(kind, words.map(|word| word as u32)))
        .collect()
}

impl Case {
    /// A case whose line is the reference checker's.
    pub fn checked(label: impl Into<String>, text: Vec<u8>, records: Vec<u8>) -> Case {
        let expected = checker::check(&text, &records).to_string();
        Case {
            label: label.into(),
            text,
            records,
            expected,
        }
    }
}
