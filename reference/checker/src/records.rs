//! Document 01, "Step records": sixteen bytes each, little-endian.

use crate::limits::RECORD;

/// One step as its record says it.
#[derive(Clone, Copy, Debug, PartialEq, Eq)]
pub enum Step {
    Resolution { first: u32, second: u32, pivot: i32 },
    Reduction { clause: u32, literal: i32 },
    Fork { clause: u32, left: u32, right: u32 },
}

/// The record at the front of the bytes; those behind the sixteenth are not read.
///
/// `None` is refusal 20.
pub fn decode(bytes: &[u8]) -> Option<Step> {
    let record = bytes.get(..RECORD)?;
    let word = |at: usize| u32::from_le_bytes([0, 1, 2, 3].map(|i| record[at + i]));
    if record[1..4] != [0, 0, 0] {
        return None;
    }
    match record[0] {
        1 => Some(Step::Resolution {
            first: word(4),
            second: word(8),
            pivot: word(12) as i32,
        }),
        2 if word(8) == 0 => Some(Step::Reduction {
            clause: word(4),
            literal: word(12) as i32,
        }),
        3 => Some(Step::Fork {
            clause: word(4),
            left: word(8),
            right: word(12),
        }),
        _ => None,
    }
}

/// A record of the given kind and words.
pub fn record(kind: u8, words: [u32; 3]) -> [u8; RECORD] {
    let mut bytes = [0; RECORD];
    bytes[0] = kind;
    for (place, word) in bytes[4..].chunks_exact_mut(4).zip(words) {
        place.copy_from_slice(&word.to_le_bytes());
    }
    bytes
}

/// The record of a step.
pub fn encode(step: Step) -> [u8; RECORD] {
    match step {
        Step::Resolution {
            first,
            second,
            pivot,
        } => record(1, [first, second, pivot as u32]),
        Step::Reduction { clause, literal } => record(2, [clause, 0, literal as u32]),
        Step::Fork {
            clause,
            left,
            right,
        } => record(3, [clause, left, right]),
    }
}

#[cfg(test)]
mod tests {
    use super::*;

    #[test]
    fn words_are_little_endian() {
        let bytes = [1, 0, 0, 0, 1, 2, 0, 0, 0, 0, 1, 0, 0xFE, 0xFF, 0xFF, 0xFF];
        let step = Step::Resolution {
            first: 513,
            second: 65_536,
            pivot: -2,
        };
        assert_eq!(decode(&bytes), Some(step));
        assert_eq!(encode(step), bytes);
    }

    #[test]
    fn bytes_stated_as_zero_are_zero() {
        for kind in 1..=3 {
            let plain = record(kind, [1, 0, 1]);
            assert!(decode(&plain).is_some());
            for at in 1..4 {
                let mut wrong = plain;
                wrong[at] = 1;
                assert_eq!(decode(&wrong), None);
            }
        }
        for at in 8..12 {
            let mut wrong = record(2, [1, 0, 1]);
            wrong[at] = 1;
            assert_eq!(decode(&wrong), None);
        }
    }

    #[test]
    fn kinds_are_one_to_three_and_records_are_whole() {
        for kind in (0..=255).filter(|kind| !(1..=3).contains(kind)) {
            assert_eq!(decode(&record(kind, [1, 0, 1])), None);
        }
        assert_eq!(decode(&record(3, [1, 0, 1])[..15]), None);
        assert_eq!(decode(b""), None);
    }
}
