//! Document 01, "Formula text": lines, tokens and numbers.

use crate::clause::Literal;
use crate::limits::DIGITS;

/// One line without its line feed.
#[derive(Clone, Copy, Debug, PartialEq, Eq)]
pub struct Line<'a> {
    pub bytes: &'a [u8],
    /// Whether a line feed ended it; only the last line can lack it.
    pub ended: bool,
}

/// The lines of a text; an empty text has none.
pub fn lines(text: &[u8]) -> Vec<Line<'_>> {
    text.split_inclusive(|&byte| byte == b'\n')
        .map(|piece| match piece.strip_suffix(b"\n") {
            Some(bytes) => Line { bytes, ended: true },
            None => Line {
                bytes: piece,
                ended: false,
            },
        })
        .collect()
}

/// The tokens of a line, parted by one or more spaces.
///
/// `None` if the line is empty or a space leads or trails.
pub fn tokens(line: &[u8]) -> Option<Vec<&[u8]>> {
    let outer = [line.first()?, line.last()?];
    if outer.contains(&&b' ') {
        return None;
    }
    let pieces = line.split(|&byte| byte == b' ');
    Some(pieces.filter(|piece| !piece.is_empty()).collect())
}

/// A number: 0, or one to five digits that do not begin with 0.
pub fn number(token: &[u8]) -> Option<u32> {
    if token == b"0" {
        return Some(0);
    }
    let digits = token.iter().all(u8::is_ascii_digit);
    if !digits || token.is_empty() || token.len() > DIGITS || token[0] == b'0' {
        return None;
    }
    let value = |sum: u32, digit: &u8| sum * 10 + u32::from(digit - b'0');
    Some(token.iter().fold(0, value))
}

/// A variable: a number that is not 0.
pub fn variable(token: &[u8]) -> Option<u32> {
    number(token).filter(|&value| value != 0)
}

/// A clause literal: a variable, or a minus and a variable.
pub fn literal(token: &[u8]) -> Option<Literal> {
    match token.strip_prefix(b"-") {
        Some(rest) => variable(rest).map(Literal::negative),
        None => variable(token).map(Literal::positive),
    }
}

#[cfg(test)]
mod tests {
    use super::*;

    #[test]
    fn lines_keep_the_unended_last_one() {
        let found: Vec<_> = lines(b"a\n\nb")
            .iter()
            .map(|l| (l.bytes, l.ended))
            .collect();
        let wanted: [(&[u8], bool); 3] = [(b"a", true), (b"", true), (b"b", false)];
        assert_eq!(found, wanted);
        assert!(lines(b"").is_empty());
        assert_eq!(lines(b"\n").len(), 1);
    }

    #[test]
    fn tokens_refuse_outer_spaces() {
        let wanted: [&[u8]; 2] = [b"a", b"1"];
        assert_eq!(tokens(b"a   1").unwrap(), wanted);
        for line in [&b""[..], b" ", b" a", b"a "] {
            assert_eq!(tokens(line), None);
        }
    }

    #[test]
    fn numbers_have_one_form() {
        assert_eq!(number(b"0"), Some(0));
        assert_eq!(number(b"99999"), Some(99_999));
        let wrong: [&[u8]; 9] = [
            b"", b"00", b"01", b"100000", b"-0", b"-1", b"+1", b"1\r", b"\t1",
        ];
        for token in wrong {
            assert_eq!(number(token), None, "{token:?}");
        }
    }

    #[test]
    fn a_minus_stands_before_a_variable_only() {
        assert_eq!(literal(b"-7"), Some(Literal::negative(7)));
        assert_eq!(literal(b"7"), Some(Literal::positive(7)));
        for token in [&b"-"[..], b"-0", b"0", b"--1", b"-01", b"- 1", b"1-"] {
            assert_eq!(literal(token), None, "{token:?}");
        }
    }
}
