//! Document 01, "The four lent tables", "Formula text" and "Numbers of
//! refusal", with Note 6 of document 02: the limits, each named once, and what
//! they make of its Note 1.

/// Bytes of a formula text.
pub const TEXT_BYTES: usize = 32_768;
/// Bytes of a list of step records.
pub const RECORD_BYTES: usize = 32_768;
/// Bytes of one step record.
pub const RECORD: usize = 16;
/// Variables in use; also the entries of the kinds.
pub const VARIABLES: usize = 512;
/// Universals of a formula.
pub const UNIVERSALS: usize = 256;
/// Words of 64 bits for one dependency set.
pub const SET_WORDS: usize = 4;
/// Entries of the sets.
pub const WORDS: usize = SET_WORDS * VARIABLES;
/// Clauses; also the entries of the clause ends.
pub const CLAUSES: usize = 2_048;
/// Literals of all clauses; also the entries of the literals.
pub const LITERALS: usize = 8_192;
/// Different literals of one clause.
pub const WIDTH: usize = 32;
/// Digits of a number in a formula text.
pub const DIGITS: usize = 5;
/// Bytes of an output that is long enough for every tidy text; the longest has
/// 310,183 (`tests/tidy.rs`).
pub const TIDY_BYTES: usize = 311_296;
