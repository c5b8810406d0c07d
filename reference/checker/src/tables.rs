//! Document 01, "The four lent tables", with Note 6 of document 02: what the
//! tables must hold for a state, as entries and as the driver's little-endian
//! bytes.

use crate::clause::{numbers_of, Clause};
use crate::limits;
use crate::state::{Counts, State, Variable};

/// The entries of the four tables.
#[derive(Clone, Debug, PartialEq, Eq)]
pub struct Tables {
    /// The clauses, one behind the other.
    pub literals: Vec<i16>,
    /// The end of clause 1, 2, .. in the literals.
    pub ends: Vec<u16>,
    /// The dependency set of variable 1, 2, .., four words each, lowest bits first.
    pub sets: Vec<u64>,
    /// 0 undeclared, 1 universal, 2 existential, 3 fork.
    pub kinds: Vec<u8>,
}

impl Tables {
    /// Zeros over the stated sizes, as a refused load leaves them.
    pub fn zero() -> Tables {
        Tables {
            literals: vec![0; limits::LITERALS],
            ends: vec![0; limits::CLAUSES],
            sets: vec![0; limits::WORDS],
            kinds: vec![0; limits::VARIABLES],
        }
    }

    /// Whether every table has at least its stated size.
    pub fn are_long_enough(&self) -> bool {
        self.literals.len() >= limits::LITERALS
            && self.ends.len() >= limits::CLAUSES
            && self.sets.len() >= limits::WORDS
            && self.kinds.len() >= limits::VARIABLES
    }

    /// Overwrites the stated sizes; entries of longer tables past them stay.
    pub fn overwrite(&mut self, fixed: &Tables) {
        self.literals[..limits::LITERALS].copy_from_slice(&fixed.literals);
        self.ends[..limits::CLAUSES].copy_from_slice(&fixed.ends);
        self.sets[..limits::WORDS].copy_from_slice(&fixed.sets);
        self.kinds[..limits::VARIABLES].copy_from_slice(&fixed.kinds);
    }

    /// The little-endian bytes of the four tables.
    pub fn bytes(&self) -> [Vec<u8>; 4] {
        [
            self.literals.iter().flat_map(|e| e.to_le_bytes()).collect(),
            self.ends.iter().flat_map(|e| e.to_le_bytes()).collect(),
            self.sets.iter().flat_map(|e| e.to_le_bytes()).collect(),
            self.kinds.clone(),
        ]
    }

    /// The tables of little-endian bytes; a last entry that is cut is left out.
    pub fn of_bytes(bytes: [&[u8]; 4]) -> Tables {
        Tables {
            literals: entries(bytes[0], i16::from_le_bytes),
            ends: entries(bytes[1], u16::from_le_bytes),
            sets: entries(bytes[2], u64::from_le_bytes),
            kinds: bytes[3].to_vec(),
        }
    }
}

fn entries<T, const N: usize>(bytes: &[u8], read: fn([u8; N]) -> T) -> Vec<T> {
    let whole = bytes.chunks_exact(N);
    whole
        .map(|chunk| read(chunk.try_into().expect("chunks have N bytes")))
        .collect()
}

impl Counts {
    /// The counts in the order of document 01.
    pub fn array(&self) -> [u16; 8] {
        [
            self.header_variables,
            self.variables,
            self.universals,
            self.formula_clauses,
            self.clauses,
            self.literals,
            self.steps,
            self.lowest_empty,
        ]
    }

    pub fn of_array(counts: [u16; 8]) -> Counts {
        let [header_variables, variables, universals, formula_clauses, clauses, literals, steps, lowest_empty] =
            counts;
        Counts {
            header_variables,
            variables,
            universals,
            formula_clauses,
            clauses,
            literals,
            steps,
            lowest_empty,
        }
    }

    /// The state's bytes: 16 bits each, little-endian.
    pub fn bytes(&self) -> Vec<u8> {
        self.array().iter().flat_map(|c| c.to_le_bytes()).collect()
    }
}

/// What the four tables must hold for a state, zeros behind it.
pub fn export(state: &State) -> Tables {
    let variables = state.variables();
    Tables {
        literals: padded(literals_of(state.clauses()), limits::LITERALS),
        ends: padded(ends_of(state.clauses()), limits::CLAUSES),
        sets: padded(
            variables.iter().flat_map(|v| words(state, v)).collect(),
            limits::WORDS,
        ),
        kinds: padded(
            variables.iter().map(|v| v.kind as u8).collect(),
            limits::VARIABLES,
        ),
    }
}

fn padded<T: Clone + Default>(mut used: Vec<T>, size: usize) -> Vec<T> {
    assert!(
        used.len() <= size,
        "the limits keep a state within the tables"
    );
    used.resize(size, T::default());
    used
}

fn literals_of(clauses: &[Clause]) -> Vec<i16> {
    let numbers = clauses.iter().flat_map(numbers_of);
    numbers
        .map(|number| i16::try_from(number).expect("at most 512 variables"))
        .collect()
}

fn ends_of(clauses: &[Clause]) -> Vec<u16> {
    let ends = clauses.iter().scan(0, |end, clause| {
        *end += clause.len() as u16;
        Some(*end)
    });
    ends.collect()
}

/// A set as its words: universals take bits 0, 1, .. in order of declaration,
/// and every word holds the next 64 of them.
fn words(state: &State, variable: &Variable) -> Vec<u64> {
    let mut places = state.universals().chunks(64);
    let word = |universals: &[u32]| {
        let bits = universals.iter().enumerate();
        bits.filter(|(_, universal)| variable.set.contains(universal))
            .fold(0, |word, (bit, _)| word | 1 << bit)
    };
    (0..limits::SET_WORDS)
        .map(|_| places.next().map_or(0, word))
        .collect()
}
