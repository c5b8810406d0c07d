//! The four tables and the state in flat arrays; the driver's little-endian
//! bytes are read into them and written from them.

use crate::sets::{Set, EMPTY, WORDS};
use crate::{Lent, Shared};

pub const LITERALS: usize = 8_192;
pub const CLAUSES: usize = 2_048;
pub const VARIABLES: usize = 512;
pub const UNIVERSALS: usize = 64 * WORDS;
pub const WIDTH: usize = 32;

/// The bytes that each table and the state need.
pub const SIZES: [usize; 5] = [2 * LITERALS, 2 * CLAUSES, SET * VARIABLES, VARIABLES, 16];

/// The bytes of one set.
const SET: usize = 8 * WORDS;

/// The state, in the order of its bytes.
#[derive(Clone, Copy)]
pub struct Counts {
    /// V of the header.
    pub bound: usize,
    pub variables: usize,
    pub universals: usize,
    pub formula: usize,
    pub clauses: usize,
    pub literals: usize,
    pub steps: usize,
    /// The lowest empty clause; 0: none.
    pub empty: usize,
}

pub struct Tables {
    pub literals: [i16; LITERALS],
    pub ends: [u16; CLAUSES],
    pub sets: [Set; VARIABLES],
    pub kinds: [u8; VARIABLES],
    pub counts: Counts,
}

pub fn too_short(lent: &Shared) -> bool {
    (0..5).any(|i| lent[i].len() < SIZES[i])
}

/// Whether whole words of bytes are 0, with no branch between them.
fn are_zero(bytes: &[u8]) -> bool {
    let words = bytes.chunks_exact(8);
    let word = |chunk: &[u8]| u64::from_le_bytes(chunk.try_into().expect("eight bytes"));
    words.fold(0, |all, chunk| all | word(chunk)) == 0
}

fn take<T, const N: usize>(entries: &mut [T], bytes: &[u8], read: fn([u8; N]) -> T) {
    for (entry, chunk) in entries.iter_mut().zip(bytes.chunks_exact(N)) {
        *entry = read(chunk.try_into().expect("chunks have N bytes"));
    }
}

fn put<T: Copy, const N: usize>(bytes: &mut [u8], entries: &[T], write: fn(T) -> [u8; N]) {
    for (chunk, entry) in bytes.chunks_exact_mut(N).zip(entries) {
        chunk.copy_from_slice(&write(*entry));
    }
}

impl Counts {
    fn of(state: &[u8]) -> Counts {
        let count = |i: usize| usize::from(u16::from_le_bytes([state[2 * i], state[2 * i + 1]]));
        Counts {
            bound: count(0),
            variables: count(1),
            universals: count(2),
            formula: count(3),
            clauses: count(4),
            literals: count(5),
            steps: count(6),
            empty: count(7),
        }
    }

    fn entries(&self) -> [u16; 8] {
        let counts = [self.bound, self.variables, self.universals, self.formula];
        let more = [self.clauses, self.literals, self.steps, self.empty];
        let mut entries = [0; 8];
        for (entry, count) in entries.iter_mut().zip(counts.into_iter().chain(more)) {
            *entry = count as u16;
        }
        entries
    }
}

impl Tables {
    pub fn zero() -> Tables {
        Tables {
            literals: [0; LITERALS],
            ends: [0; CLAUSES],
            sets: [EMPTY; VARIABLES],
            kinds: [0; VARIABLES],
            counts: Counts::of(&[0; 16]),
        }
    }

    /// Takes well-formed tables into zero ones, or tells 1 or 2. Of the sets, which
    /// are the most bytes, those of variables in use are taken.
    pub fn read(&mut self, lent: &Shared) -> Result<(), u64> {
        if too_short(lent) {
            return Err(1);
        }
        self.counts = Counts::of(lent[4]);
        let in_use = self.counts.variables.min(VARIABLES);
        let (used, rest) = lent[2][..SIZES[2]].split_at(SET * in_use);
        take(&mut self.literals, lent[0], i16::from_le_bytes);
        take(&mut self.ends, lent[1], u16::from_le_bytes);
        take(self.sets.as_flattened_mut(), used, u64::from_le_bytes);
        self.kinds.copy_from_slice(&lent[3][..VARIABLES]);
        if self.well_formed() && are_zero(rest) {
            Ok(())
        } else {
            Err(2)
        }
    }

    /// Writes all entries and the state.
    pub fn write(&self, lent: &mut Lent) {
        put(lent[0], &self.literals, i16::to_le_bytes);
        put(lent[1], &self.ends, u16::to_le_bytes);
        put(lent[2], self.sets.as_flattened(), u64::to_le_bytes);
        lent[3][..VARIABLES].copy_from_slice(&self.kinds);
        put(lent[4], &self.counts.entries(), u16::to_le_bytes);
    }

    /// Writes the entries behind the earlier counts, and the state.
    pub fn write_added(&self, before: &Counts, lent: &mut Lent) {
        let (literals, clauses) = (before.literals, before.clauses);
        let (old, new) = (before.variables, self.counts.variables);
        let added = &self.literals[literals..self.counts.literals];
        put(&mut lent[0][2 * literals..], added, i16::to_le_bytes);
        let added = &self.ends[clauses..self.counts.clauses];
        put(&mut lent[1][2 * clauses..], added, u16::to_le_bytes);
        let added = self.sets[old..new].as_flattened();
        put(&mut lent[2][SET * old..], added, u64::to_le_bytes);
        lent[3][old..new].copy_from_slice(&self.kinds[old..new]);
        put(lent[4], &self.counts.entries(), u16::to_le_bytes);
    }

    /// Start and end of a clause among the literals.
    pub fn stretch(&self, clause: u32) -> Option<(usize, usize)> {
        let index = clause.wrapping_sub(1) as usize;
        if index >= self.counts.clauses {
            return None;
        }
        let start = if index == 0 { 0 } else { self.ends[index - 1] };
        Some((start.into(), self.ends[index].into()))
    }

    /// Adds a clause that fits.
    pub fn add(&mut self, literals: &[i16]) {
        let start = self.counts.literals;
        let end = start + literals.len();
        self.literals[start..end].copy_from_slice(literals);
        self.ends[self.counts.clauses] = end as u16;
        self.counts.literals = end;
        self.counts.clauses += 1;
        if literals.is_empty() && self.counts.empty == 0 {
            self.counts.empty = self.counts.clauses;
        }
    }

    /// The kind of a literal's variable, which is in use.
    pub fn kind(&self, literal: i16) -> u8 {
        self.kinds[usize::from(literal.unsigned_abs()) - 1]
    }

    /// The set of a literal's variable, which is in use.
    pub fn set(&self, literal: i16) -> Set {
        self.sets[usize::from(literal.unsigned_abs()) - 1]
    }
}
