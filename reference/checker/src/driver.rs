//! Document 01, "The four lent tables", its last paragraph, with Notes 1 and 6 of
//! document 02: the driver's calls over byte buffers, each table as its entries in
//! little-endian bytes and the state as its eight counts of 16 bits.

use crate::calls::Lent;
use crate::limits;
use crate::refusal::{FormulaRefusal, Number};
use crate::state::Counts;
use crate::tables::Tables;
use crate::verdict::Verdict;

/// The bytes that each table and the state need.
pub const SIZES: [usize; 5] = [
    2 * limits::LITERALS,
    2 * limits::CLAUSES,
    8 * limits::WORDS,
    limits::VARIABLES,
    16,
];

/// The driver's buffers of any lengths: literals, ends, sets, kinds, state.
#[derive(Clone, Debug, PartialEq, Eq)]
pub struct Buffers(pub [Vec<u8>; 5]);

impl Buffers {
    /// Zero buffers of the sizes needed.
    pub fn zero() -> Buffers {
        Buffers(SIZES.map(|size| vec![0; size]))
    }

    /// The tables and counts in the buffers; too few bytes in any is 1.
    fn lent(&self) -> Result<Lent, Number> {
        let enough = self.0.iter().zip(SIZES).all(|(b, size)| b.len() >= size);
        if !enough {
            return Err(Number::TooShort);
        }
        let part = |i: usize| &self.0[i][..SIZES[i]];
        let count = |i: usize| u16::from_le_bytes([self.0[4][2 * i], self.0[4][2 * i + 1]]);
        Ok(Lent {
            tables: Tables::of_bytes([part(0), part(1), part(2), part(3)]),
            counts: Counts::of_array([0, 1, 2, 3, 4, 5, 6, 7].map(count)),
        })
    }

    /// Writes back; bytes past the sizes stay.
    fn put(&mut self, lent: &Lent) {
        let [literals, ends, sets, kinds] = lent.tables.bytes();
        let whole = [literals, ends, sets, kinds, lent.counts.bytes()];
        for (buffer, bytes) in self.0.iter_mut().zip(whole) {
            buffer[..bytes.len()].copy_from_slice(&bytes);
        }
    }

    /// Loads a text. With too few bytes only a state lent whole is zeroed.
    pub fn load(&mut self, text: &[u8]) -> Result<(), FormulaRefusal> {
        match self.lent() {
            Ok(mut lent) => {
                let outcome = lent.load(text);
                self.put(&lent);
                outcome
            }
            Err(number) => {
                if let Some(state) = self.0[4].get_mut(..SIZES[4]) {
                    state.fill(0);
                }
                Err(FormulaRefusal { line: 0, number })
            }
        }
    }

    /// Takes a list of records.
    pub fn run(&mut self, list: &[u8]) -> Verdict {
        match self.lent() {
            Ok(mut lent) => {
                let verdict = lent.run(list);
                self.put(&lent);
                verdict
            }
            Err(number) => Verdict::bad(0, number),
        }
    }

    /// The stretch of a clause, in entries of the literals.
    pub fn show(&self, number: u32) -> std::ops::Range<usize> {
        self.lent().map_or(0..0, |lent| lent.show(number))
    }

    /// The length of a clause, or 1, 2, 21.
    pub fn clause_length(&self, number: u32) -> Result<usize, Number> {
        self.lent()?.clause_length(number)
    }

    /// Kind and number of universals in the set of a variable, or 1, 2, 22.
    pub fn variable(&self, number: u32) -> Result<(u8, usize), Number> {
        self.lent()?.variable(number)
    }

    /// Writes the tidy text to the front of the output: its length, or 1, 2, 30.
    pub fn write(&self, out: &mut [u8]) -> Result<usize, Number> {
        self.lent()?.write(out)
    }
}
