//! Document 01, "The four lent tables" and the effects stated at the end of
//! "Numbers of refusal", with Note 1 of document 02: what each call does to the
//! tables, the state and the output that are lent to it.

use std::ops::Range;

use crate::refusal::{FormulaRefusal, Number};
use crate::state::{Counts, State};
use crate::tables::{export, Tables};
use crate::tidy;
use crate::verdict::Verdict;
use crate::wellformed::rebuild;

/// Tables of any contents and lengths with the counts that go with them.
#[derive(Clone, Debug, PartialEq, Eq)]
pub struct Lent {
    pub tables: Tables,
    pub counts: Counts,
}

impl Lent {
    /// Zero tables of the stated sizes and a zero state.
    pub fn zero() -> Lent {
        Lent {
            tables: Tables::zero(),
            counts: Counts::default(),
        }
    }

    fn state(&self) -> Result<State, Number> {
        rebuild(&self.tables, &self.counts)
    }

    fn put(&mut self, state: &State) {
        self.tables.overwrite(&export(state));
        self.counts = state.counts();
    }

    /// Loads a text. Refusal 1 keeps the tables, every other one zeroes them;
    /// each refusal hands back a zero state.
    pub fn load(&mut self, text: &[u8]) -> Result<(), FormulaRefusal> {
        self.counts = Counts::default();
        if !self.tables.are_long_enough() {
            let number = Number::TooShort;
            return Err(FormulaRefusal { line: 0, number });
        }
        let loaded = State::load(text);
        self.put(loaded.as_ref().unwrap_or(&State::default()));
        loaded.map(|_| ())
    }

    /// Takes the record at the front of the bytes. A refusal carries step 0 for
    /// the numbers 1 and 2, else step 1.
    pub fn step(&mut self, bytes: &[u8]) -> Result<(), (usize, Number)> {
        let mut state = self.state().map_err(|number| (0, number))?;
        state.step(bytes).map_err(|number| (1, number))?;
        self.put(&state);
        Ok(())
    }

    /// Takes a list; the steps accepted before a refused one stay.
    pub fn run(&mut self, list: &[u8]) -> Verdict {
        match self.state() {
            Err(number) => Verdict::bad(0, number),
            Ok(mut state) => {
                let verdict = state.run(list);
                self.put(&state);
                verdict
            }
        }
    }

    /// The stretch of the literals that is the clause; an empty one at the
    /// start for an unknown number, short or ill-formed tables.
    pub fn show(&self, number: u32) -> Range<usize> {
        if self.clause_length(number).is_err() {
            return 0..0;
        }
        let end = |index: usize| usize::from(self.tables.ends[index]);
        let index = number as usize - 1;
        let start = if index == 0 { 0 } else { end(index - 1) };
        start..end(index)
    }

    /// The length of a clause, or 1, 2, 21.
    pub fn clause_length(&self, number: u32) -> Result<usize, Number> {
        Ok(self.state()?.clause(number)?.len())
    }

    /// Kind and number of universals in the set of a variable, or 1, 2, 22.
    pub fn variable(&self, number: u32) -> Result<(u8, usize), Number> {
        let (kind, universals) = self.state()?.ask_variable(number)?;
        Ok((kind as u8, universals))
    }

    /// Writes the tidy text to the front of the output: its length, or 1, 2, 30
    /// with the output as it was. What lies behind the text stays.
    pub fn write(&self, out: &mut [u8]) -> Result<usize, Number> {
        let text = tidy::text(&self.state()?);
        let front = out.get_mut(..text.len()).ok_or(Number::ShortOutput)?;
        front.copy_from_slice(text.as_bytes());
        Ok(text.len())
    }
}
