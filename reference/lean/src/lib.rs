//! The driver's calls over byte buffers, made to be fast: flat arrays, one
//! pass over the tables, no allocation. It shares no code with `checker`.
//!
//! A call answers a word of four 16-bit fields, the lowest first: a tag, which is
//! never 0, and its values.
//!
//! | call | tag 1 | another tag |
//! |---|---|---|
//! | load | accepted | 4, refused: line, number |
//! | run | refuted: steps, clause | 2, open: steps; 3, bad: step, number, variable of 23 |
//! | show | place and length in entries; 0 and 0 where a question is refused | |
//! | clause | length | 2, refused: number |
//! | variable | kind, universals | 2, refused: number |
//! | write | length of the text, its low and its high 16 bits | 2, refused: number |

#![forbid(unsafe_code)]

mod formed;
mod sets;
mod steps;
mod tables;
mod text;
mod tidy;

pub use tables::SIZES;

use tables::Tables;

/// The buffers of a call that writes: literals, ends, sets, kinds, state.
pub type Lent<'a> = [&'a mut [u8]; 5];
/// The buffers of a call that only reads.
pub type Shared<'a> = [&'a [u8]; 5];

/// The number of the interface: KEFTHRUN_INTERFACE of include/kefthrun.h.
pub const INTERFACE: u32 = 4;

/// The word of a tag and its values. A refusal of a step may have a variable in the
/// 16 bits above its number, the last field.
fn word(tag: u64, first: u64, second: u64) -> u64 {
    tag | first << 16 | second << 32
}

/// Loads a text into the tables.
pub fn load(text: &[u8], mut lent: Lent) -> u64 {
    if tables::too_short(&shared(&lent)) {
        if let Some(state) = lent[4].get_mut(..SIZES[4]) {
            state.fill(0);
        }
        return word(4, 0, 1);
    }
    let mut tables = Tables::zero();
    let outcome = text::read(text, &mut tables);
    if outcome.is_err() {
        tables = Tables::zero();
    }
    tables.write(&mut lent);
    match outcome {
        Ok(()) => word(1, 0, 0),
        Err((line, number)) => word(4, line, number),
    }
}

/// Takes a list of records.
pub fn run(records: &[u8], mut lent: Lent) -> u64 {
    let mut tables = Tables::zero();
    if let Err(number) = tables.read(&shared(&lent)) {
        return word(3, 0, number);
    }
    let before = tables.counts;
    let outcome = steps::run(records, &mut tables);
    tables.write_added(&before, &mut lent);
    match outcome {
        Err((step, refusal)) => word(3, step, refusal),
        Ok(()) if tables.counts.empty == 0 => word(2, tables.counts.steps as u64, 0),
        Ok(()) => word(1, tables.counts.steps as u64, tables.counts.empty as u64),
    }
}

/// The stretch of a clause, in entries of the literals.
pub fn show(lent: Shared, clause: u32) -> u64 {
    match stretch(lent, clause) {
        Ok((start, end)) => word(1, start as u64, (end - start) as u64),
        Err(_) => word(1, 0, 0),
    }
}

/// The length of a clause.
pub fn clause(lent: Shared, clause: u32) -> u64 {
    match stretch(lent, clause) {
        Ok((start, end)) => word(1, (end - start) as u64, 0),
        Err(number) => word(2, number, 0),
    }
}

/// Kind and number of universals in the set of a variable.
pub fn variable(lent: Shared, variable: u32) -> u64 {
    let mut tables = Tables::zero();
    if let Err(number) = tables.read(&lent) {
        return word(2, number, 0);
    }
    let index = variable.wrapping_sub(1) as usize;
    if index >= tables.counts.variables {
        return word(2, 22, 0);
    }
    let universals = sets::size(tables.sets[index]);
    word(1, tables.kinds[index].into(), universals.into())
}

/// Writes the tidy text of the formula to the front of the output.
pub fn write(out: &mut [u8], lent: Shared) -> u64 {
    let mut tables = Tables::zero();
    let outcome = tables.read(&lent).and_then(|()| tidy::write(&tables, out));
    match outcome {
        Ok(length) => word(1, length as u64 & 0xFFFF, length as u64 >> 16),
        Err(number) => word(2, number, 0),
    }
}

fn stretch(lent: Shared, clause: u32) -> Result<(usize, usize), u64> {
    let mut tables = Tables::zero();
    tables.read(&lent)?;
    tables.stretch(clause).ok_or(21)
}

fn shared<'a>(lent: &'a Lent) -> Shared<'a> {
    [&*lent[0], &*lent[1], &*lent[2], &*lent[3], &*lent[4]]
}
