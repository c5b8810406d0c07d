//! Records and the three rules.

use crate::sets::{contained, intersection, union, word_of, Set, EMPTY};
use crate::tables::{Tables, CLAUSES, LITERALS, VARIABLES, WIDTH};

const RECORD: usize = 16;
const LIST: usize = 32_768;
/// No variable stands in both signs.
const NONE: u16 = u16::MAX;

/// Takes a list up to its first refused step: its place and refusal. A refusal is
/// its number; 23 has its variable in the 16 bits above.
pub fn run(records: &[u8], tables: &mut Tables) -> Result<(), (u64, u64)> {
    if records.len() > LIST {
        return Err((0, 11));
    }
    for (index, record) in records.chunks(RECORD).enumerate() {
        step(record, tables).map_err(|refusal| (index as u64 + 1, refusal))?;
    }
    Ok(())
}

fn step(record: &[u8], tables: &mut Tables) -> Result<(), u64> {
    let record: &[u8; RECORD] = record.try_into().map_err(|_| 20u64)?;
    let word = |at: usize| {
        let bytes = record[at..at + 4].try_into().expect("four bytes");
        u32::from_le_bytes(bytes)
    };
    let (clause, second, third) = (word(4), word(8), word(12));
    match word(0) {
        1 => resolution(tables, clause, second, third as i32),
        2 if second == 0 => reduction(tables, clause, third as i32),
        3 => fork(tables, clause, second, third),
        _ => Err(20),
    }?;
    tables.counts.steps += 1;
    Ok(())
}

/// A literal fits into 16 bits if it stands in a clause; 0 never does.
fn narrow(literal: i64) -> i16 {
    i16::try_from(literal).unwrap_or(0)
}

/// In the order 21, 22, 23, 24, 25.
fn resolution(tables: &mut Tables, first: u32, second: u32, pivot: i32) -> Result<(), u64> {
    let (start, end) = tables.stretch(first).ok_or(21u64)?;
    let first = &tables.literals[start..end];
    let (start, end) = tables.stretch(second).ok_or(21u64)?;
    let second = &tables.literals[start..end];
    let (pivot, complement) = (narrow(pivot.into()), narrow(-i64::from(pivot)));
    if !first.contains(&pivot) || !second.contains(&complement) {
        return Err(22);
    }
    let mut new = [0; 2 * WIDTH];
    let (length, lowest) = merge(first, second, pivot, &mut new);
    if lowest != NONE {
        return Err(23 | u64::from(lowest) << 16);
    }
    if length > WIDTH {
        return Err(24);
    }
    room(tables, 1, length, 0)?;
    tables.add(&new[..length]);
    Ok(())
}

/// Writes both clauses without the pivot's variable, by variables: the number of
/// different literals, and the lowest variable in both signs or `NONE`.
fn merge(first: &[i16], second: &[i16], pivot: i16, new: &mut [i16; 2 * WIDTH]) -> (usize, u16) {
    let (mut i, mut j, mut length, mut lowest) = (0, 0, 0, NONE);
    loop {
        let one = first.get(i).copied();
        let other = second.get(j).copied();
        let literal = match (one, other) {
            (None, None) => return (length, lowest),
            (Some(l), None) => (l, 1, 0),
            (None, Some(m)) => (m, 0, 1),
            (Some(l), Some(m)) if l == m => (l, 1, 1),
            (Some(l), Some(m)) if l.unsigned_abs() <= m.unsigned_abs() => (l, 1, 0),
            (Some(_), Some(m)) => (m, 0, 1),
        };
        i += literal.1;
        j += literal.2;
        let variable = literal.0.unsigned_abs();
        if variable == pivot.unsigned_abs() {
            continue;
        }
        let paired = length > 0 && new[length - 1] == -literal.0;
        lowest = lowest.min(if paired { variable } else { NONE });
        new[length] = literal.0;
        length += 1;
    }
}

fn reduction(tables: &mut Tables, clause: u32, literal: i32) -> Result<(), u64> {
    let (start, end) = tables.stretch(clause).ok_or(21u64)?;
    let old = &tables.literals[start..end];
    let literal = narrow(literal.into());
    let place = old.iter().position(|&l| l == literal).ok_or(22u64)?;
    if tables.kind(literal) != 1 {
        return Err(26);
    }
    let mut new = [0; WIDTH];
    new[..place].copy_from_slice(&old[..place]);
    new[place..old.len() - 1].copy_from_slice(&old[place + 1..]);
    let rest = &new[..old.len() - 1];
    let single = tables.set(literal);
    let word = word_of(single);
    let others = rest.iter().fold(0, |all, &l| all | tables.set(l)[word]);
    if others & single[word] != 0 {
        return Err(27);
    }
    room(tables, 1, rest.len(), 0)?;
    tables.add(rest);
    Ok(())
}

fn fork(tables: &mut Tables, clause: u32, left: u32, right: u32) -> Result<(), u64> {
    let (start, end) = tables.stretch(clause).ok_or(21u64)?;
    let old = &tables.literals[start..end];
    if u64::from(left | right) != (1 << old.len()) - 1 {
        return Err(28);
    }
    let new = tables.counts.variables as i16 + 1;
    let (left, left_length, left_set) = part(tables, old, left, new);
    let (right, right_length, right_set) = part(tables, old, right, -new);
    if contained(left_set, right_set) || contained(right_set, left_set) {
        return Err(29);
    }
    room(tables, 2, left_length + right_length, 1)?;
    tables.kinds[tables.counts.variables] = 3;
    tables.sets[tables.counts.variables] = intersection(left_set, right_set);
    tables.counts.variables += 1;
    tables.add(&left[..left_length]);
    tables.add(&right[..right_length]);
    Ok(())
}

/// The literals that a mask picks with the new one behind them, and their set.
fn part(tables: &Tables, old: &[i16], mask: u32, new: i16) -> ([i16; WIDTH + 1], usize, Set) {
    let (mut part, mut length, mut set) = ([0; WIDTH + 1], 0, EMPTY);
    for (place, &literal) in old.iter().enumerate() {
        if mask >> place & 1 == 1 {
            part[length] = literal;
            length += 1;
            set = union(set, tables.set(literal));
        }
    }
    part[length] = new;
    (part, length + 1, set)
}

fn room(tables: &Tables, clauses: usize, literals: usize, variables: usize) -> Result<(), u64> {
    let counts = &tables.counts;
    let fits = counts.clauses + clauses <= CLAUSES
        && counts.literals + literals <= LITERALS
        && counts.variables + variables <= VARIABLES;
    if fits {
        Ok(())
    } else {
        Err(25)
    }
}
