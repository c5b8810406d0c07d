//! Dependency sets as the four words of a buffer, and the forks and reductions of a
//! list with the sets that decide them.

use checker::limits::SET_WORDS;
use checker::records::{decode, Step};
use differential::library::{Lean, Lent, Library, Shared};

pub type Set = [u64; SET_WORDS];

/// An entry of 16 bits.
pub fn count(buffer: &[u8], index: usize) -> usize {
    usize::from(u16::from_le_bytes([
        buffer[2 * index],
        buffer[2 * index + 1],
    ]))
}

/// The set of a variable.
pub fn set(sets: &[u8], variable: usize) -> Set {
    let words = sets[32 * (variable - 1)..32 * variable].chunks_exact(8);
    let mut words = words.map(|word| u64::from_le_bytes(word.try_into().expect("eight bytes")));
    [(); SET_WORDS].map(|()| words.next().expect("four words"))
}

/// A fork or a reduction that is accepted, or refused because of its sets.
#[derive(Clone)]
pub enum Decided {
    /// The sets of the literals of both parts.
    Fork([Vec<Set>; 2]),
    /// The set of the literal, and those of the others.
    Reduction(Set, Vec<Set>),
}

/// A step that the sets decide, at its place in the list, counted from 1.
#[derive(Clone)]
pub struct Examined {
    pub step: usize,
    pub accepted: bool,
    pub decided: Decided,
}

/// The sets of the literals of a clause that is there.
fn sets_of(lent: Shared, clause: u32) -> Vec<(i32, Set)> {
    let end = |number: u32| match number {
        0 => 0,
        _ => count(lent[1], number as usize - 1),
    };
    let literals = (end(clause - 1)..end(clause)).map(|at| count(lent[0], at) as u16 as i16);
    literals
        .map(|literal| (literal.into(), set(lent[2], literal.unsigned_abs().into())))
        .collect()
}

/// What decides a record over tables on which it is accepted, or refused with 27 or
/// 29.
fn decided(record: &[u8], lent: Shared) -> Option<Decided> {
    match decode(record)? {
        Step::Fork {
            clause,
            left,
            right,
        } => {
            let sets = sets_of(lent, clause);
            let part = |mask: u32| {
                let picked = sets.iter().enumerate().filter(|(i, _)| mask >> i & 1 == 1);
                picked.map(|(_, &(_, set))| set).collect()
            };
            Some(Decided::Fork([part(left), part(right)]))
        }
        Step::Reduction { clause, literal } => {
            let (one, others) = sets_of(lent, clause)
                .into_iter()
                .partition::<Vec<_>, _>(|&(each, _)| each == literal);
            let others = others.into_iter().map(|(_, set)| set).collect();
            Some(Decided::Reduction(one[0].1, others))
        }
        Step::Resolution { .. } => None,
    }
}

/// The steps of a list that the sets decide, over buffers before the run.
pub fn examined(records: &[u8], lent: Shared) -> Vec<Examined> {
    let mut buffers = lent.map(<[u8]>::to_vec);
    let mut all = Vec::new();
    if records.len() > 32_768 {
        return all;
    }
    for (index, record) in records.chunks(16).enumerate() {
        let before = buffers.clone();
        let told = Lean.run(record, lent_of(&mut buffers));
        let [tag, _, number, _] = differential::compare::fields(told);
        let accepted = tag != 3;
        if accepted || number == 27 || number == 29 {
            let decided = decided(record, before.each_ref().map(Vec::as_slice));
            all.extend(decided.map(|decided| Examined {
                step: index + 1,
                accepted,
                decided,
            }));
        }
        if !accepted {
            break;
        }
    }
    all
}

/// Buffers lent to a call that writes.
pub fn lent_of(buffers: &mut [Vec<u8>; 5]) -> Lent<'_> {
    buffers.each_mut().map(Vec::as_mut_slice)
}
