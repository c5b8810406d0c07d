//! Document 02, Note 6: tables with one word or one bit of the sets changed, often
//! in a later word of a set.

use checker::calls::Lent;
use checker::limits::{SET_WORDS, UNIVERSALS, VARIABLES};

use crate::lent::place_near;
use crate::random::Random;

/// Changes the sets in one place; by chance they are still well formed.
pub fn change(lent: &mut Lent, random: &mut Random) {
    if lent.counts.universals > 64 && random.chance(30) {
        return repeat_bit(lent, random);
    }
    match random.below(6) {
        0 => change_word(lent, random),
        1 => flip_bit(lent, random),
        2 => take_bit_of_another(lent, random),
        3 => add_bit_behind(lent, random),
        4 => give_undeclared(lent, random),
        _ => fill_behind(lent, random),
    }
}

/// The words of a variable's set; variables are counted from 0 here.
fn set(lent: &mut Lent, variable: usize) -> &mut [u64] {
    &mut lent.tables.sets[SET_WORDS * variable..][..SET_WORDS]
}

/// A variable in use of a kind; any one if there is none.
fn of_kind(lent: &Lent, kind: u8, random: &mut Random) -> usize {
    let in_use = usize::from(lent.counts.variables);
    let kinds = lent.tables.kinds[..in_use].iter().enumerate();
    let found: Vec<usize> = kinds.filter(|&(_, &k)| k == kind).map(|(i, _)| i).collect();
    match found.is_empty() {
        true => random.below(in_use.max(1)),
        false => random.pick(&found),
    }
}

/// A word, for the most part a later one, and a bit in it, often at an end.
fn word_and_bit(lent: &Lent, random: &mut Random) -> (usize, u64) {
    let (any, anywhere) = (random.below(SET_WORDS), random.below(64));
    let next = usize::from(lent.counts.universals) % 64;
    let word = random.pick(&[1, 2, 3, 3, any]);
    (word, 1 << random.pick(&[0, 63, next, anywhere]))
}

/// A word anywhere becomes another one.
fn change_word(lent: &mut Lent, random: &mut Random) {
    let words = SET_WORDS as u16 * lent.counts.variables;
    let (_, bit) = word_and_bit(lent, random);
    let place = place_near(words, lent.tables.sets.len(), random);
    lent.tables.sets[place] = random.pick(&[0, 1, 2, 3, bit, u64::MAX]);
}

/// A bit of a variable in use.
fn flip_bit(lent: &mut Lent, random: &mut Random) {
    let (word, bit) = word_and_bit(lent, random);
    let variable = random.below(usize::from(lent.counts.variables).max(1));
    set(lent, variable)[word] ^= bit;
}

/// A universal has the bit of another one, beside its own or in its place.
fn take_bit_of_another(lent: &mut Lent, random: &mut Random) {
    let [one, other] = [(); 2].map(|()| of_kind(lent, 1, random));
    let taken = set(lent, other).to_vec();
    let beside = random.chance(50);
    for (word, taken) in set(lent, one).iter_mut().zip(taken) {
        *word = if beside { *word | taken } else { taken };
    }
}

/// A universal has its bit in a second word too, where there may be one.
fn repeat_bit(lent: &mut Lent, random: &mut Random) {
    let last = usize::from(lent.counts.universals).div_ceil(64);
    let to = random.below(last);
    let universal = of_kind(lent, 1, random);
    let words = set(lent, universal);
    words[to] = words.iter().fold(0, |bits, word| bits | word);
}

/// A bit behind the lowest places: the next one, or any.
fn add_bit_behind(lent: &mut Lent, random: &mut Random) {
    let kind = random.pick(&[1, 2, 2, 3]);
    let variable = of_kind(lent, kind, random);
    let next = usize::from(lent.counts.universals).min(UNIVERSALS - 1);
    let any = random.between(next, UNIVERSALS - 1);
    let place = random.pick(&[next, any]);
    set(lent, variable)[place / 64] |= 1 << (place % 64);
}

/// An undeclared variable has a set.
fn give_undeclared(lent: &mut Lent, random: &mut Random) {
    let (word, bit) = word_and_bit(lent, random);
    let variable = of_kind(lent, 0, random);
    set(lent, variable)[word] = bit;
}

/// A word behind the variables in use is not 0.
fn fill_behind(lent: &mut Lent, random: &mut Random) {
    let (word, bit) = word_and_bit(lent, random);
    let next = usize::from(lent.counts.variables);
    let variable = random.pick(&[next, next, VARIABLES - 1]);
    set(lent, variable.min(VARIABLES - 1))[word] = bit;
}
