//! Dependency sets: 256 bits in four words, lowest bits first, by value. The
//! loops over the words have no branches, so that each is a few wide instructions.

use std::array::from_fn;

pub const WORDS: usize = 4;

pub type Set = [u64; WORDS];

pub const EMPTY: Set = [0; WORDS];

/// The set of one place, which is below 256.
pub fn single(place: usize) -> Set {
    let mut set = EMPTY;
    set[place / 64] = 1 << (place % 64);
    set
}

/// The set of the first so many places.
pub fn lowest(count: usize) -> Set {
    from_fn(|word| match count.saturating_sub(64 * word) {
        few @ 0..=63 => (1 << few) - 1,
        _ => u64::MAX,
    })
}

pub fn union(one: Set, other: Set) -> Set {
    from_fn(|word| one[word] | other[word])
}

pub fn intersection(one: Set, other: Set) -> Set {
    from_fn(|word| one[word] & other[word])
}

/// Whether every place of the first is in the second.
pub fn contained(one: Set, other: Set) -> bool {
    (0..WORDS).fold(0, |rest, word| rest | one[word] & !other[word]) == 0
}

/// The number of places.
pub fn size(set: Set) -> u32 {
    set.iter().map(|word| word.count_ones()).sum()
}

/// Whether there is one place: one word is not 0, and has one bit.
pub fn is_single(set: Set) -> bool {
    let used = set.map(|word| u32::from(word != 0));
    let bits = set.iter().fold(0, |bits, word| bits | word);
    used.iter().sum::<u32>() == 1 && bits.is_power_of_two()
}

/// The word of a single place.
pub fn word_of(single: Set) -> usize {
    (1..WORDS).fold(0, |found, word| {
        found + word * usize::from(single[word] != 0)
    })
}

/// The place of a single one.
pub fn place_of(single: Set) -> usize {
    let word = word_of(single);
    64 * word + single[word].trailing_zeros() as usize
}
