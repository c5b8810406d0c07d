//! Document 01, "The four lent tables": seeded tables for comparing the calls
//! on any well-formed contents, also those that no list of steps reaches, and
//! tables that are damaged in one place.

use checker::calls::Lent;
use checker::limits::SET_WORDS;
use checker::state::{Counts, State};
use checker::tables::export;

use crate::bordered;
use crate::formulas::{self, random_formula};
use crate::prover::{records_of, Prover};
use crate::random::Random;
use crate::set_damage;

/// Tables with a list of records that has a fair chance on them.
pub struct LentCase {
    pub lent: Lent,
    pub records: Vec<u8>,
}

/// Well-formed tables, numbered by a seed and an index.
pub fn well_formed(seed: u64, index: u64) -> LentCase {
    let random = &mut Random::for_case(seed, index);
    let size = random.pick(&[
        formulas::TINY,
        formulas::FORKED,
        formulas::MEDIUM,
        formulas::WIDE,
        formulas::ALIKE,
    ]);
    let draft = match random.below(8) {
        0 | 1 => bordered::formula(random),
        _ => bordered::sometimes_spread(random_formula(random, size), 10, random),
    };
    let text = draft.plain();
    let start = State::load(&text).expect("drafts are within the limits");
    let mut prover = Prover::new(start, random);
    let tries = prover.random.below(40);
    prover.wander(tries);
    let mut lent = Lent {
        tables: export(&prover.state),
        counts: prover.state.counts(),
    };
    let reached = prover.steps.len();
    permute_bits(&mut lent, random);
    if random.chance(60) {
        change_sets(&mut lent, random);
        change_derived_clauses(&mut lent, random);
        change_steps(&mut lent, random);
    }
    let records = records_for(&lent, reached, random);
    LentCase { lent, records }
}

/// Gives the universals' bits another order.
fn permute_bits(lent: &mut Lent, random: &mut Random) {
    let mut order: Vec<usize> = (0..usize::from(lent.counts.universals)).collect();
    random.shuffle(&mut order);
    for words in lent.tables.sets.chunks_exact_mut(SET_WORDS) {
        let old = words.to_vec();
        words.fill(0);
        for (bit, &to) in order.iter().enumerate() {
            words[to / 64] |= (old[bit / 64] >> (bit % 64) & 1) << (to % 64);
        }
    }
}

/// Gives existentials and fork variables any sets inside the universals.
fn change_sets(lent: &mut Lent, random: &mut Random) {
    let universals = usize::from(lent.counts.universals);
    let words = lent.tables.sets.chunks_exact_mut(SET_WORDS);
    for (kind, words) in lent.tables.kinds.iter().zip(words) {
        if (*kind == 2 || *kind == 3) && random.chance(40) {
            let one = random.below(SET_WORDS);
            let all = random.chance(50);
            for (index, word) in words.iter_mut().enumerate() {
                if all || index == one {
                    *word = random.word() & inside(universals, index);
                }
            }
        }
    }
}

/// The bits of the universals in a word of a set.
fn inside(universals: usize, word: usize) -> u64 {
    let bits = (0..64).filter(|bit| 64 * word + bit < universals);
    bits.fold(0, |inside, bit| inside | 1 << bit)
}

/// Flips literals of derived clauses, which need not follow from anything.
fn change_derived_clauses(lent: &mut Lent, random: &mut Random) {
    let formula = usize::from(lent.counts.formula_clauses);
    let start = match formula {
        0 => 0,
        _ => usize::from(lent.tables.ends[formula - 1]),
    };
    let end = usize::from(lent.counts.literals);
    for literal in &mut lent.tables.literals[start..end] {
        if random.chance(20) {
            *literal = -*literal;
        }
    }
}

/// Calls derived clauses without a fork variable formula clauses, or formula
/// clauses derived ones.
fn change_steps(lent: &mut Lent, random: &mut Random) {
    let counts = &mut lent.counts;
    let forks = counts.variables - counts.header_variables;
    let most = counts.clauses - forks;
    let mut formula = random.between(0, usize::from(most)) as u16;
    let declared = |literal: &i16| literal.unsigned_abs() <= counts.header_variables;
    let ends = &lent.tables.ends[..usize::from(counts.clauses)];
    let literals = &lent.tables.literals;
    let fits = |formula: u16| {
        let end = formula
            .checked_sub(1)
            .map_or(0, |last| ends[usize::from(last)]);
        literals[..usize::from(end)].iter().all(declared)
    };
    while !fits(formula) {
        formula -= 1;
    }
    counts.formula_clauses = formula;
    counts.steps = most - formula;
}

/// Some permitted steps, then one that may be refused, or a resolution with more
/// than one complementary pair or a resolvent that is too wide.
fn records_for(lent: &Lent, tries: usize, random: &mut Random) -> Vec<u8> {
    let state = checker::wellformed::rebuild(&lent.tables, &lent.counts);
    let Ok(state) = state else {
        return Vec::new();
    };
    let mut prover = Prover::new(state, random);
    prover.wander(tries + 20);
    let mut steps = prover.steps.clone();
    match prover.random.below(100) {
        0..=24 => steps.push(prover.random_step()),
        25..=49 => steps.extend(prover.clash()),
        50..=64 => steps.extend(prover.too_wide(true)),
        65..=84 => steps.extend(prover.too_wide(false)),
        _ => (),
    }
    records_of(&steps)
}

/// The same tables with one entry or one count changed.
pub fn damaged(seed: u64, index: u64) -> LentCase {
    let mut case = well_formed(seed, index);
    let random = &mut Random::for_case(!seed, index);
    let tables = &mut case.lent.tables;
    let counts = case.lent.counts;
    let literals = counts.literals;
    match random.below(8) {
        0 => {
            let place = place_near(literals, tables.literals.len(), random);
            tables.literals[place] = random.pick(&[0, 1, -1, 2, -3, 513, i16::MIN, i16::MAX]);
        }
        1 => {
            let place = place_near(counts.clauses, tables.ends.len(), random);
            tables.ends[place] = random.pick(&[0, 1, literals, literals + 1, 8_192, u16::MAX]);
        }
        2..=5 => set_damage::change(&mut case.lent, random),
        6 => {
            let place = place_near(counts.variables, tables.kinds.len(), random);
            tables.kinds[place] = random.pick(&[0, 1, 2, 3, 4, 255]);
        }
        _ => case.lent.counts = changed_counts(counts.array(), random),
    }
    case
}

/// A place below the count, around it, or the last of the table.
pub(crate) fn place_near(count: u16, size: usize, random: &mut Random) -> usize {
    let count = usize::from(count);
    let below = random.below(count + 1);
    let around = (count + random.below(3)).saturating_sub(1);
    random.pick(&[below, around, size - 1]).min(size - 1)
}

fn changed_counts(mut counts: [u16; 8], random: &mut Random) -> Counts {
    let place = random.below(8);
    let old = counts[place];
    let choices = [old.wrapping_add(1), old.wrapping_sub(1), 0, 2_049, u16::MAX];
    counts[place] = random.pick(&choices);
    Counts::of_array(counts)
}
