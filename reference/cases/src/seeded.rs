//! The cases of a seed: random formulas with lists that a random prover made,
//! whole or damaged.

use checker::records::record;
use checker::state::State;

use crate::bordered;
use crate::case::Case;
use crate::clashing;
use crate::damage::{damaged_records, damaged_text};
use crate::draft::Draft;
use crate::formulas::{self, disguised_family, random_formula};
use crate::prover::{records_of, trimmed, Prover};
use crate::random::Random;
use crate::wide;

/// Case `index` of a seed.
pub fn case(seed: u64, index: u64) -> Case {
    let random = &mut Random::for_case(seed, index);
    match random.below(100) {
        0..=15 => refutation(random),
        16..=23 => refutation_and_more(random),
        24..=32 => saturated(random),
        33..=43 => wandering(random),
        44..=55 => with_damaged_text(random),
        56..=57 => wide::text_case(random),
        58..=66 => clashing::case(random),
        67..=76 => wide::case(random),
        77..=89 => with_damaged_records(random),
        90..=94 => with_wild_records(random),
        95..=97 => crowded(random),
        _ => with_wild_text(random),
    }
}

/// A case beside those of [`case`]: a large prefix, for tidy texts.
pub fn prefixed(seed: u64, index: u64) -> Case {
    let random = &mut Random::for_case(seed ^ 2, index);
    let text = formulas::prefixed_formula(random).loose(random);
    let mut prover = Prover::new(loaded(&text), random);
    prover.wander(20);
    Case::checked("seeded/prefix", text, records_of(&prover.steps))
}

/// A case beside those of [`case`]: sets of several words.
pub fn bordered(seed: u64, index: u64) -> Case {
    bordered::case(&mut Random::for_case(seed ^ 3, index))
}

/// A formula that can be saturated fast, sometimes with bits anywhere in the words
/// of its sets.
fn formula(random: &mut Random) -> Draft {
    let draft = small_formula(random);
    bordered::sometimes_spread(draft, 10, random)
}

fn small_formula(random: &mut Random) -> Draft {
    match random.below(20) {
        0..=2 => random_formula(random, formulas::TINY),
        3..=8 => random_formula(random, formulas::SMALL),
        9..=14 => random_formula(random, formulas::FORKED),
        15..=16 => random_formula(random, formulas::PROPOSITIONAL),
        17 => random_formula(random, formulas::MEDIUM),
        _ => {
            let n = random.below(2);
            disguised_family(random, n)
        }
    }
}

pub(crate) fn text_of(draft: &Draft, random: &mut Random) -> Vec<u8> {
    if random.chance(50) {
        draft.loose(random)
    } else {
        draft.plain()
    }
}

pub(crate) fn loaded(text: &[u8]) -> State {
    State::load(text).expect("drafts are within the limits")
}

/// The records of a saturating prover, trimmed to a refutation if asked for
/// and found, and the state they lead to.
fn proved(text: &[u8], trim: bool, random: &mut Random) -> (Vec<u8>, State) {
    let start = loaded(text);
    let mut prover = Prover::new(start.clone(), random);
    prover.forks_first = prover.random.chance(70);
    prover.universal_pivots = prover.random.chance(20);
    let limit = prover.random.pick(&[40, 120, 250]);
    prover.saturate(limit);
    let steps = prover.steps;
    let steps = match trimmed(&start, &steps) {
        Some(short) if trim => short,
        _ => steps,
    };
    let records = records_of(&steps);
    let mut end = start;
    end.run(&records);
    (records, end)
}

fn refutation(random: &mut Random) -> Case {
    let draft = formula(random);
    let text = text_of(&draft, random);
    let (records, _) = proved(&text, true, random);
    Case::checked("seeded/refutation", text, records)
}

/// Steps behind the empty clause: permitted ones, and often a wrong one last.
fn refutation_and_more(random: &mut Random) -> Case {
    let draft = formula(random);
    let text = text_of(&draft, random);
    let (mut records, end) = proved(&text, true, random);
    let mut prover = Prover::new(end, random);
    prover.wander(12);
    records.extend(records_of(&prover.steps));
    if prover.random.chance(50) {
        let step = prover.random_step();
        records.extend(records_of(&[step]));
    }
    if prover.random.chance(20) {
        records.extend(record(4, [0; 3]));
    }
    Case::checked("seeded/behind a refutation", text, records)
}

fn saturated(random: &mut Random) -> Case {
    let draft = formula(random);
    let text = text_of(&draft, random);
    let (records, _) = proved(&text, false, random);
    Case::checked("seeded/saturated", text, records)
}

fn wandering_draft(random: &mut Random) -> Draft {
    match random.below(5) {
        0 => random_formula(random, formulas::MEDIUM),
        1 => random_formula(random, formulas::WIDE),
        2 => random_formula(random, formulas::ALIKE),
        3 => {
            let n = random.below(15);
            disguised_family(random, n)
        }
        _ => random_formula(random, formulas::FORKED),
    }
}

fn wandered(random: &mut Random) -> (Vec<u8>, Vec<u8>) {
    let draft = wandering_draft(random);
    let text = text_of(&draft, random);
    let tries = random.pick(&[20, 60, 200, 600]);
    let mut prover = Prover::new(loaded(&text), random);
    prover.wander(tries);
    (text, records_of(&prover.steps))
}

fn wandering(random: &mut Random) -> Case {
    let (text, records) = wandered(random);
    Case::checked("seeded/wandering", text, records)
}

fn with_damaged_text(random: &mut Random) -> Case {
    let draft = formula(random);
    let text = text_of(&draft, random);
    let (records, _) = proved(&text, true, random);
    let (name, text) = damaged_text(&text, random);
    Case::checked(format!("seeded/text, {name}"), text, records)
}

fn with_damaged_records(random: &mut Random) -> Case {
    let (text, records) = if random.chance(40) {
        wandered(random)
    } else {
        let draft = formula(random);
        let text = text_of(&draft, random);
        let trim = random.chance(70);
        let (records, _) = proved(&text, trim, random);
        (text, records)
    };
    let (name, records) = damaged_records(&records, random);
    Case::checked(format!("seeded/records, {name}"), text, records)
}

/// A few permitted steps, then some that merely look like steps.
fn with_wild_records(random: &mut Random) -> Case {
    let draft = wandering_draft(random);
    let text = text_of(&draft, random);
    let mut prover = Prover::new(loaded(&text), random);
    let tries = prover.random.below(40);
    prover.wander(tries);
    let mut records = records_of(&prover.steps);
    for _ in 0..3 {
        let step = prover.random_step();
        records.extend(records_of(&[step]));
    }
    records.extend(record(random.between(1, 3) as u8, wild_words(random)));
    Case::checked("seeded/wild records", text, records)
}

fn wild_words(random: &mut Random) -> [u32; 3] {
    [0; 3].map(|_| {
        let small = random.below(16) as u32;
        let signed = (small as i32 - 8) as u32;
        random.pick(&[small, small, signed])
    })
}

/// Steps until there is no room, or some more.
fn crowded(random: &mut Random) -> Case {
    let text = formulas::crowded_formula(random).plain();
    let mut prover = Prover::new(loaded(&text), random);
    let tries = prover.random.between(1, 60);
    prover.wander(tries);
    let mut records = records_of(&prover.steps);
    let wanted = prover.random.between(0, 6);
    records.extend(records_of(&prover.without_room(wanted)));
    Case::checked("seeded/crowded", text, records)
}

fn with_wild_text(random: &mut Random) -> Case {
    let alphabet = b"  \n\n0123-acdepnf";
    let mut text = random
        .pick(&[&b""[..], b"p cnf 9 2\n", b"p cnf 3 1\na 1 2 0\n"])
        .to_vec();
    let length = random.below(40);
    text.extend((0..length).map(|_| random.pick(alphabet)));
    Case::checked("seeded/wild text", text, Vec::new())
}
