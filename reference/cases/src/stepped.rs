//! Cases for the program `steps_test`, which calls `step` for each record, also
//! behind a refused one, and then shows every clause.

use checker::calls::Lent;
use checker::limits::RECORD;
use checker::records::{record, Step};
use checker::refusal::Number;
use checker::state::State;

use crate::case::Case;
use crate::damage::damaged_records;
use crate::draft::Draft;
use crate::formulas::{self, random_formula};
use crate::prover::{records_of, Prover};
use crate::random::Random;
use crate::{bordered, clashing, fixed, published, seeded, wide};

const SEED: u64 = 16;
/// Fixed cases on a text of so many bytes are taken as one list.
const LONG_TEXT: usize = 4_000;
/// So many bytes may a fixed case have, and a seeded one.
const MOST: usize = 12_000;
const MOST_SEEDED: usize = 800;
/// Larger ones: as many steps, variables and literals as there can be.
const LARGE: [&str; 5] = [
    "list/2048 records",
    "list/32783 bytes",
    "room/2 variables: 511 forks",
    "room/8191 literals",
    "room/8192 literals",
];

/// The fixed cases, every step on the formula of 000, Theorem 2, in one list,
/// and seeded cases.
pub fn cases() -> Vec<Case> {
    let (long, short) = fixed()
        .into_iter()
        .filter(is_chosen)
        .partition(|case| case.text.len() >= LONG_TEXT);
    let theorem = joined(published::theorem_steps());
    let mut seeded: Vec<Case> = (0..400).map(|index| seeded::case(SEED, index)).collect();
    seeded.retain(|case| size(case) < MOST_SEEDED);
    let mixed = (0..200).map(|index| mixed(SEED, index)).collect();
    let clashes = (0..80).map(|index| clashes(SEED, index)).collect();
    let wide = (0..40).map(|index| wide_ones(SEED, index)).collect();
    let words = (0..20).map(|index| set_words(SEED, index)).collect();
    let fixed = [short, joined(long), theorem].concat();
    [fixed, seeded, mixed, clashes, wide, words].concat()
}

fn size(case: &Case) -> usize {
    case.text.len() + case.records.len()
}

/// Of the refused texts some, of the others those that are not too large.
fn is_chosen(case: &Case) -> bool {
    let begins = |front: &&str| case.label.starts_with(*front);
    if case.expected.starts_with("formula") {
        return begins(&"fault/text");
    }
    size(case) < MOST || LARGE.iter().any(begins)
}

/// The cases on the same text with their records in one list.
fn joined(cases: Vec<Case>) -> Vec<Case> {
    let mut lists: Vec<(Case, usize)> = Vec::new();
    for case in cases {
        match lists.iter_mut().find(|(list, _)| list.text == case.text) {
            Some((list, count)) => {
                list.records.extend(case.records);
                *count += 1;
            }
            None => lists.push((case, 1)),
        }
    }
    let whole = |(list, count): (Case, usize)| {
        let label = format!("{}, first of {count} in one list", list.label);
        Case::checked(label, list.text, list.records)
    };
    lists.into_iter().map(whole).collect()
}

/// Permitted steps with others between them, and often a cut record last.
fn mixed(seed: u64, index: u64) -> Case {
    let random = &mut Random::for_case(!seed, index);
    let size = random.pick(&[formulas::TINY, formulas::SMALL, formulas::FORKED]);
    let text = random_formula(random, size).plain();
    let start = State::load(&text).expect("drafts are within the limits");
    let mut records = interleaved(&mut Prover::new(start, random), other_record);
    if random.chance(40) {
        records.truncate(records.len() - random.below(RECORD));
    }
    Case::checked("seeded/mixed", text, records)
}

/// Permitted steps with resolutions between them that have more than one
/// complementary pair, sometimes of fork variables.
fn clashes(seed: u64, index: u64) -> Case {
    let random = &mut Random::for_case(seed ^ 5, index);
    let start = match random.below(5) {
        0 => (random_formula(random, formulas::FORKED), false),
        1 => (clashing::opposites(random), true),
        _ => (clashing::formula(random), false),
    };
    with_refused("seeded/clashes", start, clashing::step, random)
}

/// The same with resolvents of too many literals, with or without a pair.
fn wide_ones(seed: u64, index: u64) -> Case {
    let random = &mut Random::for_case(seed ^ 6, index);
    let start = match random.below(5) {
        0 => (wide::opposites(random), true),
        1 | 2 => (wide::formula(random, true), false),
        _ => (wide::formula(random, false), false),
    };
    let other = |prover: &mut Prover, clauses| {
        let with_pair = prover.random.chance(50);
        wide::step(prover, clauses, with_pair)
    };
    with_refused("seeded/wide", start, other, random)
}

/// Permitted steps with forks and reductions between them that a word of the sets
/// decides.
fn set_words(seed: u64, index: u64) -> Case {
    let random = &mut Random::for_case(seed ^ 7, index);
    let (draft, names) = bordered::start(random);
    let text = draft.plain();
    let start = State::load(&text).expect("drafts are within the limits");
    let other = |prover: &mut Prover| records_of(&bordered::last_steps(prover, names));
    let records = interleaved(&mut Prover::new(start, random), other);
    Case::checked("seeded/set words", text, records)
}

/// Permitted steps with others between them for clauses 1 and 2, or for those that
/// forks have made of them.
fn with_refused(
    label: &str,
    (draft, forked): (Draft, bool),
    other: impl Fn(&mut Prover, (u32, u32)) -> Option<Step>,
    random: &mut Random,
) -> Case {
    let text = draft.plain();
    let start = State::load(&text).expect("drafts are within the limits");
    let prover = &mut Prover::new(start, random);
    let clauses = if forked {
        clashing::part(prover)
    } else {
        (1, 2)
    };
    let before = records_of(&prover.steps);
    let other = |prover: &mut Prover| records_of(other(prover, clauses).as_slice());
    let records = [before, interleaved(prover, other)].concat();
    Case::checked(label, text, records)
}

/// Permitted steps with other records between them.
fn interleaved(prover: &mut Prover, other: impl Fn(&mut Prover) -> Vec<u8>) -> Vec<u8> {
    let mut records = Vec::new();
    for _ in 0..prover.random.between(2, 8) {
        let before = prover.steps.len();
        prover.wander(3);
        records.extend(records_of(&prover.steps[before..]));
        let other = other(prover);
        for record in other.chunks(RECORD) {
            // It may be permitted by chance.
            let _ = prover.state.step(record);
        }
        records.extend(other);
    }
    records
}

/// A record that may be refused.
fn other_record(prover: &mut Prover) -> Vec<u8> {
    let record = records_of(&[prover.random_step()]);
    if prover.random.chance(50) {
        return record;
    }
    let (_, mut changed) = damaged_records(&record, prover.random);
    changed.resize(RECORD, 0);
    changed
}

/// What the program `steps_test` prints: the first tests of a step, then each
/// case. The tables pass from case to case as the case before left them.
pub fn printed(cases: &[Case]) -> String {
    let lent = &mut Lent::zero();
    let told = cases.iter().map(|case| told(lent, case));
    std::iter::once(first_tests()).chain(told).collect()
}

/// The first tests of a step over zero tables. What is tested behind the test
/// that is broken is wrong too.
fn first_tests() -> String {
    let zero = Lent::zero();
    let mut wrong = zero.clone();
    wrong.counts.steps = 1;
    let mut short = [0; 4].map(|_| wrong.clone());
    short[0].tables.literals.pop();
    short[1].tables.ends.pop();
    short[2].tables.sets.pop();
    short[3].tables.kinds.pop();
    let malformed = short.into_iter().chain([wrong, zero.clone()]);
    let calls = malformed.map(|lent| (lent, 0)).chain([(zero, 1)]);
    let answer = |(mut lent, kind)| answers(&mut lent, &record(kind, [0; 3]))[0];
    let steps: Vec<Answer> = calls.map(answer).collect();
    format!("first tests\nsteps{}\n", answered(&steps))
}

fn told(lent: &mut Lent, case: &Case) -> String {
    let label = &case.label;
    if let Err(refusal) = lent.load(&case.text) {
        let number = refusal.number.value();
        return format!("{label}\nformula {} {number}\n", refusal.line);
    }
    let steps = answered(&answers(lent, &case.records));
    let counts = listed(&lent.counts.array());
    let last = u32::from(lent.counts.clauses) + 1;
    let shown: String = (0..=last).map(|number| shown(lent, number)).collect();
    format!("{label}\nsteps{steps}\ncounts{counts}\nshown{shown}\n")
}

fn listed<T: ToString>(numbers: &[T]) -> String {
    let each = numbers.iter();
    each.map(|number| format!(" {}", number.to_string()))
        .collect()
}

/// Why a step is refused; nothing for an accepted one.
pub type Answer = Option<Number>;

/// The answers to each record, to a cut last one and to the empty rest behind a
/// whole one. Each step has all that is left of the list.
pub fn answers(lent: &mut Lent, records: &[u8]) -> Vec<Answer> {
    let places = (0..=records.len()).step_by(RECORD);
    let refusal = |at: usize| lent.step(&records[at..]).err();
    places.map(refusal).map(|r| r.map(|(_, n)| n)).collect()
}

/// 0 for each accepted step, else its number, with a colon and the variable behind
/// 23.
fn answered(answers: &[Answer]) -> String {
    let told = |answer: &Answer| match answer {
        None => "0".into(),
        Some(number) => match number.variable() {
            None => number.value().to_string(),
            Some(variable) => format!("{}:{variable}", number.value()),
        },
    };
    listed(&answers.iter().map(told).collect::<Vec<String>>())
}

/// A stroke and the literals that are shown of a clause.
fn shown(lent: &Lent, number: u32) -> String {
    let literals = &lent.tables.literals[lent.show(number)];
    format!(" /{}", listed(literals))
}
