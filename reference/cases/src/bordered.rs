//! Document 02, Note 6: formulas whose sets reach across the borders of words, and
//! lists that end with a step which one word decides.

use checker::limits::UNIVERSALS;
use checker::records::Step;

use crate::case::Case;
use crate::draft::{Draft, Prefix};
use crate::formulas::{random_clause, universal_lines, Size, FORKED};
use crate::prover::{mask, records_of, Prover};
use crate::random::Random;
use crate::seeded::{loaded, text_of};

/// Numbers of universals, for the most part at the borders of words.
pub const COUNTS: [usize; 20] = [
    1, 2, 63, 64, 65, 66, 127, 128, 129, 130, 191, 192, 193, 194, 254, 255, 256, 256, 256, 256,
];

/// The places of the first and the last bit of each word.
const BORDERS: [usize; 8] = [0, 63, 64, 127, 128, 191, 192, 255];

/// As many numbers from 1 on, by choice in any order.
fn numbers(random: &mut Random, count: usize) -> Vec<u32> {
    let mut numbers: Vec<u32> = (1..=count as u32).collect();
    if random.chance(50) {
        random.shuffle(&mut numbers);
    }
    numbers
}

/// A formula whose universals end at a border of a word, and whose sets have much
/// in common: they differ in few places, for the most part of one word. Some
/// variables stay undeclared.
pub fn formula(random: &mut Random) -> Draft {
    let count = random.pick(&COUNTS);
    let named = count + random.between(4, 8);
    let spare = random.below(4);
    let numbers = numbers(random, named + spare);
    let (universals, existentials) = numbers[..named].split_at(count);
    let mut prefix = universal_lines(random, universals);
    let percent = random.pick(&[0, 10, 50, 100]);
    let common = random.some(universals, percent);
    let word = random.below(universals.len().div_ceil(64));
    for &existential in &existentials[1..] {
        let set = near_set(random, &common, universals, word);
        prefix.push(Prefix::Existential(existential, set));
    }
    let place = random.below(prefix.len() + 1);
    prefix.insert(place, Prefix::Existentials(existentials[..1].to_vec()));
    let some = random.some(universals, 20);
    let size = Size {
        width: (2, 6),
        ..FORKED
    };
    let clauses =
        (0..random.between(4, 14)).map(|_| random_clause(random, &some, existentials, size));
    Draft {
        variables: numbers.len(),
        clauses: clauses.collect(),
        prefix,
    }
}

/// The universals of a word of the sets.
fn of_word(universals: &[u32], word: usize) -> &[u32] {
    universals.chunks(64).nth(word).unwrap_or(universals)
}

/// A set with up to two places changed, for the most part in one word and often at
/// its ends.
fn near_set(random: &mut Random, common: &[u32], universals: &[u32], word: usize) -> Vec<u32> {
    let mut set = common.to_vec();
    for _ in 0..random.between(0, 2) {
        let within = match random.chance(80) {
            true => of_word(universals, word),
            false => universals,
        };
        let anywhere = random.below(within.len());
        let changed = within[random.pick(&[0, within.len() - 1, anywhere])];
        match set.iter().position(|&member| member == changed) {
            Some(place) => drop(set.remove(place)),
            None => set.push(changed),
        }
    }
    set
}

/// The same formula with universals among its own that no clause holds, so that
/// its own have bits anywhere in the words. An `e` line sees those before it.
pub fn spread(mut draft: Draft, random: &mut Random) -> Draft {
    let own: usize = draft
        .prefix
        .iter()
        .map(|line| universals_of(line).len())
        .sum();
    let total = random.pick(&COUNTS).max(own);
    let mut places = random.some(&BORDERS, 60);
    places.retain(|&place| place < total);
    random.shuffle(&mut places);
    places.truncate(own);
    while places.len() < own {
        let place = random.below(total);
        places.extend((!places.contains(&place)).then_some(place));
    }
    places.sort_unstable();
    let first = draft.variables as u32 + 1;
    let mut others = first..first + (total - own) as u32;
    draft.variables += total - own;
    let (mut place, mut left) = (0, places.into_iter());
    for line in &mut draft.prefix {
        if let Prefix::Universals(named) = line {
            *named = padded(named, &mut place, &mut left, &mut others);
        }
    }
    let rest: Vec<u32> = others.collect();
    if !rest.is_empty() {
        let last = draft
            .prefix
            .iter()
            .rposition(|line| !universals_of(line).is_empty());
        let place = random.between(last.map_or(0, |last| last + 1), draft.prefix.len());
        draft.prefix.insert(place, Prefix::Universals(rest));
    }
    draft
}

/// The formula, spread in so many of a hundred cases.
pub fn sometimes_spread(draft: Draft, percent: usize, random: &mut Random) -> Draft {
    match random.chance(percent) {
        true => spread(draft, random),
        false => draft,
    }
}

fn universals_of(line: &Prefix) -> &[u32] {
    match line {
        Prefix::Universals(named) => named,
        _ => &[],
    }
}

/// The universals of a line at their places, with others before them.
fn padded(
    named: &[u32],
    place: &mut usize,
    places: &mut impl Iterator<Item = usize>,
    others: &mut impl Iterator<Item = u32>,
) -> Vec<u32> {
    let mut all = Vec::new();
    for (&universal, to) in named.iter().zip(places) {
        all.extend(others.by_ref().take(to - *place));
        all.push(universal);
        *place = to + 1;
    }
    all
}

/// Two sets that differ in one word, or in two, and a universal that is reduced.
struct Decided {
    first: Vec<u32>,
    second: Vec<u32>,
    /// What lies inside both.
    common: Vec<u32>,
    reduced: u32,
}

impl Decided {
    fn of(universals: &[u32], random: &mut Random) -> Decided {
        let [one, other, reduced] = three(universals, random);
        let chosen = [one, other, reduced];
        let rest: Vec<u32> = universals
            .iter()
            .copied()
            .filter(|u| !chosen.contains(u))
            .collect();
        let percent = random.pick(&[0, 5, 50, 100]);
        let common = random.some(&rest, percent);
        let [mut first, mut second] = [common.clone(), common.clone()];
        first.push(one);
        match random.below(6) {
            0..=1 => second.push(other),
            2..=4 => second.extend([one, other]),
            _ => second.push(one),
        }
        for set in [&mut first, &mut second] {
            if random.chance(50) {
                set.push(reduced);
            }
        }
        Decided {
            first,
            second,
            common,
            reduced,
        }
    }
}

/// Three universals: of one word, often the last one, with its ends in front;
/// sometimes the second or the third is of any word.
fn three(universals: &[u32], random: &mut Random) -> [u32; 3] {
    let words = universals.len().div_ceil(64);
    let any = random.below(words);
    let word = random.pick(&[words - 1, any, any]);
    let mut within = of_word(universals, word).to_vec();
    let mut outside = universals.to_vec();
    outside.retain(|universal| !within.contains(universal));
    if random.chance(50) {
        random.shuffle(&mut within);
    } else {
        let last = within.len() - 1;
        within.swap(last.min(1), last);
    }
    random.shuffle(&mut outside);
    within.truncate(3);
    within.extend(outside);
    if random.chance(25) && within.len() > 3 {
        let changed = random.between(1, 2);
        within.swap(changed, 3);
    }
    [within[0], within[1], within[2]]
}

/// A formula of which clause 1 can be parted by the sets, clause 2 has a literal to
/// be reduced, and clause 3 both.
fn decided_formula(
    decided: &Decided,
    universals: &[u32],
    existentials: &[u32],
    random: &mut Random,
) -> Draft {
    let mut prefix = universal_lines(random, universals);
    let [y, z] = [existentials[0], existentials[1]];
    let others = &existentials[2..];
    for (variable, set) in [(y, &decided.first), (z, &decided.second)] {
        prefix.push(Prefix::Existential(variable, set.clone()));
    }
    for &other in others {
        let set = random.some(&decided.common, 50);
        prefix.push(Prefix::Existential(other, set));
    }
    let clauses = [
        vec![y, z],
        vec![decided.reduced, y],
        vec![decided.reduced, y, z],
    ];
    let signed = |clause: Vec<u32>| -> Vec<i32> {
        let all = clause.into_iter().chain(random.some(others, 50));
        all.map(|variable| variable as i32 * random.pick(&[1, -1]))
            .collect()
    };
    Draft {
        variables: universals.len() + existentials.len(),
        prefix,
        clauses: clauses.map(signed).into(),
    }
}

/// A fork of a clause with some variables left only and some right only; others
/// are on any side, or on both.
fn parted(prover: &mut Prover, clause: u32, left: &[u32], right: &[u32]) -> Step {
    let sides = prover.numbers(clause).into_iter().map(|literal| {
        let variable = literal.unsigned_abs();
        match prover.random.below(3) {
            _ if left.contains(&variable) => (true, false),
            _ if right.contains(&variable) => (false, true),
            side => (side > 0, side < 2),
        }
    });
    let sides: Vec<(bool, bool)> = sides.collect();
    Step::Fork {
        clause,
        left: mask(sides.iter().map(|side| side.0)),
        right: mask(sides.iter().map(|side| side.1)),
    }
}

/// A fork of clause 1, a reduction of clause 2, or a fork of clause 3 and a
/// reduction of the part that has the literal.
pub(crate) fn last_steps(prover: &mut Prover, [y, z, reduced]: [u32; 3]) -> Vec<Step> {
    let both = prover.numbers(3);
    let literal = both.into_iter().find(|l| l.unsigned_abs() == reduced);
    let literal = literal.expect("clause 3 has it");
    let new = prover.state.clauses().len() as u32 + 1;
    let reduction = |clause, literal| Step::Reduction { clause, literal };
    match prover.random.below(4) {
        0 => vec![parted(prover, 1, &[y], &[z])],
        1 => {
            let of_2 = prover.numbers(2).contains(&literal);
            vec![reduction(2, if of_2 { literal } else { -literal })]
        }
        2 => {
            let fork = parted(prover, 3, &[y, reduced], &[z]);
            vec![fork, reduction(new, literal)]
        }
        _ => {
            let fork = parted(prover, 3, &[y], &[z, reduced]);
            vec![fork, reduction(new + 1, literal)]
        }
    }
}

/// A formula for [`last_steps`] with the variables they are about.
pub(crate) fn start(random: &mut Random) -> (Draft, [u32; 3]) {
    let count = random.pick(&COUNTS[3..]);
    let others = random.below(4);
    let numbers = numbers(random, count + 2 + others);
    let (universals, existentials) = numbers.split_at(count);
    let decided = Decided::of(universals, random);
    let draft = decided_formula(&decided, universals, existentials, random);
    (draft, [existentials[0], existentials[1], decided.reduced])
}

/// A list up to steps that the sets decide, one of any steps, or a text alone.
pub fn case(random: &mut Random) -> Case {
    match random.below(10) {
        0..=6 => decided_case(random),
        7 => wandering(random),
        _ => text_case(random),
    }
}

/// A formula of this module and random steps.
fn wandering(random: &mut Random) -> Case {
    let text = text_of(&formula(random), random);
    let mut prover = Prover::new(loaded(&text), random);
    let tries = prover.random.pick(&[20, 60, 120]);
    prover.wander(tries);
    let mut steps = prover.steps.clone();
    steps.push(prover.random_step());
    Case::checked("seeded/set words, any steps", text, records_of(&steps))
}

fn decided_case(random: &mut Random) -> Case {
    let (draft, names) = start(random);
    let text = text_of(&draft, random);
    let mut prover = Prover::new(loaded(&text), random);
    let tries = prover.random.pick(&[0, 0, 10]);
    prover.wander(tries);
    let steps = last_steps(&mut prover, names);
    let records = records_of(&[prover.steps, steps].concat());
    Case::checked("seeded/set words", text, records)
}

/// A text of about as many universals as there may be, on one line or several; some
/// numbers are repeated, above V or existential.
fn text_case(random: &mut Random) -> Case {
    let most = UNIVERSALS;
    let count = random.pick(&[most - 1, most, most, most + 1, most + 1, most + 1]);
    let mut numbers = numbers(random, count);
    for _ in 0..random.pick(&[0, 0, 1, 2]) {
        let any = random.pick(&numbers);
        let again = random.pick(&[1, 256, 300, 99_999, any]);
        numbers.insert(random.below(numbers.len() + 1), again);
    }
    let mut prefix = universal_lines(random, &numbers);
    if random.chance(40) {
        let named = random.between(1, count + 1) as u32;
        let place = random.below(prefix.len() + 1);
        prefix.insert(place, Prefix::Existentials(vec![named]));
    }
    let draft = Draft {
        variables: random.pick(&[count, count + 1, count - 1, count - 2, 400]),
        prefix,
        clauses: Vec::new(),
    };
    let text = text_of(&draft, random);
    Case::checked("seeded/many universals", text, Vec::new())
}
