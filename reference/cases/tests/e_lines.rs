//! Note 3 of document 02, beside the rule before it: the accepted beginning of
//! every list stays accepted and adds the same clauses, and of the refused steps
//! only some with 27 or 29 are accepted.

use std::collections::{BTreeMap, BTreeSet};

use cases::e_lines::{old_state, with_smaller_sets};
use cases::formulas::{self, prefixed_formula, random_formula};
use cases::prover::{records_of, Prover};
use cases::random::Random;
use cases::{generate, seeded};
use checker::limits::RECORD;
use checker::refusal::Number;
use checker::state::{Kind, State};
use checker::verdict::Verdict;

/// How lists came out by both rules.
#[derive(Debug, Default)]
struct Tally {
    lists: usize,
    /// Lists that fork before the old rule refuses a step.
    forked: usize,
    /// The lists that the old rule refuses, by its number and the new one's; 0
    /// for a step that is accepted.
    refused: BTreeMap<(u16, u16), usize>,
}

impl Tally {
    /// Lists that the old rule refuses with a number at a step accepted now.
    fn accepted(&self, number: u16) -> usize {
        self.refused.get(&(number, 0)).copied().unwrap_or(0)
    }
}

/// Both states of a text and the variables whose sets differ.
struct Rules {
    old: State,
    new: State,
    smaller: BTreeSet<u32>,
}

impl Rules {
    fn of(text: &[u8]) -> Rules {
        Rules {
            old: old_state(text),
            new: State::load(text).expect("an accepted text"),
            smaller: with_smaller_sets(text),
        }
    }

    /// The same but for the sets of variables on `e` lines before an `a` line.
    fn assert_alike(&self) {
        let (old, new) = (&self.old, &self.new);
        assert_eq!(old.clauses(), new.clauses());
        assert_eq!(old.counts(), new.counts());
        assert_eq!(old.universals(), new.universals());
        for (number, (before, now)) in (1..).zip(old.variables().iter().zip(new.variables())) {
            assert_eq!(before.kind, now.kind, "{number}");
            if self.smaller.contains(&number) {
                assert_eq!(now.kind, Kind::Existential);
                let proper = now.set.is_subset(&before.set) && now.set.len() < before.set.len();
                assert!(proper, "{number}: {now:?}");
            } else {
                assert_eq!(before.set, now.set, "{number}");
            }
        }
    }

    /// Takes steps by both rules up to the first that the old one refuses, and
    /// tells its number and the new one's.
    fn take(&mut self, records: &[u8]) -> Option<(u16, u16)> {
        let number = |step: Result<(), Number>| step.map_or_else(Number::value, |()| 0);
        self.assert_alike();
        for record in records.chunks(RECORD) {
            let before = number(self.old.step(record));
            let now = number(self.new.step(record));
            if before != 0 {
                return Some((before, now));
            }
            assert_eq!(now, 0);
            self.assert_alike();
        }
        None
    }
}

/// A list as a whole: the line stays, or the list was refused with 27 or 29 and
/// is refused at no earlier step now.
fn assert_lines(old: Verdict, new: Verdict) {
    match old {
        Verdict::Bad { step, number } if [27, 29].contains(&number.value()) => match new {
            Verdict::Bad { step: now, .. } if now < step => panic!("{old}, {new}"),
            Verdict::Bad {
                step: now,
                number: n,
            } if now == step => {
                assert!(n == number || n == Number::NoRoom, "{old}, {new}");
            }
            _ => (),
        },
        _ => assert_eq!(old, new),
    }
}

/// Runs a list on a text by both rules.
fn compare(text: &[u8], records: &[u8], tally: &mut Tally) {
    let mut rules = Rules::of(text);
    assert_lines(rules.old.run(records), rules.new.run(records));
    let mut rules = Rules::of(text);
    let variables = rules.old.variables().len();
    let refused = rules.take(records);
    tally.lists += 1;
    tally.forked += usize::from(rules.old.variables().len() > variables);
    if let Some((before, now)) = refused {
        // 25 is tested behind 27 and 29.
        let may_change = [27, 29].contains(&before) && [0, 25].contains(&now);
        assert!(before == now || may_change, "{before}, {now}");
        *tally.refused.entry((before, now)).or_default() += 1;
    }
}

/// Permitted steps, then one that may be refused.
fn list(start: State, random: &mut Random) -> Vec<u8> {
    let mut prover = Prover::new(start, random);
    if prover.random.chance(50) {
        prover.forks_first = prover.random.chance(70);
        prover.saturate(60);
    }
    prover.wander(40);
    let mut steps = prover.steps.clone();
    steps.push(prover.random_step());
    records_of(&steps)
}

#[test]
fn accepted_beginnings_stay_accepted() {
    let mut tally = Tally::default();
    for index in 0..1_500 {
        let random = &mut Random::for_case(31, index);
        let draft = match random.below(5) {
            0 => random_formula(random, formulas::SMALL),
            1 | 2 => random_formula(random, formulas::FORKED),
            3 => random_formula(random, formulas::MEDIUM),
            _ => prefixed_formula(random),
        };
        let text = draft.plain();
        if with_smaller_sets(&text).is_empty() {
            continue;
        }
        // What the old rule permits, and what the new one permits.
        let rules = Rules::of(&text);
        for start in [rules.old, rules.new] {
            let records = list(start, random);
            compare(&text, &records, &mut tally);
        }
    }
    assert!(tally.lists > 1_000 && tally.forked > 120, "{tally:?}");
    let accepted = [27, 29].map(|number| tally.accepted(number));
    assert!(accepted[0] > 200 && accepted[1] > 100, "{tally:?}");
    for number in [22, 23, 26, 27, 29] {
        assert!(tally.refused.contains_key(&(number, number)), "{tally:?}");
    }
}

/// Whether an `e` line stands before all `a` lines, and whether there are more
/// than two `a` lines.
fn shape(text: &[u8]) -> (bool, bool) {
    let letters = text.split(|&byte| byte == b'\n').map(|line| line.first());
    let prefix = letters.flatten().filter(|letter| b"ae".contains(letter));
    let letters: Vec<u8> = prefix.copied().collect();
    let universals = letters.iter().filter(|&&letter| letter == b'a').count();
    (letters.starts_with(b"e"), universals > 2)
}

/// The fixed and seeded cases have many such texts, and steps that are accepted
/// only now.
#[test]
fn the_cases_reach_the_note() {
    let (mut tally, mut first, mut lines) = (Tally::default(), 0, 0);
    let prefixed = (0..1_000).map(|index| seeded::prefixed(1, index));
    for case in generate(1, Some(5_000)).into_iter().chain(prefixed) {
        let accepted = !case.expected.starts_with("formula");
        if accepted && !with_smaller_sets(&case.text).is_empty() {
            compare(&case.text, &case.records, &mut tally);
            let (is_first, has_many) = shape(&case.text);
            first += usize::from(is_first);
            lines += usize::from(has_many);
        }
    }
    assert!(tally.lists > 1_400 && tally.forked > 80, "{tally:?}");
    assert!(first > 800 && lines > 300, "{first} {lines}");
    let accepted = [27, 29].map(|number| tally.accepted(number));
    assert!(accepted[0] > 350 && accepted[1] > 230, "{tally:?}");
    for pair in [(27, 25), (29, 25)]
        .into_iter()
        .chain((20..30).map(|n| (n, n)))
    {
        assert!(tally.refused.contains_key(&pair), "{pair:?}: {tally:?}");
    }
}
