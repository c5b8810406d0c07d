//! Document 02, Note 5, beside the order before it (22, 24, 23, 25): only
//! resolutions which gave 24 and whose resolvent has a complementary pair change,
//! and they give 23 with the lowest variable. A run accepts the same steps and
//! stops at the same one.

use std::collections::BTreeMap;

use cases::formulas::{self, random_formula};
use cases::prover::{resolution, Prover};
use cases::random::Random;
use cases::{clashing, generate, wide};
use checker::clause::numbers_of;
use checker::limits::{CLAUSES, LITERALS, RECORD, WIDTH};
use checker::records::{decode, encode, Step};
use checker::refusal::Number;
use checker::rules;
use checker::state::State;
use checker::verdict::Verdict;

/// Why a step is refused; nothing for an accepted one.
type Answer = Option<Number>;

/// A resolution of two clauses, by membership of single literals.
struct Joined {
    first: Vec<i64>,
    second: Vec<i64>,
    pivot: i64,
}

impl Joined {
    /// Nothing for a clause that is not there.
    fn of(state: &State, first: u32, second: u32, pivot: i32) -> Option<Joined> {
        let numbered = |number: u32| {
            let mut each = (1..).zip(state.clauses());
            let found = each.find(|(n, _)| *n == number);
            found.map(|(_, clause)| numbers_of(clause))
        };
        Some(Joined {
            first: numbered(first)?,
            second: numbered(second)?,
            pivot: pivot.into(),
        })
    }

    fn is_opposed(&self) -> bool {
        self.first.contains(&self.pivot) && self.second.contains(&-self.pivot)
    }

    /// Whether a literal is in the resolvent.
    fn holds(&self, literal: i64) -> bool {
        self.first.contains(&literal) && literal != self.pivot
            || self.second.contains(&literal) && literal != -self.pivot
    }

    /// The literals of the resolvent, by variables.
    fn literals(&self) -> Vec<i64> {
        let all = self.first.iter().chain(&self.second).copied();
        let mut held: Vec<i64> = all.filter(|&literal| self.holds(literal)).collect();
        held.sort_by_key(|literal| (literal.abs(), *literal < 0));
        held.dedup();
        held
    }

    /// The lowest variable in both signs.
    fn lowest(&self) -> Option<u32> {
        let literals = self.literals().into_iter();
        let both = literals.filter(|&literal| self.holds(-literal));
        both.map(|literal| literal.unsigned_abs() as u32).min()
    }

    /// The answer in the order before the note.
    fn before(&self, state: &State) -> Answer {
        let literals = self.literals().len();
        let room = state.clauses().len() < CLAUSES && state.literals() + literals <= LITERALS;
        match self.lowest() {
            _ if !self.is_opposed() => Some(Number::NotThere),
            _ if literals > WIDTH => Some(Number::TooWide),
            Some(variable) => Some(Number::Tautology(variable)),
            None if !room => Some(Number::NoRoom),
            None => None,
        }
    }
}

/// How resolutions came out: the numbers before and now (0: accepted).
#[derive(Debug, Default)]
struct Tally(BTreeMap<(u16, u16), usize>);

impl Tally {
    fn count(&mut self, before: Answer, now: Answer) {
        let number = |answer: Answer| answer.map_or(0, Number::value);
        let place = (number(before), number(now));
        *self.0.entry(place).or_default() += 1;
    }

    fn of(&self, before: u16, now: u16) -> usize {
        self.0.get(&(before, now)).copied().unwrap_or(0)
    }
}

/// The answers to a record in the order before the note and in that of now. Steps of
/// other kinds are not concerned.
fn answers(state: &State, record: &[u8], tally: &mut Tally) -> [Answer; 2] {
    let Some(step) = decode(record) else {
        return [Some(Number::Record); 2];
    };
    let examined = rules::examine(state, step);
    let now = examined.as_ref().err().copied();
    let Step::Resolution {
        first,
        second,
        pivot,
    } = step
    else {
        return [now; 2];
    };
    let Some(joined) = Joined::of(state, first, second, pivot) else {
        assert_eq!(now, Some(Number::ClauseNumber));
        return [now; 2];
    };
    let before = joined.before(state);
    match (before, joined.lowest()) {
        (Some(Number::TooWide), Some(variable)) => {
            assert_eq!(now, Some(Number::Tautology(variable)));
        }
        _ => assert_eq!(now, before),
    }
    if let Ok(addition) = examined {
        assert_eq!(numbers_of(&addition.clauses[0]), joined.literals());
    }
    tally.count(before, now);
    [before, now]
}

/// A state with wide clauses, with and without pairs; some have no room left.
fn some_state(index: u64) -> State {
    let random = &mut Random::for_case(51, index);
    let mut draft = match index % 6 {
        0 => random_formula(random, formulas::WIDE),
        1 => random_formula(random, formulas::ALIKE),
        2 => random_formula(random, formulas::FORKED),
        3 => clashing::formula(random),
        _ => wide::formula(random, index % 6 == 4),
    };
    if index % 7 == 6 {
        draft.clauses.resize(CLAUSES, Vec::new());
    }
    let mut prover = Prover::new(State::load(&draft.plain()).unwrap(), random);
    prover.wander(20);
    prover.state
}

#[test]
fn only_wide_resolvents_with_a_pair_change() {
    let tally = &mut Tally::default();
    for index in 0..300 {
        let state = some_state(index);
        let numbers = 0..=state.clauses().len().min(30) as u32;
        for (first, clause) in numbers.clone().skip(1).zip(state.clauses()) {
            // Pivots of the clause, and one that is not there.
            let pivots: Vec<i64> = numbers_of(clause).into_iter().chain([600]).collect();
            for second in numbers.clone() {
                for &pivot in &pivots {
                    let record = encode(resolution(first, second, pivot as i32));
                    answers(&state, &record, tally);
                }
            }
        }
    }
    assert!(
        tally.of(24, 23) > 3_000 && tally.of(24, 24) > 1_000,
        "{tally:?}"
    );
    assert!(
        tally.of(23, 23) > 3_000 && tally.of(0, 0) > 1_000,
        "{tally:?}"
    );
    assert!(
        tally.of(22, 22) > 10_000 && tally.of(25, 25) > 50,
        "{tally:?}"
    );
    assert_eq!(tally.0.len(), 6, "{tally:?}");
}

/// What a run answers in both orders.
fn runs(state: &mut State, records: &[u8], tally: &mut Tally) -> [Verdict; 2] {
    for (index, record) in records.chunks(RECORD).enumerate() {
        let refused = match answers(state, record, tally) {
            [Some(before), Some(now)] => [before, now],
            both => {
                assert_eq!(both, [None, None]);
                state.step(record).expect("an accepted step");
                continue;
            }
        };
        return refused.map(|number| Verdict::bad(index + 1, number));
    }
    [state.verdict(); 2]
}

#[test]
fn a_run_accepts_the_same_steps_and_stops_at_the_same_one() {
    let (mut tally, mut otherwise, mut alike) = (Tally::default(), 0, 0);
    for case in generate(1, Some(5_000)) {
        let Ok(mut state) = State::load(&case.text) else {
            continue;
        };
        let mut whole = state.clone();
        let line = whole.run(&case.records);
        if line == Verdict::bad(0, Number::OverLimit) {
            continue;
        }
        let [before, now] = runs(&mut state, &case.records, &mut tally);
        assert_eq!((line, &whole), (now, &state), "{}", case.label);
        match (before, now) {
            (Verdict::Bad { step, number }, Verdict::Bad { step: same, .. }) if before != now => {
                assert_eq!((step, number), (same, Number::TooWide));
                otherwise += 1;
            }
            _ => {
                assert_eq!(before, now);
                alike += 1;
            }
        }
    }
    assert!(otherwise > 200 && alike > 3_000, "{otherwise} {alike}");
    assert_eq!(otherwise, tally.of(24, 23));
    assert!(tally.of(24, 24) > 150 && tally.of(25, 25) > 40, "{tally:?}");
    assert!(
        tally.of(23, 23) > 300 && tally.of(0, 0) > 10_000,
        "{tally:?}"
    );
}
