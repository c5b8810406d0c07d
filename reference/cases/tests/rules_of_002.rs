//! 002, section 4: a step is accepted if and only if its rule permits it, and
//! adds just what the rule derives. The rules are put here once more, by
//! membership of single literals and universals, and tried on every step of
//! many small states; with them the variable of 23 and the order of 23, 24 and 25
//! (document 02, Notes 4 and 5).

use cases::clashing;
use cases::formulas::{self, random_formula};
use cases::prover::Prover;
use cases::random::Random;
use cases::wide;
use checker::clause::numbers_of;
use checker::limits::{CLAUSES, LITERALS, WIDTH};
use checker::records::{encode, Step};
use checker::refusal::Number;
use checker::rules;
use checker::state::{Kind, State};

/// What a rule derives: the clauses as lists of numbers, and the universals of
/// the new variable.
type Derived = (Vec<Vec<i64>>, Option<Vec<u32>>);

struct Rules<'a> {
    state: &'a State,
    /// Every literal over the variables in use and the next one, in the order
    /// of a clause.
    literals: Vec<i64>,
    clauses: Vec<Vec<i64>>,
}

impl Rules<'_> {
    fn new(state: &State) -> Rules<'_> {
        let last = i64::from(state.next_variable());
        Rules {
            state,
            literals: (1..=last).flat_map(|v| [v, -v]).collect(),
            clauses: state.clauses().iter().map(numbers_of).collect(),
        }
    }

    fn clause(&self, number: u32) -> Option<&Vec<i64>> {
        (1..)
            .zip(&self.clauses)
            .find(|(n, _)| *n == number)
            .map(|(_, c)| c)
    }

    /// The literals that meet a condition.
    fn such(&self, condition: impl Fn(i64) -> bool) -> Vec<i64> {
        let all = self.literals.iter().copied();
        all.filter(|&literal| condition(literal)).collect()
    }

    /// Whether a universal is in dep of some of the literals.
    fn dep(&self, literals: &[i64], universal: u32) -> bool {
        literals.iter().any(|literal| {
            let variable = self.state.variable(literal.unsigned_abs() as u32);
            variable.unwrap().set.contains(&universal)
        })
    }

    fn resolvent(&self, first: u32, second: u32, pivot: i64) -> Option<Derived> {
        let (c1, c2) = (self.clause(first)?, self.clause(second)?);
        let stands = |l: i64| c1.contains(&l) && l != pivot || c2.contains(&l) && l != -pivot;
        let tautology = self.literals.iter().any(|&l| stands(l) && stands(-l));
        let permitted = c1.contains(&pivot) && c2.contains(&-pivot) && !tautology;
        permitted.then(|| (vec![self.such(stands)], None))
    }

    /// Of a resolution on complementary literals: how many literals the resolvent
    /// has, and the variables whose two literals are both there, ascending.
    fn joined(&self, first: u32, second: u32, pivot: i64) -> Option<(usize, Vec<i64>)> {
        let (c1, c2) = (self.clause(first)?, self.clause(second)?);
        if !c1.contains(&pivot) || !c2.contains(&-pivot) {
            return None;
        }
        let stands = |l: i64| c1.contains(&l) && l != pivot || c2.contains(&l) && l != -pivot;
        let variables = 1..=i64::from(self.state.next_variable());
        let both = variables.filter(|&v| stands(v) && stands(-v)).collect();
        Some((self.such(stands).len(), both))
    }

    fn reduct(&self, clause: u32, literal: i64) -> Option<Derived> {
        let clause = self.clause(clause)?;
        let variable = literal.unsigned_abs() as u32;
        let rest: Vec<i64> = clause.iter().copied().filter(|&l| l != literal).collect();
        let permitted = clause.contains(&literal)
            && self.state.universals().contains(&variable)
            && !self.dep(&rest, variable);
        permitted.then(|| (vec![rest], None))
    }

    fn extension(&self, clause: u32, left: u32, right: u32) -> Option<Derived> {
        let clause = self.clause(clause)?;
        let part = |mask: u32| -> Vec<i64> {
            let placed = (0..)
                .zip(clause)
                .filter(|(place, _)| mask >> place & 1 == 1);
            placed.map(|(_, &literal)| literal).collect()
        };
        let (mut c1, mut c2) = (part(left), part(right));
        let whole = clause.iter().all(|l| c1.contains(l) || c2.contains(l));
        let beyond = (clause.len()..32).any(|place| (left | right) >> place & 1 == 1);
        let in_first = |u: &u32| self.dep(&c1, *u);
        let in_second = |u: &u32| self.dep(&c2, *u);
        let universals = self.state.universals();
        let only_first = universals.iter().any(|u| in_first(u) && !in_second(u));
        let only_second = universals.iter().any(|u| in_second(u) && !in_first(u));
        if !whole || beyond || !only_first || !only_second {
            return None;
        }
        let common = universals
            .iter()
            .copied()
            .filter(|u| in_first(u) && in_second(u));
        let mut common: Vec<u32> = common.collect();
        common.sort_unstable();
        let fresh = self.state.variables().len() as i64 + 1;
        c1.push(fresh);
        c2.push(-fresh);
        Some((vec![c1, c2], Some(common)))
    }

    fn derived(&self, step: Step) -> Option<Derived> {
        match step {
            Step::Resolution {
                first,
                second,
                pivot,
            } => self.resolvent(first, second, pivot.into()),
            Step::Reduction { clause, literal } => self.reduct(clause, literal.into()),
            Step::Fork {
                clause,
                left,
                right,
            } => self.extension(clause, left, right),
        }
    }

    /// Every step over the clauses and literals, and a little beyond.
    fn steps(&self) -> Vec<Step> {
        let clauses = 0..=self.clauses.len() as u32 + 1;
        let last = self.state.next_variable() as i32;
        let mut steps = Vec::new();
        for first in clauses.clone() {
            for literal in -last..=last {
                steps.push(Step::Reduction {
                    clause: first,
                    literal,
                });
                let resolutions = clauses.clone().map(|second| Step::Resolution {
                    first,
                    second,
                    pivot: literal,
                });
                steps.extend(resolutions);
            }
            steps.extend(self.forks(first));
        }
        steps
    }

    /// All mask pairs up to one place beyond the clause.
    fn forks(&self, clause: u32) -> Vec<Step> {
        let length = self.clause(clause).map_or(1, Vec::len);
        let masks = 1 << (length + 1);
        let pairs = (0..masks).flat_map(|left| (0..masks).map(move |right| (left, right)));
        pairs
            .map(|(left, right)| Step::Fork {
                clause,
                left,
                right,
            })
            .collect()
    }
}

/// What a step added to the state.
fn added(before: &State, after: &State) -> Derived {
    let clauses = &after.clauses()[before.clauses().len()..];
    let variable = after.variables().get(before.variables().len());
    if let Some(variable) = variable {
        assert_eq!(variable.kind, Kind::Fork);
    }
    (
        clauses.iter().map(numbers_of).collect(),
        variable.map(|variable| variable.set.iter().copied().collect()),
    )
}

#[test]
fn accepted_if_and_only_if_the_rule_permits_it() {
    let mut accepted = [0; 3];
    let mut refused = 0;
    for index in 0..120 {
        let random = &mut Random::for_case(21, index);
        let size = random.pick(&[formulas::TINY, formulas::SMALL, formulas::FORKED]);
        let text = random_formula(random, size).plain();
        let mut prover = Prover::new(State::load(&text).unwrap(), random);
        prover.wander(6);
        let state = prover.state;
        let rules = Rules::new(&state);
        for step in rules.steps() {
            let mut tried = state.clone();
            let outcome = tried.step(&encode(step));
            let derived = rules.derived(step);
            assert_eq!(outcome.is_ok(), derived.is_some(), "{step:?}");
            match derived {
                Some(derived) => {
                    assert_eq!(added(&state, &tried), derived, "{step:?}");
                    assert_eq!(tried.counts().steps, state.counts().steps + 1);
                    accepted[usize::from(encode(step)[0]) - 1] += 1;
                }
                None => {
                    assert_eq!(tried, state);
                    refused += 1;
                }
            }
        }
    }
    assert!(accepted.iter().all(|&count| count > 150), "{accepted:?}");
    assert!(refused > 50_000, "{refused}");
}

/// How the resolutions on complementary literals came out.
#[derive(Debug, Default)]
struct Tally {
    accepted: usize,
    /// Too wide, and with no variable in both signs.
    wide: usize,
    /// Too wide, and with a variable in both signs.
    wide_with_pair: usize,
    /// Nothing but room is missing.
    no_room: usize,
    /// There is no room, and the resolvent is refused for another reason.
    not_for_room: usize,
    /// With one variable in both signs, and with more than one.
    one: usize,
    more: usize,
    /// The variable that is told is a fork variable.
    forks: usize,
}

/// States with clauses of all widths and with fork variables.
fn joined_state(index: u64) -> State {
    let random = &mut Random::for_case(22, index);
    let mut draft = match index % 8 {
        0 => random_formula(random, formulas::WIDE),
        1 => random_formula(random, formulas::MEDIUM),
        2 | 3 => random_formula(random, formulas::FORKED),
        4 => random_formula(random, formulas::ALIKE),
        5 => wide::formula(random, index % 16 > 8),
        _ => clashing::formula(random),
    };
    if index % 24 == 5 {
        // As many clauses as there may be; the last ones are empty.
        draft.clauses.resize(CLAUSES, Vec::new());
    }
    let mut prover = Prover::new(State::load(&draft.plain()).unwrap(), random);
    prover.wander(30);
    prover.state
}

/// One resolution: 23 with the lowest variable in both signs if there is one, else
/// 24 above 32 literals, else 25 without room, else accepted.
fn assert_joined(rules: &Rules, first: u32, second: u32, pivot: i64, tally: &mut Tally) {
    let Some((literals, both)) = rules.joined(first, second, pivot) else {
        return;
    };
    let counts = rules.state.counts();
    let room = usize::from(counts.clauses) < CLAUSES
        && usize::from(counts.literals) + literals <= LITERALS;
    let lowest = both.first().map(|&variable| variable as u32);
    let wanted = match lowest {
        Some(variable) => Some(Number::Tautology(variable)),
        None if literals > WIDTH => Some(Number::TooWide),
        None if !room => Some(Number::NoRoom),
        None => None,
    };
    let found = rules::resolution(rules.state, first, second, pivot as i32).err();
    assert_eq!(found, wanted, "{first}, {second}, {pivot}");
    match (literals > WIDTH, both.len()) {
        (true, 0) => tally.wide += 1,
        (true, _) => tally.wide_with_pair += 1,
        (false, 0) if room => tally.accepted += 1,
        (false, 0) => tally.no_room += 1,
        (false, 1) => tally.one += 1,
        (false, _) => tally.more += 1,
    }
    let otherwise = matches!(found, Some(Number::Tautology(_) | Number::TooWide));
    tally.not_for_room += usize::from(!room && otherwise);
    let declared = u32::from(counts.header_variables);
    tally.forks += usize::from(lowest.is_some_and(|variable| variable > declared));
}

#[test]
fn a_pair_is_told_before_the_width_and_the_room() {
    let mut tally = Tally::default();
    for index in 0..240 {
        let state = joined_state(index);
        let rules = Rules::new(&state);
        let numbers = 1..=rules.clauses.len().min(100) as u32;
        for (first, clause) in numbers.clone().zip(&rules.clauses) {
            for second in numbers.clone() {
                for &pivot in clause {
                    assert_joined(&rules, first, second, pivot, &mut tally);
                }
            }
        }
    }
    assert!(tally.accepted > 10_000, "{tally:?}");
    assert!(tally.one > 3_000 && tally.more > 3_000, "{tally:?}");
    assert!(
        tally.wide > 300 && tally.wide_with_pair > 3_000,
        "{tally:?}"
    );
    assert!(tally.no_room > 10 && tally.not_for_room > 100, "{tally:?}");
    assert!(tally.forks > 40, "{tally:?}");
}
