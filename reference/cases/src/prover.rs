//! A small random prover: it applies valid resolutions, reductions and forks,
//! so that many lists go deep and a good share of them refutes.

use std::collections::{BTreeMap, BTreeSet};

use checker::clause::Clause;
use checker::limits::WIDTH;
use checker::records::{encode, Step};
use checker::refusal::Number;
use checker::rules;
use checker::state::{Kind, State};

use crate::random::Random;

/// The records of a list of steps.
pub fn records_of(steps: &[Step]) -> Vec<u8> {
    steps.iter().flat_map(|&step| encode(step)).collect()
}

/// A state and the steps that led to it.
pub struct Prover<'a> {
    pub random: &'a mut Random,
    pub state: State,
    pub steps: Vec<Step>,
    /// The widest clause that is kept by [`Prover::saturate`].
    pub width: usize,
    /// Whether a clause that forks is left alone from then on.
    pub forks_first: bool,
    /// Whether [`Prover::saturate`] resolves on universals too.
    pub universal_pivots: bool,
}

impl<'a> Prover<'a> {
    pub fn new(state: State, random: &'a mut Random) -> Prover<'a> {
        let widest = state.clauses().iter().map(BTreeSet::len).max();
        Prover {
            random,
            state,
            steps: Vec::new(),
            width: widest.unwrap_or(0).max(3) + 1,
            forks_first: false,
            universal_pivots: false,
        }
    }

    /// Applies a step if the rules permit it.
    pub fn apply(&mut self, step: Step) -> bool {
        let accepted = self.state.step(&encode(step)).is_ok();
        if accepted {
            self.steps.push(step);
        }
        accepted
    }

    /// Applies a step if its first clause is narrow and no clause implies it.
    fn apply_if_new(&mut self, step: Step) -> bool {
        let Ok(addition) = rules::examine(&self.state, step) else {
            return false;
        };
        let new = &addition.clauses[0];
        let known = |clause: &Clause| clause.is_subset(new);
        if new.len() > self.width || self.state.clauses().iter().any(known) {
            return false;
        }
        self.apply(step)
    }

    /// The literals of a clause that is there.
    pub fn numbers(&self, clause: u32) -> Vec<i32> {
        let clause = self.state.clause(clause).expect("a clause that is there");
        clause
            .iter()
            .map(|literal| literal.number() as i32)
            .collect()
    }

    fn is_refuted(&self) -> bool {
        self.state.lowest_empty().is_some()
    }

    /// Takes the narrowest clause, reduces it, or else resolves it with all
    /// taken before and forks it, until the empty clause or the limit is there.
    pub fn saturate(&mut self, limit: usize) {
        let all = 1..=self.state.clauses().len() as u32;
        self.saturate_from(all.collect(), limit);
    }

    /// [`Prover::saturate`] from some of the clauses so far.
    pub fn saturate_from(&mut self, mut waiting: BTreeSet<u32>, limit: usize) {
        let mut taken: Vec<u32> = Vec::new();
        let mut entered = self.state.clauses().len() as u32;
        while !self.is_refuted() && self.steps.len() < limit {
            let count = self.state.clauses().len() as u32;
            waiting.extend(entered + 1..=count);
            entered = count;
            let Some(given) = self.next_of(&waiting) else {
                return;
            };
            waiting.remove(&given);
            if self.reduce(given) {
                continue;
            }
            if self.forks_first && self.fork_by_sets(given) {
                continue;
            }
            taken.push(given);
            self.resolve_with_all(given, &taken, limit);
            if !self.forks_first {
                self.fork_by_sets(given);
            }
        }
    }

    /// Mostly the narrowest waiting clause.
    fn next_of(&mut self, waiting: &BTreeSet<u32>) -> Option<u32> {
        if self.random.chance(5) && !waiting.is_empty() {
            let all: Vec<u32> = waiting.iter().copied().collect();
            return Some(self.random.pick(&all));
        }
        let width = |number: &u32| self.state.clause(*number).map_or(0, BTreeSet::len);
        waiting.iter().copied().min_by_key(width)
    }

    /// Reduces one literal; the reduced clause implies the given one.
    fn reduce(&mut self, clause: u32) -> bool {
        let reductions = self.numbers(clause).into_iter();
        let mut steps = reductions.map(|literal| Step::Reduction { clause, literal });
        steps.any(|step| {
            let addition = rules::examine(&self.state, step);
            addition.is_ok_and(|a| self.state.clauses().contains(&a.clauses[0]) || self.apply(step))
        })
    }

    fn resolve_with_all(&mut self, given: u32, taken: &[u32], limit: usize) {
        let mut numbers = self.numbers(given);
        let is_universal = |pivot: &i32| self.state.kind(pivot.unsigned_abs()) == Kind::Universal;
        numbers.retain(|pivot| self.universal_pivots || !is_universal(pivot));
        for &other in taken {
            for &pivot in &numbers {
                let step = if self.random.chance(50) {
                    resolution(given, other, pivot)
                } else {
                    resolution(other, given, -pivot)
                };
                self.apply_if_new(step);
                if self.is_refuted() || self.steps.len() >= limit {
                    return;
                }
            }
        }
    }

    /// Forks a clause: what one literal's set covers against the rest.
    fn fork_by_sets(&mut self, clause: u32) -> bool {
        let numbers = self.numbers(clause);
        if numbers.len() < 2 {
            return false;
        }
        let set = |literal: &i32| &self.state.variables()[literal.unsigned_abs() as usize - 1].set;
        let anchor = self.random.below(numbers.len());
        let covered = |l: &i32| set(l).is_subset(set(&numbers[anchor]));
        let left = mask(numbers.iter().map(covered));
        let right = mask(numbers.iter().map(|literal| !covered(literal)));
        self.apply(Step::Fork {
            clause,
            left,
            right,
        })
    }

    /// Tries random steps, with a taste for late clauses.
    pub fn wander(&mut self, tries: usize) {
        for _ in 0..tries {
            let step = self.random_step();
            self.apply(step);
        }
    }

    /// Steps that are permitted or fail for want of room only.
    pub fn without_room(&mut self, wanted: usize) -> Vec<Step> {
        let mut steps = Vec::new();
        for _ in 0..200 {
            let step = self.random_step();
            let found = rules::examine(&self.state, step);
            if steps.len() < wanted && matches!(found, Ok(_) | Err(Number::NoRoom)) {
                self.apply(step);
                steps.push(step);
            }
        }
        steps
    }

    /// A step that has a fair chance to be permitted.
    pub fn random_step(&mut self) -> Step {
        let clause = self.random_clause();
        let numbers = if clause == 0 {
            vec![]
        } else {
            self.numbers(clause)
        };
        if numbers.is_empty() {
            return Step::Reduction { clause, literal: 1 };
        }
        let literal = self.random.pick(&numbers);
        match self.random.below(4) {
            0 => self.random_fork(clause, &numbers),
            1 => Step::Reduction { clause, literal },
            _ => self.random_resolution(clause, literal),
        }
    }

    fn random_clause(&mut self) -> u32 {
        let count = self.state.clauses().len();
        if count == 0 {
            return 0;
        }
        let late = count.min(6);
        let number = if self.random.chance(60) {
            count - self.random.below(late)
        } else {
            self.random.between(1, count)
        };
        number as u32
    }

    /// A resolution whose second clause holds the complement, if there is one.
    fn random_resolution(&mut self, first: u32, pivot: i32) -> Step {
        let holds = |clause: &Clause| clause.iter().any(|l| l.number() == -i64::from(pivot));
        let clauses = (1..).zip(self.state.clauses());
        let fitting: Vec<u32> = clauses.filter(|(_, c)| holds(c)).map(|(n, _)| n).collect();
        let second = if fitting.is_empty() {
            self.random_clause()
        } else {
            self.random.pick(&fitting)
        };
        resolution(first, second, pivot)
    }

    /// The literals of a clause whose complements are in another one.
    pub fn opposed(&self, first: u32, second: u32) -> Vec<i32> {
        let others = self.numbers(second);
        let mut opposed = self.numbers(first);
        opposed.retain(|literal| others.contains(&-literal));
        opposed
    }

    /// A resolution of two clauses on any of their complementary pairs.
    pub fn joined(&mut self, first: u32, second: u32) -> Option<Joined> {
        let mut both = self.opposed(first, second);
        if both.is_empty() {
            return None;
        }
        let pivot = both.remove(self.random.below(both.len()));
        let [one, other] = [first, second].map(|clause| self.numbers(clause));
        let alike = one.iter().filter(|literal| other.contains(literal));
        Some(Joined {
            step: resolution(first, second, pivot),
            both: both.iter().map(|literal| literal.unsigned_abs()).collect(),
            literals: one.len() + other.len() - 2 - alike.count(),
        })
    }

    /// Such resolutions of random clauses.
    fn some_joined(&mut self) -> Vec<Joined> {
        let mut found = Vec::new();
        for _ in 0..60 {
            let (first, second) = (self.random_clause(), self.random_clause());
            if first != 0 {
                found.extend(self.joined(first, second));
            }
        }
        found
    }

    /// A resolution of clauses that have more than one complementary pair: the first
    /// found, the one with the most pairs, or one with pairs of high variables, as
    /// forks have them.
    pub fn clash(&mut self) -> Option<Step> {
        let mut found = self.some_joined();
        found.retain(Joined::has_pair);
        let chosen = match self.random.below(3) {
            0 => found.first(),
            1 => found.iter().max_by_key(|joined| joined.both.len()),
            _ => found.iter().max_by_key(|joined| joined.both[0]),
        };
        chosen.map(|joined| joined.step)
    }

    /// A resolution whose resolvent has too many literals, with or without a
    /// complementary pair, if one of that kind is found: the first or the narrowest.
    pub fn too_wide(&mut self, with_pair: bool) -> Option<Step> {
        let mut found = self.some_joined();
        found.retain(|joined| joined.is_too_wide() && joined.has_pair() == with_pair);
        let chosen = match self.random.below(2) {
            0 => found.first(),
            _ => found.iter().min_by_key(|joined| joined.literals),
        };
        chosen.map(|joined| joined.step)
    }

    /// A fork into random parts; few literals are in both.
    fn random_fork(&mut self, clause: u32, numbers: &[i32]) -> Step {
        let sides: Vec<usize> = numbers.iter().map(|_| self.random.below(9)).collect();
        Step::Fork {
            clause,
            left: mask(sides.iter().map(|&side| side < 5)),
            right: mask(sides.iter().map(|&side| side >= 4)),
        }
    }
}

/// A resolution on complementary literals.
pub struct Joined {
    pub step: Step,
    /// The variables that the resolvent holds in both signs, ascending.
    pub both: Vec<u32>,
    /// How many literals it has.
    pub literals: usize,
}

impl Joined {
    pub fn has_pair(&self) -> bool {
        !self.both.is_empty()
    }

    pub fn is_too_wide(&self) -> bool {
        self.literals > WIDTH
    }
}

pub fn resolution(first: u32, second: u32, pivot: i32) -> Step {
    Step::Resolution {
        first,
        second,
        pivot,
    }
}

/// The mask that picks such places.
pub(crate) fn mask(places: impl Iterator<Item = bool>) -> u32 {
    let bits = places.enumerate().filter(|&(_, picked)| picked);
    bits.fold(0, |mask, (place, _)| mask | 1 << place)
}

/// Keeps the steps that the first empty clause needs, with clauses and fork
/// variables numbered anew. Their order stays, so the masks stay right.
pub fn trimmed(start: &State, steps: &[Step]) -> Option<Vec<Step>> {
    let mut end = start.clone();
    for &step in steps {
        end.step(&encode(step)).ok()?;
    }
    let mut needed = BTreeSet::from([end.lowest_empty()? as u32]);
    let kept = kept_steps(start, steps, &mut needed);
    let mut numbering = Numbering::new(start);
    let mut list = Vec::new();
    for (&step, keep) in steps.iter().zip(kept) {
        list.extend(numbering.pass(step, keep));
    }
    Some(list)
}

/// Which steps derive a needed clause; marks what they need in turn.
fn kept_steps(start: &State, steps: &[Step], needed: &mut BTreeSet<u32>) -> Vec<bool> {
    let mut last = start.clauses().len() as u32;
    let derived = steps.iter().map(|step| {
        let first = last + 1;
        last += added(*step);
        first..=last
    });
    let derived: Vec<_> = derived.collect();
    let mut kept = vec![false; steps.len()];
    for (index, clauses) in derived.into_iter().enumerate().rev() {
        if clauses.into_iter().any(|clause| needed.contains(&clause)) {
            kept[index] = true;
            needed.extend(premises(steps[index]));
        }
    }
    kept
}

fn added(step: Step) -> u32 {
    match step {
        Step::Fork { .. } => 2,
        _ => 1,
    }
}

fn premises(step: Step) -> Vec<u32> {
    match step {
        Step::Resolution { first, second, .. } => vec![first, second],
        Step::Reduction { clause, .. } | Step::Fork { clause, .. } => vec![clause],
    }
}

/// Old numbers of clauses and variables with their new ones.
struct Numbering {
    clauses: BTreeMap<u32, u32>,
    variables: BTreeMap<u32, u32>,
    old: (u32, u32),
}

impl Numbering {
    fn new(start: &State) -> Numbering {
        let clauses = start.clauses().len() as u32;
        let variables = start.variables().len() as u32;
        Numbering {
            clauses: (1..=clauses).map(|n| (n, n)).collect(),
            variables: (1..=variables).map(|n| (n, n)).collect(),
            old: (clauses, variables),
        }
    }

    /// Counts a step, and gives it in the new numbers if it is kept.
    fn pass(&mut self, step: Step, keep: bool) -> Option<Step> {
        let renumbered = keep.then(|| self.renumbered(step));
        for _ in 0..added(step) {
            self.old.0 += 1;
            if keep {
                let new = self.clauses.len() as u32 + 1;
                self.clauses.insert(self.old.0, new);
            }
        }
        if matches!(step, Step::Fork { .. }) {
            self.old.1 += 1;
            if keep {
                let new = self.variables.len() as u32 + 1;
                self.variables.insert(self.old.1, new);
            }
        }
        renumbered
    }

    fn renumbered(&self, step: Step) -> Step {
        let clause = |old: u32| self.clauses[&old];
        let literal = |old: i32| old.signum() * self.variables[&old.unsigned_abs()] as i32;
        match step {
            Step::Resolution {
                first,
                second,
                pivot,
            } => resolution(clause(first), clause(second), literal(pivot)),
            Step::Reduction {
                clause: old,
                literal: number,
            } => Step::Reduction {
                clause: clause(old),
                literal: literal(number),
            },
            Step::Fork {
                clause: old,
                left,
                right,
            } => Step::Fork {
                clause: clause(old),
                left,
                right,
            },
        }
    }
}
