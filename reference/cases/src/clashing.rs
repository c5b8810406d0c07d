//! Document 02, Note 4: lists with resolutions of clauses that have more than one
//! complementary pair, so that the resolvent has one whatever the pivot is.

use checker::limits::WIDTH;
use checker::records::{record, Step};

use crate::case::Case;
use crate::draft::{Draft, Prefix};
use crate::formulas::{self, filled, random_clause, random_formula, random_prefix, Size};
use crate::prover::{mask, records_of, resolution, Prover};
use crate::random::Random;
use crate::seeded::{loaded, text_of};

/// How the variables of two clauses stand in them.
#[derive(Clone, Copy)]
enum Role {
    Complementary,
    Alike,
    First,
    Second,
}

/// How many variables two clauses have: in different signs, in the same sign, and
/// in one of them only.
#[derive(Clone, Copy)]
pub(crate) struct Shares {
    pub pairs: usize,
    pub alike: usize,
    pub alone: usize,
}

impl Shares {
    /// Shares such that the resolvent has so many literals, as far as it can.
    pub fn of(pairs: usize, alike: usize, literals: usize) -> Shares {
        let most = 2 * (WIDTH - pairs - alike);
        let alone = literals.saturating_sub(2 * (pairs - 1) + alike);
        Shares {
            pairs,
            alike,
            alone: alone.min(most),
        }
    }

    /// Two or more pairs. By choice the resolvent has about as many literals as it
    /// may have.
    fn clashing(random: &mut Random) -> Shares {
        let pairs = random.pick(&[2, 3, 3, 4, 5, 8, 16, 17]);
        let literals = random.pick(&[31, 32, 32, 32, 33, 34]);
        let wide = Shares::of(pairs, random.below(4), literals);
        let some = Shares {
            alone: random.below(8).min(wide.alone),
            ..wide
        };
        random.pick(&[some, some, some, wide, wide])
    }

    /// The roles of all variables, ascending. By choice the pairs stand in front or
    /// behind.
    fn roles(self, random: &mut Random) -> Vec<Role> {
        let room = WIDTH - self.pairs - self.alike;
        let first = random.between(self.alone.saturating_sub(room), self.alone.min(room));
        let mut others = vec![Role::Alike; self.alike];
        others.extend(vec![Role::First; first]);
        others.extend(vec![Role::Second; self.alone - first]);
        random.shuffle(&mut others);
        let pairs = vec![Role::Complementary; self.pairs];
        match random.below(4) {
            0 => [pairs, others].concat(),
            1 => [others, pairs].concat(),
            _ => {
                let mut all = [pairs, others].concat();
                random.shuffle(&mut all);
                all
            }
        }
    }
}

/// Two clauses over ascending variables.
fn pair(random: &mut Random, variables: &[u32], roles: &[Role]) -> [Vec<i32>; 2] {
    let [mut first, mut second] = [Vec::new(), Vec::new()];
    for (&variable, role) in variables.iter().zip(roles) {
        let literal = variable as i32 * random.pick(&[1, -1]);
        match role {
            Role::Complementary => {
                first.push(literal);
                second.push(-literal);
            }
            Role::Alike => {
                first.push(literal);
                second.push(literal);
            }
            Role::First => first.push(literal),
            Role::Second => second.push(literal),
        }
    }
    [first, second]
}

/// As many different numbers up to the last, ascending; by choice the highest ones.
fn some_variables(random: &mut Random, count: usize, last: usize) -> Vec<u32> {
    let lowest = random.pick(&[1, 1, last - count + 1]);
    let mut variables: Vec<u32> = (lowest as u32..=last as u32).collect();
    random.shuffle(&mut variables);
    variables.truncate(count);
    variables.sort_unstable();
    variables
}

/// A formula whose clauses 1 and 2 have two or more complementary pairs.
pub fn formula(random: &mut Random) -> Draft {
    let shares = Shares::clashing(random);
    formula_of(random, shares)
}

/// A formula whose clauses 1 and 2 have such shares. Clauses 3 and 4 are
/// complementary units, and some clauses more follow.
pub(crate) fn formula_of(random: &mut Random, shares: Shares) -> Draft {
    let roles = shares.roles(random);
    let count = roles.len();
    let last = random.pick(&[count, count + 9, 260, 512, 512]).max(count);
    let mut variables = some_variables(random, count, last);
    let unit = random.pick(&variables) as i32;
    let mut clauses = pair(random, &variables, &roles).to_vec();
    clauses.extend([vec![unit], vec![-unit]]);
    random.shuffle(&mut variables);
    let universals = random.below(count.div_ceil(2));
    let (universals, existentials) = variables.split_at(universals);
    let size = Size {
        width: (1, 5),
        ..formulas::SMALL
    };
    for _ in 0..random.below(8) {
        clauses.push(random_clause(random, universals, existentials, size));
    }
    Draft {
        variables: last,
        prefix: random_prefix(random, universals, existentials),
        clauses,
    }
}

/// A formula of a clause of two to six universals and the clause of their
/// complements.
pub fn opposites(random: &mut Random) -> Draft {
    let pairs = random.between(2, 6);
    opposites_of(random, Shares::of(pairs, 0, 0))
}

/// A formula of two clauses over universals with such shares.
pub(crate) fn opposites_of(random: &mut Random, shares: Shares) -> Draft {
    let roles = shares.roles(random);
    let count = roles.len();
    let last = random.pick(&[count, count + 6, 300, 507]);
    let mut variables = some_variables(random, count, last);
    let clauses = pair(random, &variables, &roles);
    random.shuffle(&mut variables);
    Draft {
        variables: last,
        prefix: vec![Prefix::Universals(variables)],
        clauses: clauses.to_vec(),
    }
}

/// On a formula of [`opposites`]: parts clause 1 by forks, one literal of a pair
/// each, as long as they are permitted, and resolves each with clause 2. What is
/// left has a fork variable in the place of each literal parted off, and its
/// complement in the other clause.
pub fn part(prover: &mut Prover) -> (u32, u32) {
    let (mut rest, mut other) = (1, 2);
    let mut literals = prover.opposed(rest, other);
    prover.random.shuffle(&mut literals);
    let some = prover.random.between(1, literals.len());
    literals.truncate(prover.random.pick(&[some, literals.len()]));
    let mut parted = Vec::new();
    for literal in literals {
        let left = prover.state.clauses().len() as u32 + 1;
        if prover.apply(parting(&prover.numbers(rest), rest, literal)) {
            parted.push((left, literal));
            rest = left + 1;
        }
    }
    for (left, literal) in parted {
        prover.apply(resolution(left, other, literal));
        other = prover.state.clauses().len() as u32;
    }
    (rest, other)
}

/// A fork of a clause into one of its literals and the others.
fn parting(numbers: &[i32], clause: u32, literal: i32) -> Step {
    let is_literal = |number: &i32| *number == literal;
    Step::Fork {
        clause,
        left: mask(numbers.iter().map(is_literal)),
        right: mask(numbers.iter().map(|number| !is_literal(number))),
    }
}

/// A resolution with more than one complementary pair of two clauses, in either
/// order; of any two if these have none.
pub fn step(prover: &mut Prover, (first, second): (u32, u32)) -> Option<Step> {
    let (first, second) = prover.random.pick(&[(first, second), (second, first)]);
    match prover.joined(first, second) {
        Some(joined) if joined.has_pair() => Some(joined.step),
        _ => prover.clash(),
    }
}

/// A random formula, or one of this module.
fn draft(random: &mut Random) -> Draft {
    match random.below(20) {
        0..=3 => random_formula(random, formulas::FORKED),
        4 | 5 => random_formula(random, formulas::MEDIUM),
        6 => random_formula(random, formulas::WIDE),
        _ => formula(random),
    }
}

/// Permitted steps, where there is room often to an empty clause.
fn lead(prover: &mut Prover) {
    let tries = prover.random.pick(&[0, 3, 20, 60]);
    prover.wander(tries);
    prover.forks_first = prover.random.chance(70);
    prover.universal_pivots = prover.random.chance(50);
    if prover.state.clauses().len() < 200 && prover.random.chance(40) {
        prover.saturate(60);
    }
}

/// The same with forks that part the clauses, whose new numbers are told.
fn forked_lead(prover: &mut Prover) -> (u32, u32) {
    let clauses = part(prover);
    prover.wander(4);
    clauses
}

/// A list on a formula with clauses for a last step, by choice where there is
/// hardly any room, and sometimes with records behind that step.
pub(crate) fn case_of(
    label: &str,
    (draft, forked): (Draft, bool),
    last: impl Fn(&mut Prover, (u32, u32)) -> Option<Step>,
    random: &mut Random,
) -> Case {
    let text = if !forked && random.chance(40) {
        filled(draft, random).plain()
    } else {
        text_of(&draft, random)
    };
    let mut prover = Prover::new(loaded(&text), random);
    let clauses = if forked {
        forked_lead(&mut prover)
    } else {
        lead(&mut prover);
        (1, 2)
    };
    let last = last(&mut prover, clauses);
    let steps: Vec<Step> = prover.steps.iter().copied().chain(last).collect();
    let mut records = records_of(&steps);
    if prover.random.chance(30) {
        records.extend(records_of(&[prover.random_step()]));
        records.extend(record(4, [0; 3]));
    }
    Case::checked(label, text, records)
}

/// A list up to a resolution with more than one complementary pair.
pub fn case(random: &mut Random) -> Case {
    let start = match random.below(100) {
        0..=14 => (opposites(random), true),
        _ => (draft(random), false),
    };
    case_of("seeded/clash", start, step, random)
}
