//! Random valid formulas, and the formulas printed in the sources: 002, section
//! 5, and in 000 Theorem 2 and the families F and G.

use checker::limits::{CLAUSES, TEXT_BYTES};

use crate::bordered::COUNTS;
use crate::draft::{Draft, Prefix};
use crate::random::Random;

/// How large a random formula may be.
#[derive(Clone, Copy, Debug)]
pub struct Size {
    pub universals: (usize, usize),
    pub existentials: (usize, usize),
    pub clauses: (usize, usize),
    pub width: (usize, usize),
    /// Existential literals that a clause has at least, as far as there are any.
    pub least: usize,
    /// How many of a hundred literals are positive.
    pub positive: usize,
}

/// Small enough to be decided by meaning; often refuted by a single step.
pub const TINY: Size = Size {
    universals: (0, 3),
    existentials: (1, 3),
    clauses: (1, 8),
    width: (0, 3),
    least: 0,
    positive: 50,
};

/// Small enough to be decided by meaning.
pub const SMALL: Size = Size {
    universals: (1, 3),
    existentials: (2, 4),
    clauses: (3, 16),
    width: (1, 4),
    least: 1,
    positive: 50,
};

/// Small, and with clauses that fork.
pub const FORKED: Size = Size {
    universals: (2, 3),
    existentials: (2, 4),
    clauses: (6, 18),
    width: (2, 4),
    least: 2,
    positive: 50,
};

/// No universal: a propositional formula.
pub const PROPOSITIONAL: Size = Size {
    universals: (0, 0),
    existentials: (2, 6),
    clauses: (6, 28),
    width: (1, 3),
    least: 1,
    positive: 50,
};

pub const MEDIUM: Size = Size {
    universals: (2, 12),
    existentials: (4, 20),
    clauses: (10, 50),
    width: (2, 6),
    least: 2,
    positive: 50,
};

/// Clauses near the greatest width.
pub const WIDE: Size = Size {
    universals: (8, 40),
    existentials: (20, 60),
    clauses: (4, 20),
    width: (8, 32),
    least: 2,
    positive: 50,
};

/// Clauses near the greatest width with few negated literals, so that many
/// resolvents are too wide and hold no variable in both signs.
pub const ALIKE: Size = Size {
    width: (16, 32),
    positive: 92,
    ..WIDE
};

/// Numbers of two digits, so that many literals fit into a text.
pub const CROWDED: Size = Size {
    universals: (10, 20),
    existentials: (20, 40),
    clauses: (10, 30),
    width: (2, 32),
    least: 2,
    positive: 50,
};

/// A random formula within a size; some variables below V stay undeclared.
pub fn random_formula(random: &mut Random, size: Size) -> Draft {
    let universals = random.between(size.universals.0, size.universals.1);
    let existentials = random.between(size.existentials.0, size.existentials.1);
    let declared = universals + existentials;
    let spare = if random.chance(30) {
        random.below(4)
    } else {
        0
    };
    let mut numbers: Vec<u32> = (1..=(declared + spare) as u32).collect();
    if random.chance(50) {
        random.shuffle(&mut numbers);
    }
    let (universals, rest) = numbers.split_at(universals);
    let existentials = &rest[..existentials];
    let prefix = random_prefix(random, universals, existentials);
    let count = random.between(size.clauses.0, size.clauses.1);
    let clauses = (0..count).map(|_| random_clause(random, universals, existentials, size));
    Draft {
        variables: declared + spare,
        prefix,
        clauses: clauses.collect(),
    }
}

/// One to many `a` lines, and a line for every one or few existentials; an `e`
/// line stands anywhere among the `a` lines.
pub(crate) fn random_prefix(
    random: &mut Random,
    universals: &[u32],
    existentials: &[u32],
) -> Vec<Prefix> {
    let mut prefix = universal_lines(random, universals);
    let percent = random.pick(&[25, 50, 50, 75]);
    let on_e_lines = random.pick(&[20, 20, 60]);
    let mut rest = existentials;
    while !rest.is_empty() {
        if random.chance(on_e_lines) {
            let (named, behind) = rest.split_at(random.between(1, rest.len()));
            let place = random.below(prefix.len() + 1);
            prefix.insert(place, Prefix::Existentials(named.to_vec()));
            rest = behind;
        } else {
            let set = random.some(universals, percent);
            let place = random.between(first_place(&prefix, &set), prefix.len());
            prefix.insert(place, Prefix::Existential(rest[0], set));
            rest = &rest[1..];
        }
    }
    prefix
}

/// The universals on one or two `a` lines, or on lines of a few each.
pub(crate) fn universal_lines(random: &mut Random, universals: &[u32]) -> Vec<Prefix> {
    let few = random.chance(40);
    let mut lines = Vec::new();
    let mut rest = universals;
    while !rest.is_empty() {
        let length = match lines.len() {
            _ if few => random.between(1, 3).min(rest.len()),
            0 => random.between(1, rest.len()),
            _ => rest.len(),
        };
        let (named, behind) = rest.split_at(length);
        lines.push(Prefix::Universals(named.to_vec()));
        rest = behind;
    }
    lines
}

/// A formula of 0 to 256 universals anywhere among the variables, on several lines
/// and in any order, with empty, full and other sets. Sometimes all variables up
/// to 512 are declared, many behind all universals, so that the tidy text is longer
/// than a load takes.
pub fn prefixed_formula(random: &mut Random) -> Draft {
    let few = random.pick(&[0, 1, 2, 10, 31, 32, 33, 63, 64, 64]);
    let many = random.pick(&COUNTS);
    let universals = random.pick(&[few, few, many]);
    let most = 4_000 / universals.max(1);
    let existentials = random.pick(&[0, 1, 5, 20, 60]).min(most);
    let declared = universals + existentials;
    let variables = random.pick(&[declared, declared + 1, 100, 512, 512]);
    let mut numbers: Vec<u32> = (1..=variables.max(declared) as u32).collect();
    if random.chance(80) {
        random.shuffle(&mut numbers);
    }
    let (universals, rest) = numbers.split_at(universals);
    let (existentials, others) = rest.split_at(existentials);
    let mut prefix = large_prefix(random, universals, existentials);
    if !others.is_empty() && random.chance(50) {
        let anywhere = random.below(prefix.len() + 1);
        let place = random.pick(&[anywhere, prefix.len()]);
        prefix.insert(place, Prefix::Existentials(others.to_vec()));
    }
    let size = Size {
        width: (0, 8),
        ..SMALL
    };
    let count = random.below(12);
    let clauses = (0..count).map(|_| random_clause(random, universals, existentials, size));
    Draft {
        variables: numbers.len(),
        prefix,
        clauses: clauses.collect(),
    }
}

/// Up to four `a` lines; each existential is on a `d` line, or on an `e` line
/// anywhere.
fn large_prefix(random: &mut Random, universals: &[u32], existentials: &[u32]) -> Vec<Prefix> {
    let most = universals.len().max(1);
    let lines = universals.chunks(random.between(most.div_ceil(4), most));
    let mut prefix: Vec<Prefix> = lines
        .map(|line| Prefix::Universals(line.to_vec()))
        .collect();
    let on_e_lines = random.pick(&[0, 20, 50]);
    for &existential in existentials {
        if random.chance(on_e_lines) {
            let place = random.below(prefix.len() + 1);
            prefix.insert(place, Prefix::Existentials(vec![existential]));
            continue;
        }
        let percent = random.pick(&[0, 10, 50, 90, 100]);
        let set = random.some(universals, percent);
        let place = random.between(first_place(&prefix, &set), prefix.len());
        prefix.insert(place, Prefix::Existential(existential, set));
    }
    prefix
}

/// The first place behind all `a` lines that declare a member of the set.
fn first_place(prefix: &[Prefix], set: &[u32]) -> usize {
    let declares = |line: &Prefix| match line {
        Prefix::Universals(named) => named.iter().any(|variable| set.contains(variable)),
        _ => false,
    };
    prefix.iter().rposition(declares).map_or(0, |last| last + 1)
}

/// A clause of different variables.
pub(crate) fn random_clause(
    random: &mut Random,
    universals: &[u32],
    existentials: &[u32],
    size: Size,
) -> Vec<i32> {
    let mut first = existentials.to_vec();
    random.shuffle(&mut first);
    let mut rest = first.split_off(size.least.min(first.len()));
    rest.extend(universals);
    random.shuffle(&mut rest);
    let width = random.between(size.width.0, size.width.1);
    let chosen = first.into_iter().chain(rest).take(width);
    let signed = chosen.map(|variable| {
        let number = variable as i32;
        if random.chance(size.positive) {
            number
        } else {
            -number
        }
    });
    signed.collect()
}

/// A formula near one of the limits: variables, clauses or literals.
pub fn crowded_formula(random: &mut Random) -> Draft {
    let mut draft = random_formula(random, CROWDED);
    match random.below(3) {
        0 => draft.variables = random.between(505, 512),
        1 => {
            let unit = vec![draft.clauses[0][0]];
            draft.clauses.resize(random.between(2_030, 2_048), unit);
        }
        _ => fill_with_literals(&mut draft, random.between(8_120, 8_192)),
    }
    draft
}

/// Repeats clauses until there is no room for another one, or hardly any.
pub(crate) fn filled(mut draft: Draft, random: &mut Random) -> Draft {
    let mut long = draft.clone();
    fill_with_literals(&mut long, random.between(8_170, 8_192));
    let fits = long.clauses.len() <= CLAUSES && long.plain().len() <= TEXT_BYTES;
    if fits && random.chance(50) {
        return long;
    }
    let unit = vec![draft.clauses[0][0]];
    draft
        .clauses
        .resize(random.between(CLAUSES - 3, CLAUSES), unit);
    draft
}

/// Repeats clauses until there are so many literals.
fn fill_with_literals(draft: &mut Draft, literals: usize) {
    let widest = draft.clauses.iter().max_by_key(|clause| clause.len());
    let widest = widest.cloned().unwrap_or_default();
    let used: usize = draft.clauses.iter().map(Vec::len).sum();
    let mut missing = literals - used;
    while missing > 0 {
        let width = missing.min(widest.len());
        draft.clauses.push(widest[..width].to_vec());
        missing -= width;
    }
}

/// 000, section 6: (all universals) is equivalent to (y1 = y2), where y1 and y2
/// see one half each. Appends the clauses and the prefix lines.
fn add_equivalence(draft: &mut Draft, half: usize) {
    let base = draft.variables as i32;
    let first: Vec<i32> = (1..=half as i32).map(|i| base + i).collect();
    let second: Vec<i32> = first.iter().map(|x| x + half as i32).collect();
    let all = [first.clone(), second.clone()].concat();
    let (y1, y2) = (base + 2 * half as i32 + 1, base + 2 * half as i32 + 2);
    let set = |part: &[i32]| part.iter().map(|&x| x as u32).collect::<Vec<u32>>();
    draft.prefix.push(Prefix::Universals(set(&all)));
    draft
        .prefix
        .push(Prefix::Existential(y1 as u32, set(&first)));
    draft
        .prefix
        .push(Prefix::Existential(y2 as u32, set(&second)));
    let negated: Vec<i32> = all.iter().map(|x| -x).collect();
    draft
        .clauses
        .push([negated.clone(), vec![y1, -y2]].concat());
    draft.clauses.push([negated, vec![-y1, y2]].concat());
    for x in all {
        draft.clauses.push(vec![x, y1, y2]);
        draft.clauses.push(vec![x, -y1, -y2]);
    }
    draft.variables = y2 as usize;
}

/// F_n of 000, section 6; F_0 is the example of 002, section 5.
pub fn family_f(n: usize) -> Draft {
    let mut draft = Draft::default();
    add_equivalence(&mut draft, n + 1);
    draft
}

/// G_n of 000, section 6.
pub fn family_g(n: usize) -> Draft {
    let mut draft = Draft::default();
    for i in 0..=n {
        add_equivalence(&mut draft, i + 1);
    }
    draft
}

/// F_n under another numbering, with some signs turned and the clauses mixed.
pub fn disguised_family(random: &mut Random, n: usize) -> Draft {
    let mut draft = family_f(n);
    draft.variables += random.below(3);
    let mut numbers: Vec<u32> = (1..=draft.variables as u32).collect();
    random.shuffle(&mut numbers);
    let renamed = |variable: u32| numbers[variable as usize - 1];
    for line in &mut draft.prefix {
        match line {
            Prefix::Universals(named) | Prefix::Existentials(named) => {
                named.iter_mut().for_each(|v| *v = renamed(*v));
            }
            Prefix::Existential(variable, set) => {
                *variable = renamed(*variable);
                set.iter_mut().for_each(|v| *v = renamed(*v));
            }
        }
    }
    let flipped: Vec<bool> = numbers.iter().map(|_| random.chance(50)).collect();
    for literal in draft.clauses.iter_mut().flatten() {
        let variable = literal.unsigned_abs();
        let sign = if flipped[variable as usize - 1] {
            -1
        } else {
            1
        };
        *literal = literal.signum() * sign * renamed(variable) as i32;
    }
    random.shuffle(&mut draft.clauses);
    draft
}

/// The formula and the steps of 002, section 5.
pub const EXAMPLE: &[u8] = include_bytes!("../../checker/tests/data/ex002_formula.dq");
pub const EXAMPLE_STEPS: &[u8] = include_bytes!("../../checker/tests/data/ex002_steps.bin");

/// The formula of 000, Theorem 2: false, and no rule applies to it.
pub const THEOREM: &[u8] = include_bytes!("../../checker/tests/data/thm2_000.dq");
