//! Random works, another input for each round: what is timed here, no branch
//! predictor can learn.

use std::ops::RangeInclusive;

use cases::prover::{records_of, resolution, Prover};
use cases::random::Random;
use checker::records::{encode, Step};
use checker::state::State;
use differential::scenario::Call;

use crate::work::{joined, loaded, Input, Work, TEXT_LIMIT};

/// Inputs of a work.
const INPUTS: usize = 101;

const SEED: u64 = 20_261_116;

/// The universals of a formula are 1 to 64, or to 256 where the name says so.
const UNIVERSALS: usize = 64;
const MOST_UNIVERSALS: usize = 256;

fn work(name: String, input: impl Fn(&mut Random) -> Input) -> Work {
    let random = |index| Random::for_case(SEED, index as u64);
    let inputs = (0..INPUTS).map(|index| input(&mut random(index)));
    Work {
        name,
        inputs: inputs.collect(),
    }
}

/// As many different numbers from 1 to the last one, in no order.
fn some(random: &mut Random, last: usize, count: usize) -> Vec<i32> {
    let mut numbers: Vec<i32> = (1..=last as i32).collect();
    random.shuffle(&mut numbers);
    numbers.truncate(count);
    numbers
}

/// A random clause over 512 variables, in no order.
fn clause(random: &mut Random, literals: usize) -> Vec<i32> {
    let mut clause = some(random, 512, literals);
    for literal in &mut clause {
        *literal *= random.pick(&[1, -1]);
    }
    clause
}

/// As many clauses over 512 variables as there is room for behind a prefix.
fn clauses(prefix: &str, random: &mut Random, clause: impl Fn(&mut Random) -> Vec<i32>) -> String {
    let room = TEXT_LIMIT - "p cnf 512 2048\n".len() - prefix.len();
    let (mut lines, mut count, mut literals) = (String::new(), 0, 0);
    loop {
        let clause = clause(random);
        literals += clause.len();
        let line = format!("{} 0\n", joined(clause));
        if count == 2_048 || literals > 8_192 || lines.len() + line.len() > room {
            return format!("p cnf 512 {count}\n{prefix}{lines}");
        }
        lines += &line;
        count += 1;
    }
}

/// As many existentials with random sets as there is room for.
fn random_sets(random: &mut Random, universals: usize) -> String {
    sets_of(random, (1..=universals as i32).collect())
}

/// The same with the universals declared in no order.
fn random_sets_and_bits(random: &mut Random, universals: usize) -> String {
    let universals = some(random, universals, universals);
    sets_of(random, universals)
}

fn sets_of(random: &mut Random, universals: Vec<i32>) -> String {
    let count = universals.len();
    let mut text = format!("p cnf 512 0\na {} 0\n", joined(universals));
    for existential in count as i32 + 1..=512 {
        let members = random.below(count + 1);
        let set = some(random, count, members);
        let words = [existential].into_iter().chain(set).chain([0]);
        let line = format!("d {}\n", joined(words));
        if text.len() + line.len() <= TEXT_LIMIT {
            text += &line;
        }
    }
    text
}

fn load_of_clauses(name: String, clause: impl Fn(&mut Random) -> Vec<i32>) -> Work {
    let name = format!("load, random clauses of {name}");
    let (universals, existentials) = (joined(1..=UNIVERSALS), joined(65..=512));
    let prefix = format!("a {universals} 0\ne {existentials} 0\n");
    work(name, |random| {
        Input::load(clauses(&prefix, random, &clause))
    })
}

pub fn loads() -> Vec<Work> {
    let mut works = Vec::new();
    for literals in [2, 3, 4, 5, 6, 7, 8, 9, 10, 12, 16, 24, 32] {
        works.push(load_of_clauses(
            format!("{literals} literals"),
            move |random| clause(random, literals),
        ));
    }
    for literals in [4, 8, 16, 32] {
        works.push(load_of_clauses(
            format!("{literals} literals, rising"),
            move |random| {
                let mut clause = clause(random, literals);
                clause.sort_by_key(|literal| literal.abs());
                clause
            },
        ));
    }
    works.push(load_of_clauses("1 to 12 literals".into(), |random| {
        let literals = random.between(1, 12);
        clause(random, literals)
    }));
    works.push(load_of_clauses(
        "6 literals, one repeated".into(),
        |random| {
            let mut clause = clause(random, 6);
            clause.push(clause[0]);
            clause
        },
    ));
    for (name, universals) in [("", UNIVERSALS), (", 256 universals", MOST_UNIVERSALS)] {
        works.push(work(format!("load, random sets{name}"), |random| {
            Input::load(random_sets(random, universals))
        }));
    }
    works
}

/// Without universals, so that the text is its clauses for the most part.
fn write_of_clauses(literals: usize) -> Work {
    let name = format!("write, random clauses of {literals} literals");
    let prefix = format!("e {} 0\n", joined(1..=512));
    work(name, |random| {
        let text = clauses(&prefix, random, |random| clause(random, literals));
        Input::write(&text)
    })
}

pub fn writes() -> Vec<Work> {
    let mut works = vec![write_of_clauses(4), write_of_clauses(32)];
    for (name, universals) in [("", UNIVERSALS), (", 256 universals", MOST_UNIVERSALS)] {
        works.push(work(format!("write, random sets{name}"), |random| {
            Input::write(&random_sets(random, universals))
        }));
        let name = match name {
            "" => "universals".into(),
            _ => format!("{universals} universals"),
        };
        works.push(work(
            format!("write, random sets, {name} in no order"),
            |random| Input::write(&random_sets_and_bits(random, universals)),
        ));
    }
    works
}

/// In the formulas of the runs 64 existentials follow the universals; the first are
/// the pivots. Each variable has one sign in all clauses but those of the pivots, of
/// which every clause has one: so two clauses with a complementary pivot have a
/// resolvent.
fn pivots(universals: usize) -> RangeInclusive<i32> {
    universals as i32 + 1..=universals as i32 + 8
}

/// How large a formula of the runs is: universals, members of each set, clauses,
/// and the least and the greatest number of their literals.
#[derive(Clone, Copy)]
struct Size {
    universals: usize,
    members: usize,
    clauses: usize,
    widths: (usize, usize),
}

fn formula(random: &mut Random, size: Size) -> String {
    let Size {
        universals,
        clauses,
        widths,
        ..
    } = size;
    let last = universals + 64;
    let pivots = pivots(universals);
    let mut text = format!("p cnf {last} {clauses}\na {} 0\n", joined(1..=universals));
    for existential in universals + 1..=last {
        let set = some(random, universals, size.members);
        text += &format!("d {existential} {} 0\n", joined(set));
    }
    for _ in 0..clauses {
        let literals = random.between(widths.0, widths.1);
        let mut clause = some(random, last, last);
        clause.retain(|variable| !pivots.contains(variable));
        clause.truncate(literals - 1);
        for literal in clause.iter_mut().filter(|literal| **literal % 3 == 0) {
            *literal = -*literal;
        }
        let pivots: Vec<i32> = pivots.clone().collect();
        clause.push(random.pick(&pivots) * random.pick(&[1, -1]));
        text += &format!("{} 0\n", joined(clause));
    }
    text
}

fn numbers(state: &State, clause: u32) -> Vec<i32> {
    let literals = state.clause(clause).expect("a clause that is there").iter();
    literals.map(|literal| literal.number() as i32).collect()
}

type Propose = fn(&mut Random, &State, clauses: usize) -> Step;

fn resolve(random: &mut Random, state: &State, clauses: usize) -> Step {
    let [first, second] = [0; 2].map(|_| random.between(1, clauses) as u32);
    let mut literals = numbers(state, first).into_iter();
    let pivots = pivots(state.universals().len());
    let pivot = literals.find(|literal| pivots.contains(&literal.abs()));
    resolution(first, second, pivot.expect("a pivot"))
}

fn reduce(random: &mut Random, state: &State, clauses: usize) -> Step {
    let clause = random.between(1, clauses) as u32;
    let literal = random.pick(&numbers(state, clause));
    Step::Reduction { clause, literal }
}

fn fork(random: &mut Random, state: &State, clauses: usize) -> Step {
    let clause = random.between(1, clauses) as u32;
    let all = (1u64 << numbers(state, clause).len()) - 1;
    let [left, both] = [0; 2].map(|_| random.word() & all);
    let right = all & !left | both & random.word() & random.word();
    Step::Fork {
        clause,
        left: left as u32,
        right: right as u32,
    }
}

/// Random steps on the formula's clauses, as many as there is room for.
fn steps(random: &mut Random, text: &str, propose: Propose) -> Vec<Step> {
    let mut state = State::load(text.as_bytes()).expect("an accepted text");
    let clauses = state.clauses().len();
    let (mut steps, mut refused) = (Vec::new(), 0);
    while refused < 1_000 && steps.len() < 2_048 {
        let step = propose(random, &state, clauses);
        if state.step(&encode(step)).is_ok() {
            steps.push(step);
            refused = 0;
        } else {
            refused += 1;
        }
    }
    steps
}

/// Steps of all kinds on late clauses as on early ones.
fn wander(random: &mut Random, text: &str) -> Vec<Step> {
    let state = State::load(text.as_bytes()).expect("an accepted text");
    let mut prover = Prover::new(state, random);
    prover.wander(2_000);
    prover.steps
}

fn run(text: &str, steps: &[Step]) -> Input {
    Input {
        start: loaded(text),
        call: Call::Run(records_of(steps)),
    }
}

const RULES: [(&str, Propose); 3] = [
    ("resolutions", resolve),
    ("reductions", reduce),
    ("forks", fork),
];

/// Random steps by each rule on formulas of a size.
fn runs_on(size: Size, ending: &str) -> Vec<Work> {
    let (least, most) = size.widths;
    let by_rules = RULES.map(|(rule, propose)| {
        let name = format!("random {rule} on clauses of {least} to {most} literals{ending}");
        work(name, |random| {
            let text = formula(random, size);
            let steps = steps(random, &text, propose);
            run(&text, &steps)
        })
    });
    by_rules.into()
}

fn run_of_all_kinds(size: Size, ending: &str) -> Work {
    work(format!("random steps of all kinds{ending}"), |random| {
        let text = formula(random, size);
        let steps = wander(random, &text);
        run(&text, &steps)
    })
}

pub fn runs() -> Vec<Work> {
    let short = Size {
        universals: UNIVERSALS,
        members: 3,
        clauses: 256,
        widths: (2, 8),
    };
    let longer = Size {
        clauses: 96,
        widths: (9, 20),
        ..short
    };
    let wide = Size {
        universals: MOST_UNIVERSALS,
        members: 12,
        ..short
    };
    let few = |size| Size {
        clauses: 64,
        ..size
    };
    let mut works = runs_on(short, "");
    works.extend(runs_on(longer, ""));
    works.push(run_of_all_kinds(few(short), ""));
    works.extend(runs_on(wide, ", 256 universals"));
    works.push(run_of_all_kinds(few(wide), ", 256 universals"));
    works
}
