//! Document 01, "The refutation statement": nothing that is true is ever refuted,
//! by any checker of texts and records.

use std::collections::BTreeSet;

use cases::bordered::sometimes_spread;
use cases::formulas::{self, random_formula, Size};
use cases::prover::{records_of, trimmed, Prover};
use cases::random::Random;
use checker::driver::Buffers;
use checker::records::{encode, Step};
use checker::state::State;
use decide::decide;

use crate::compare::fields;
use crate::library::{answer, Library};
use crate::scenario::Call;

/// So many of a hundred formulas have bits in all words of their sets.
const SPREAD: usize = 25;

/// How the formulas of a size came out.
#[derive(Debug, Default)]
pub struct Tally {
    pub decided_true: usize,
    pub decided_false: usize,
    pub refuted: usize,
    pub refuted_with_forks: usize,
}

/// What a checker answers on a text and a list of steps.
#[derive(Clone, Copy, Debug, Default)]
pub struct Refuted {
    /// Some run answers refuted: never on a formula that is true.
    pub ever: bool,
    /// Every run that has seen the whole list answers refuted.
    pub at_the_end: bool,
}

/// Small random formulas, decided by trying all families of functions, and lists
/// of permitted steps on them. Panics where a formula that is true is refuted.
pub fn tally(
    size: Size,
    seed: u64,
    count: u64,
    mut refuted: impl FnMut(&[u8], &[u8]) -> Refuted,
) -> Tally {
    let mut tally = Tally::default();
    for index in 0..count {
        let random = &mut Random::for_case(seed, index);
        let draft = random_formula(random, size);
        let text = sometimes_spread(draft, SPREAD, random).loose(random);
        let Some(is_true) = decide(&text) else {
            continue;
        };
        let start = State::load(&text).expect("an accepted text");
        let mut prover = Prover::new(start.clone(), random);
        prover.forks_first = prover.random.chance(70);
        prover.universal_pivots = prover.random.chance(30);
        prover.saturate(200);
        prover.wander(40);
        let refuted = refuted(&text, &records_of(&prover.steps));
        let shown = String::from_utf8_lossy(&text);
        assert!(!(is_true && refuted.ever), "true and refuted:\n{shown}");
        tally.decided_true += usize::from(is_true);
        tally.decided_false += usize::from(!is_true);
        tally.refuted += usize::from(refuted.at_the_end);
        let short = trimmed(&start, &prover.steps).unwrap_or_default();
        tally.refuted_with_forks += usize::from(records_of(&short).chunks(16).any(|r| r[0] == 3));
    }
    tally
}

/// The whole search: 3,600 formulas of three sizes. It would find a checker that
/// refutes too little, since most false formulas of these sizes are within reach.
pub fn searched(mut refuted: impl FnMut(&[u8], &[u8]) -> Refuted) -> [Tally; 3] {
    let sizes = [formulas::TINY, formulas::SMALL, formulas::FORKED];
    let tallies = sizes.map(|size| tally(size, 11, 1_200, &mut refuted));
    let sum = |part: fn(&Tally) -> usize| tallies.iter().map(part).sum::<usize>();
    assert!(sum(|t| t.decided_true) > 600, "{tallies:?}");
    assert!(sum(|t| t.decided_false) > 1_500, "{tallies:?}");
    let most = sum(|t| t.decided_false) * 9;
    assert!(sum(|t| t.refuted) * 10 > most, "{tallies:?}");
    assert!(sum(|t| t.refuted_with_forks) > 30, "{tallies:?}");
    tallies
}

/// A library over buffers of the stated sizes, every run of which is judged.
struct Judged<'a, L: Library> {
    library: &'a mut L,
    buffers: Buffers,
    /// A run has answered refuted.
    refuted: bool,
}

impl<L: Library> Judged<'_, L> {
    fn new(library: &mut L) -> Judged<'_, L> {
        Judged {
            library,
            buffers: Buffers::zero(),
            refuted: false,
        }
    }

    fn answer(&mut self, call: &Call) -> u64 {
        answer(self.library, &mut self.buffers, call, &mut [])
    }

    /// Whether the text is accepted.
    fn loads(&mut self, text: &[u8]) -> bool {
        self.answer(&Call::Load(text.to_vec())) & 0xFFFF == 1
    }

    /// The case of a run: 1 refuted, 2 open, 3 bad.
    fn run(&mut self, records: &[u8]) -> u64 {
        let case = self.answer(&Call::Run(records.to_vec())) & 0xFFFF;
        self.refuted |= case == 1;
        case
    }

    /// The clauses that the library shows.
    fn clauses(&mut self) -> Vec<Vec<i32>> {
        let mut found = Vec::new();
        for number in 1.. {
            if self.answer(&Call::Clause(number)) & 0xFFFF != 1 {
                break;
            }
            let [_, start, length, _] = fields(self.answer(&Call::Show(number)));
            let bytes = &self.buffers.0[0][2 * usize::from(start)..][..2 * usize::from(length)];
            let literal = |pair: &[u8]| i32::from(i16::from_le_bytes([pair[0], pair[1]]));
            found.push(bytes.chunks(2).map(literal).collect());
        }
        found
    }
}

/// A step on the clauses, right or wrong: a resolution on a literal and its
/// complement, a reduction of any literal, a fork into any two parts, also
/// such as do not make the clause.
fn any_step(random: &mut Random, clauses: &[Vec<i32>]) -> Option<Step> {
    if clauses.is_empty() {
        return None;
    }
    let pick = |random: &mut Random| 1 + random.below(clauses.len()) as u32;
    let number = (0..3)
        .map(|_| pick(random))
        .min_by_key(|&n| clauses[n as usize - 1].len())?;
    let clause = &clauses[number as usize - 1];
    if clause.is_empty() {
        return None;
    }
    let literal = clause[random.below(clause.len())];
    Some(match random.below(3) {
        0 => {
            let has = |n: &u32| clauses[*n as usize - 1].contains(&-literal);
            let others: Vec<u32> = (1..=clauses.len() as u32).filter(has).collect();
            let second = *others.get(random.below(others.len().max(1)))?;
            Step::Resolution {
                first: number,
                second,
                pivot: literal,
            }
        }
        1 => Step::Reduction {
            clause: number,
            literal,
        },
        _ => {
            let all = ((1u64 << clause.len()) - 1) as u32;
            let left = random.word() as u32 & all;
            let more = random.word() as u32 & random.word() as u32 & all;
            // Mostly parts that overlap, sometimes parts that leave a literal out.
            let right = match random.below(3) {
                0 => all & !left & !more,
                _ => all & !left | more,
            };
            Step::Fork {
                clause: number,
                left,
                right,
            }
        }
    })
}

/// Every reduction and every resolution that makes a short clause not yet there,
/// without regard to what is permitted.
fn short_steps(clauses: &[Vec<i32>]) -> Vec<Step> {
    let mut seen: BTreeSet<BTreeSet<i32>> = BTreeSet::new();
    seen.extend(
        clauses
            .iter()
            .map(|clause| clause.iter().copied().collect()),
    );
    let numbered = || (1..).zip(clauses).filter(|(_, clause)| clause.len() <= 4);
    let mut steps = Vec::new();
    for (number, clause) in numbered() {
        for &literal in clause {
            let rest = clause.iter().copied().filter(|&l| l != literal);
            if !seen.contains(&rest.clone().collect()) {
                steps.push(Step::Reduction {
                    clause: number,
                    literal,
                });
            }
            for (second, other) in numbered().filter(|(_, other)| other.contains(&-literal)) {
                let others = other.iter().copied().filter(|&l| l != -literal);
                let made: BTreeSet<i32> = rest.clone().chain(others).collect();
                if made.len() <= 3 && seen.insert(made) {
                    steps.push(Step::Resolution {
                        first: number,
                        second,
                        pivot: literal,
                    });
                }
            }
        }
    }
    steps
}

/// Whether any run of a library on the text answers refuted, by steps that are
/// tried without regard to what is permitted: some at random, then short ones in
/// rounds, each step in a run of its own. Then all of them as one list, and the
/// accepted ones as one list, each on the text loaded again.
pub fn refutes_at_random(library: &mut impl Library, text: &[u8], random: &mut Random) -> bool {
    let mut judged = Judged::new(library);
    if !judged.loads(text) {
        return false;
    }
    let (mut tried, mut accepted) = (Vec::new(), Vec::new());
    let mut run = |judged: &mut Judged<_>, step: Step| {
        let record = encode(step);
        tried.extend(record);
        if judged.run(&record) != 3 {
            accepted.extend(record);
        }
    };
    // Few leave more room for the short ones, many reach more.
    for _ in 0..random.pick(&[12, 16, 40]) {
        let clauses = judged.clauses();
        if let Some(step) = any_step(random, &clauses) {
            run(&mut judged, step);
        }
    }
    for _ in 0..5 {
        let clauses = judged.clauses();
        for step in short_steps(&clauses).into_iter().take(120) {
            run(&mut judged, step);
        }
    }
    judged.run(&[]);
    for list in [tried, accepted] {
        judged.loads(text);
        judged.run(&list);
    }
    judged.refuted
}

/// True formulas with such steps; how many there were. Panics where a run on one
/// answers refuted.
pub fn tried_at_random(library: &mut impl Library) -> usize {
    let mut tried = 0;
    for index in 0..5_000 {
        let random = &mut Random::for_case(14, index);
        let size = random.pick(&[formulas::TINY, formulas::SMALL, formulas::FORKED]);
        let draft = random_formula(random, size);
        let text = sometimes_spread(draft, SPREAD, random).plain();
        if decide(&text) == Some(true) {
            let refuted = refutes_at_random(library, &text, random);
            let shown = String::from_utf8_lossy(&text);
            assert!(!refuted, "true and refuted:\n{shown}");
            tried += 1;
        }
    }
    assert!(tried > 600, "{tried}");
    tried
}

/// What a library answers: the steps one by one, then a run of no record; then
/// the text loaded again, and the steps as one list.
pub fn refutes(library: &mut impl Library, text: &[u8], records: &[u8]) -> Refuted {
    let mut judged = Judged::new(library);
    if !judged.loads(text) {
        return Refuted::default();
    }
    for record in records.chunks(16) {
        judged.run(record);
    }
    let one_by_one = judged.run(&[]) == 1;
    judged.loads(text);
    let as_one_list = judged.run(records) == 1;
    Refuted {
        ever: judged.refuted,
        at_the_end: one_by_one && as_one_list,
    }
}
