//! The right answers to the runs of the scenarios, with what they refuse, and to
//! the loads that are refused with 11 or 13.

use std::collections::BTreeSet;
use std::sync::OnceLock;

use checker::limits::{CLAUSES, LITERALS, WIDTH};
use differential::compare::fields;
use differential::generate::Scenarios;
use differential::library::Shared;
use differential::oracle;
use differential::scenario::{Call, Scenario};

/// As many as the gate compares.
const SCENARIOS: u64 = 5_000;

/// A resolution of two clauses: what each has beside the pivot and its complement.
#[derive(Clone, PartialEq, Eq, PartialOrd, Ord)]
pub struct Joined {
    pub first: Vec<i32>,
    pub second: Vec<i32>,
    pub pivot: i32,
}

/// What a run answers, and the resolution that it refuses, if it is one of clauses
/// that are there.
pub struct Answer {
    pub fields: [u16; 4],
    joined: Option<Joined>,
    /// The kinds of the variables and V.
    pub kinds: Vec<u8>,
    pub declared: i32,
    /// How many clauses and literals there are.
    clauses: usize,
    literals: usize,
    /// There is an empty clause.
    pub emptied: bool,
    /// How many lists were run since the last load; no load made the tables: none.
    pub lists: Option<usize>,
    /// The variable that an earlier run told; 0: none did.
    pub earlier: u16,
}

/// What a run found before it.
#[derive(Clone, Copy)]
pub struct Before {
    pub lists: Option<usize>,
    pub earlier: u16,
}

impl Before {
    pub const NOTHING: Before = Before {
        lists: None,
        earlier: 0,
    };

    pub fn load(&mut self) {
        self.lists = Some(0);
    }

    pub fn run(&mut self, answer: &Answer) {
        self.lists = self.lists.map(|lists| lists + 1);
        self.earlier = answer.fields[3].max(self.earlier);
    }
}

/// An entry of 16 bits; 0 where there is none.
fn entry(bytes: &[u8], index: usize) -> u16 {
    let bytes = bytes.get(2 * index..2 * index + 2).unwrap_or(&[0, 0]);
    u16::from_le_bytes([bytes[0], bytes[1]])
}

/// The literals of a clause that is there.
fn clause(lent: Shared, number: u32) -> Vec<i32> {
    let end = |number: u32| match number {
        0 => 0,
        _ => entry(lent[1], number as usize - 1).into(),
    };
    let literal = |place| i32::from(entry(lent[0], place) as i16);
    (end(number - 1)..end(number)).map(literal).collect()
}

/// The variables whose two literals are both there, ascending.
pub fn both(literals: &[i32]) -> Vec<i32> {
    let holds = |literal: i32| literals.contains(&literal);
    (1..=512).filter(|&v| holds(v) && holds(-v)).collect()
}

impl Joined {
    /// The resolution of a record, over the buffers that a run has left.
    fn of(record: &[u8], lent: Shared) -> Option<Joined> {
        let word = |at: usize| u32::from_le_bytes([0, 1, 2, 3].map(|i| record[at + i]));
        let there = 1..=u32::from(entry(lent[4], 4));
        let (first, second, pivot) = (word(4), word(8), word(12) as i32);
        if word(0) != 1 || !there.contains(&first) || !there.contains(&second) {
            return None;
        }
        let without = |number: u32, literal: i32| {
            let mut rest = clause(lent, number);
            rest.retain(|&each| each != literal);
            rest
        };
        Some(Joined {
            first: without(first, pivot),
            second: without(second, pivot.checked_neg()?),
            pivot,
        })
    }

    /// The literals of the resolvent, by variables.
    pub fn literals(&self) -> Vec<i32> {
        let all: BTreeSet<(i32, i32)> = self
            .first
            .iter()
            .chain(&self.second)
            .map(|&literal| (literal.abs(), literal))
            .collect();
        all.into_iter().map(|(_, literal)| literal).collect()
    }

    /// Every variable in both signs, ascending.
    pub fn both(&self) -> Vec<i32> {
        both(&self.literals())
    }

    pub fn is_too_wide(&self) -> bool {
        self.literals().len() > WIDTH
    }
}

impl Answer {
    /// The answer to a run, over the buffers that it has left.
    pub fn of(word: u64, records: &[u8], lent: Shared, before: Before) -> Answer {
        let fields = fields(word);
        let step = usize::from(fields[1]);
        let record = match fields[0] {
            3 if step > 0 => records.get(16 * (step - 1)..16 * step),
            _ => None,
        };
        Answer {
            fields,
            joined: record.and_then(|record| Joined::of(record, lent)),
            kinds: lent[3].to_vec(),
            declared: entry(lent[4], 0).into(),
            clauses: entry(lent[4], 4).into(),
            literals: entry(lent[4], 5).into(),
            emptied: entry(lent[4], 7) > 0,
            lists: before.lists,
            earlier: before.earlier,
        }
    }

    /// The resolution that is refused with a number. The pivot and its complement
    /// are there if the number is not 22.
    pub fn refused(&self, number: u16) -> Option<&Joined> {
        let joined = self.joined.as_ref();
        joined.filter(|_| (self.fields[0], self.fields[2]) == (3, number))
    }

    /// The one that is refused with 23 and has over 32 literals.
    pub fn wide_clash(&self) -> Option<&Joined> {
        self.refused(23).filter(|joined| joined.is_too_wide())
    }

    /// Whether the tables have room for a clause.
    pub fn has_room(&self, literals: usize) -> bool {
        self.clauses < CLAUSES && self.literals + literals <= LITERALS
    }

    /// The kind of a variable in use.
    pub fn kind(&self, variable: i32) -> u8 {
        self.kinds[variable as usize - 1]
    }
}

/// The first variable that meets a condition, or the first.
pub fn first_such(both: &[i32], condition: impl Fn(i32) -> bool) -> i32 {
    let mut such = both.iter().copied().filter(|&variable| condition(variable));
    such.next().unwrap_or(both[0])
}

/// The answers of all scenarios, with their numbers.
#[derive(Default)]
pub struct Answers {
    pub runs: Vec<(u64, Answer)>,
    /// The loads that are refused with 11 or 13: the text and the answer.
    pub loads: Vec<(u64, Vec<u8>, [u16; 4])>,
}

/// Made once for all tests.
pub fn answers() -> &'static Answers {
    static ANSWERS: OnceLock<Answers> = OnceLock::new();
    ANSWERS.get_or_init(|| {
        let scenarios = Scenarios::new(1);
        let mut all = Answers::default();
        for index in 0..SCENARIOS {
            all.add(index, scenarios.scenario(index));
        }
        all
    })
}

impl Answers {
    fn add(&mut self, index: u64, scenario: Scenario) {
        let mut buffers = scenario.buffers;
        let mut before = Before::NOTHING;
        for call in scenario.calls {
            let word = oracle::answer(&mut buffers, &call, &mut call.output());
            match call {
                Call::Load(text) => {
                    before.load();
                    if let [4, _, 11 | 13, _] = fields(word) {
                        self.loads.push((index, text, fields(word)));
                    }
                }
                Call::Run(records) => {
                    let lent = buffers.0.each_ref().map(Vec::as_slice);
                    let answer = Answer::of(word, &records, lent, before);
                    before.run(&answer);
                    self.runs.push((index, answer));
                }
                _ => (),
            }
        }
    }
}
