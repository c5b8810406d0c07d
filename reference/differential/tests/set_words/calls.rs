//! Libraries that treat the words of the sets otherwise in a load, in the tests of
//! the tables or in a question.

use checker::driver::Buffers;
use differential::compare::{compare, fields};
use differential::generate::Scenarios;
use differential::library::{answer, Lean, Lent, Library, Shared};
use differential::scenario::Scenario;

use crate::tally::SCENARIOS;
use crate::words::{count, set};

#[derive(Clone, Copy, Debug, PartialEq)]
enum Fault {
    /// 256 universals are too many.
    Limit255,
    /// 257 universals are not: the last is left out.
    Limit257,
    /// A load writes the words of each set highest first.
    TurnsWords,
    /// A refused load clears the first quarter of the sets.
    ClearsQuarter,
    /// A refused load clears all but the last word.
    KeepsLastWord,
    /// A sets buffer of a quarter of the size is long enough.
    TakesQuarter,
    /// Such a word of a set is not tested, except for the bit of a universal.
    Trusts(usize),
    /// The words behind the variables in use are not tested.
    TrustsTheRest,
    /// A question counts the ones of the first word.
    CountsFirst,
    /// A question counts the ones of all but the last word.
    CountsThree,
}

const FAULTS: [Fault; 12] = [
    Fault::Limit255,
    Fault::Limit257,
    Fault::TurnsWords,
    Fault::ClearsQuarter,
    Fault::KeepsLastWord,
    Fault::TakesQuarter,
    Fault::Trusts(1),
    Fault::Trusts(2),
    Fault::Trusts(3),
    Fault::TrustsTheRest,
    Fault::CountsFirst,
    Fault::CountsThree,
];

/// The fast checker with one fault.
struct Faulty(Fault);

impl Faulty {
    /// The tables that are tested in the place of refused ones.
    fn tested(&self, lent: Shared) -> [Vec<u8>; 5] {
        let mut buffers = lent.map(<[u8]>::to_vec);
        if !matches!(fields(Lean.clause(lent, 0)), [2, 1 | 2, ..]) {
            return buffers;
        }
        let whole = buffers[2].len() >= lean::SIZES[2] && buffers[4].len() >= lean::SIZES[4];
        match self.0 {
            Fault::TakesQuarter if buffers[2].len() >= lean::SIZES[2] / 4 => {
                let length = buffers[2].len().max(lean::SIZES[2]);
                buffers[2].resize(length, 0);
            }
            Fault::Trusts(word) if whole => {
                let sets = buffers[2].chunks_exact_mut(32);
                let places = 8 * word..8 * word + 8;
                for (set, kind) in sets.zip(lent[3]) {
                    let elsewhere = (0..32).any(|i| !places.contains(&i) && set[i] != 0);
                    if *kind != 1 || elsewhere {
                        set[places.clone()].fill(0);
                    }
                }
            }
            Fault::TrustsTheRest if whole => {
                let rest = 32 * count(&buffers[4], 1).min(512);
                buffers[2][rest..].fill(0);
            }
            _ => (),
        }
        buffers
    }

    /// A call that asks, on the tables that are tested.
    fn asked(&self, lent: Shared, call: impl Fn(Shared) -> u64) -> u64 {
        call(self.tested(lent).each_ref().map(Vec::as_slice))
    }
}

impl Library for Faulty {
    fn load(&mut self, text: &[u8], mut lent: Lent) -> u64 {
        let before = lent[2].to_vec();
        let told = Lean.load(text, lent.each_mut().map(|buffer| &mut **buffer));
        let [tag, line, number, _] = fields(told);
        let cleared = tag == 4 && number > 1;
        match self.0 {
            Fault::Limit255 if tag == 1 && count(lent[4], 2) == 256 => {
                return 4 | 2 << 16 | 11 << 32
            }
            Fault::Limit257 if (tag, number) == (4, 11) && universals(text, line) == 257 => {
                return 1
            }
            Fault::TurnsWords if tag == 1 => {
                let sets = lent[2][..lean::SIZES[2]].chunks_exact_mut(32);
                sets.for_each(turn);
            }
            Fault::ClearsQuarter if cleared => lent[2][4_096..].copy_from_slice(&before[4_096..]),
            Fault::KeepsLastWord if cleared => {
                let sets = lent[2][..lean::SIZES[2]].chunks_exact_mut(32);
                for (set, old) in sets.zip(before.chunks(32)) {
                    set[24..].copy_from_slice(&old[24..]);
                }
            }
            _ => (),
        }
        told
    }

    fn run(&mut self, records: &[u8], lent: Lent) -> u64 {
        let mut tested = self.tested(lent.each_ref().map(|buffer| &**buffer));
        match Lean.run(records, lent) {
            // What a run over such tables leaves is not told here.
            refused @ (0x1_0000_0003 | 0x2_0000_0003) => {
                let told = Lean.run(records, tested.each_mut().map(Vec::as_mut_slice));
                told.max(refused)
            }
            told => told,
        }
    }

    fn show(&mut self, lent: Shared, clause: u32) -> u64 {
        self.asked(lent, |lent| Lean.show(lent, clause))
    }

    fn clause(&mut self, lent: Shared, clause: u32) -> u64 {
        self.asked(lent, |lent| Lean.clause(lent, clause))
    }

    fn variable(&mut self, lent: Shared, variable: u32) -> u64 {
        let told = self.asked(lent, |lent| Lean.variable(lent, variable));
        let words = match self.0 {
            Fault::CountsFirst => 1,
            Fault::CountsThree => 3,
            _ => return told,
        };
        if fields(told)[0] != 1 {
            return told;
        }
        let set = set(lent[2], variable as usize);
        let ones: u32 = set[..words].iter().map(|word| word.count_ones()).sum();
        told & 0xFFFF_FFFF | u64::from(ones) << 32
    }

    fn write(&mut self, out: &mut [u8], lent: Shared) -> u64 {
        let tested = self.tested(lent);
        Lean.write(out, tested.each_ref().map(Vec::as_slice))
    }
}

/// Turns the words of a set round.
fn turn(set: &mut [u8]) {
    let words: Vec<Vec<u8>> = set.chunks(8).rev().map(<[u8]>::to_vec).collect();
    set.copy_from_slice(&words.concat());
}

/// The different numbers on `a` lines up to a line.
fn universals(text: &[u8], line: u16) -> usize {
    let text = String::from_utf8_lossy(text);
    let lines = text
        .lines()
        .take(line.into())
        .filter_map(|line| line.strip_prefix('a'));
    let numbers = lines
        .flat_map(str::split_whitespace)
        .filter(|word| *word != "0");
    numbers.collect::<std::collections::BTreeSet<_>>().len()
}

/// Whether the library answers otherwise than the fast checker, or leaves other
/// bytes.
fn differs(scenario: &Scenario, fault: Fault) -> bool {
    let mut buffers = scenario.buffers.clone();
    scenario.calls.iter().any(|call| {
        let mut copy = Buffers(buffers.0.clone());
        let [mut right, mut wrong] = [call.output(), call.output()];
        let one = answer(&mut Lean, &mut buffers, call, &mut right);
        let other = answer(&mut Faulty(fault), &mut copy, call, &mut wrong);
        (one, right) != (other, wrong) || copy != buffers
    })
}

#[test]
fn every_fault_of_another_call_is_found_and_reproduced() {
    let scenarios = Scenarios::new(1);
    let mut found = FAULTS.map(|_| Vec::new());
    for index in 0..SCENARIOS {
        let scenario = scenarios.scenario(index);
        for (found, fault) in found.iter_mut().zip(FAULTS) {
            if differs(&scenario, fault) {
                found.push(index);
            }
        }
    }
    for (found, fault) in found.iter().zip(FAULTS) {
        assert!(found.len() > 20, "{fault:?}: {} scenarios", found.len());
        let scenario = scenarios.scenario(found[0]);
        let first = compare(&scenario, &mut Faulty(fault));
        assert!(first.is_some(), "{fault:?}");
        let again = Scenario::of_file(&scenario.to_file()).expect("a file of a scenario");
        assert_eq!(compare(&again, &mut Faulty(fault)), first, "{fault:?}");
    }
}
