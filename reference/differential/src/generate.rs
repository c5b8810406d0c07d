//! Seeded scenarios: texts with records over used buffers, well-formed tables,
//! nearly well-formed ones, noise, and buffers that are too short. In many of them
//! tidy texts are written.

use cases::case::Case;
use cases::lent::{damaged, well_formed, LentCase};
use cases::random::Random;
use cases::seeded;
use checker::driver::{Buffers, SIZES};
use checker::limits::TIDY_BYTES;

use crate::oracle;
use crate::scenario::{Call, Scenario};

/// The scenarios of a seed, the fixed cases first.
pub struct Scenarios {
    seed: u64,
    fixed: Vec<Case>,
}

impl Scenarios {
    pub fn new(seed: u64) -> Scenarios {
        let fixed = cases::fixed();
        Scenarios { seed, fixed }
    }

    /// The text and the records behind a scenario, if it has them.
    pub fn case(&self, index: u64) -> Option<Case> {
        if let Some(case) = self.fixed.get(index as usize) {
            return Some(case.clone());
        }
        match self.choice(index) {
            0..=59 => Some(seeded::case(self.seed, index)),
            _ if self.has_large_prefix(index) => Some(seeded::prefixed(self.seed, index)),
            65..=74 => Some(seeded::bordered(self.seed, index)),
            _ => None,
        }
    }

    /// What a seeded scenario is made from.
    fn choice(&self, index: u64) -> usize {
        Random::for_case(self.seed ^ 1, index).below(100)
    }

    fn has_large_prefix(&self, index: u64) -> bool {
        matches!(self.choice(index), 60..=64)
    }

    pub fn scenario(&self, index: u64) -> Scenario {
        let random = &mut Random::for_case(!self.seed, index);
        let (label, buffers, calls) = match self.case(index) {
            Some(case) => text_and_records(case, random),
            None => tables(self.seed, index, random),
        };
        let calls = if self.has_large_prefix(index) || random.chance(40) {
            with_writes(&buffers, calls, random)
        } else {
            calls
        };
        Scenario {
            label: format!("seed {} number {index}: {label}", self.seed),
            buffers,
            calls,
        }
    }
}

type Parts = (String, Buffers, Vec<Call>);

/// Loads the text into used buffers and runs the records, at once or in two
/// lists; sometimes all once more.
fn text_and_records(case: Case, random: &mut Random) -> Parts {
    let mut buffers = Buffers::zero();
    if random.chance(50) {
        noise(&mut buffers, random);
    }
    lengthen(&mut buffers, random);
    if random.chance(6) {
        shorten(&mut buffers, random);
    }
    let mut calls = Vec::new();
    for _ in 0..random.pick(&[1, 1, 1, 1, 2]) {
        calls.push(Call::Load(case.text.clone()));
        ask(&mut calls, random);
        let records = case.records.len() / 16;
        let anywhere = 16 * random.below(records + 1);
        let cut = random.pick(&[0, anywhere]);
        let (first, rest) = case.records.split_at(cut);
        if cut > 0 {
            calls.push(Call::Run(first.to_vec()));
            ask(&mut calls, random);
        }
        calls.push(Call::Run(rest.to_vec()));
        ask(&mut calls, random);
    }
    (case.label, buffers, calls)
}

/// Runs and questions on tables that no load has made.
fn tables(seed: u64, index: u64, random: &mut Random) -> Parts {
    let choice = random.below(10);
    let (label, LentCase { lent, records }) = match choice {
        0..=2 => ("well-formed tables", well_formed(seed, index)),
        _ => ("damaged tables", damaged(seed, index)),
    };
    let [literals, ends, sets, kinds] = lent.tables.bytes();
    let mut buffers = Buffers([literals, ends, sets, kinds, lent.counts.bytes()]);
    lengthen(&mut buffers, random);
    let label = match choice {
        7 => {
            flip(&mut buffers, random);
            "bits flipped in tables"
        }
        8 => {
            shorten(&mut buffers, random);
            "short tables"
        }
        9 => {
            noise(&mut buffers, random);
            "noise for tables"
        }
        _ => label,
    };
    let mut calls = Vec::new();
    ask(&mut calls, random);
    for _ in 0..random.between(1, 2) {
        calls.push(Call::Run(records.clone()));
        ask(&mut calls, random);
    }
    (label.into(), buffers, calls)
}

/// Puts writes behind the last call and behind some others that change tables or
/// refuse them. The last text is loaded again and written once more.
fn with_writes(buffers: &Buffers, calls: Vec<Call>, random: &mut Random) -> Vec<Call> {
    let mut buffers = buffers.clone();
    let mut all = Vec::new();
    let mut text = Vec::new();
    let last = calls.len() - 1;
    for (index, call) in calls.into_iter().enumerate() {
        let changes = matches!(call, Call::Load(_) | Call::Run(_));
        if changes {
            oracle::answer(&mut buffers, &call, &mut []);
        }
        all.push(call);
        if index == last || changes && random.chance(40) {
            text = tidy_text(&buffers);
            all.extend(writes(text.len(), random));
        }
    }
    if !text.is_empty() {
        all.extend([Call::Write(text.len()), Call::Load(text.clone())]);
        all.push(Call::Write(text.len()));
    }
    all
}

/// The tidy text; nothing if the tables are refused.
fn tidy_text(buffers: &Buffers) -> Vec<u8> {
    let mut out = vec![0; TIDY_BYTES];
    let length = buffers.write(&mut out).unwrap_or(0);
    out.truncate(length);
    out
}

/// Writes over outputs around a length.
fn writes(length: usize, random: &mut Random) -> Vec<Call> {
    let (below, more) = (random.below(length + 1), random.between(1, 70));
    let around = [length, length + more, length.saturating_sub(1), below, 0];
    let lengths = random.some(&around, 60);
    lengths.into_iter().map(Call::Write).collect()
}

/// A few questions, mostly about numbers that are in use.
fn ask(calls: &mut Vec<Call>, random: &mut Random) {
    let numbers = [
        0,
        1,
        2,
        511,
        512,
        513,
        2_048,
        2_049,
        65_536,
        65_537,
        u32::MAX,
    ];
    for _ in 0..random.between(1, 3) {
        let small = random.below(60) as u32;
        let larger = random.below(270) as u32;
        let border = random.pick(&numbers);
        let number = random.pick(&[small, small, small, larger, larger, border]);
        calls.push(match random.below(3) {
            0 => Call::Show(number),
            1 => Call::Clause(number),
            _ => Call::Variable(number),
        });
    }
}

/// Fills some buffers with other bytes.
fn noise(buffers: &mut Buffers, random: &mut Random) {
    for buffer in &mut buffers.0 {
        if random.chance(70) {
            let mask = random.pick(&[0x01, 0x03, 0xFF]);
            buffer.fill_with(|| random.word() as u8 & mask);
        }
    }
}

/// Makes some buffers longer than they need be, by choice by whole words of a set
/// or by whole sets.
fn lengthen(buffers: &mut Buffers, random: &mut Random) {
    for buffer in &mut buffers.0 {
        if random.chance(50) {
            let any = random.between(1, 40);
            let length = random.pick(&[any, any, 8, 16, 24, 32, 64]);
            buffer.extend((0..length).map(|_| random.word() as u8));
        }
    }
}

/// Cuts one or more buffers below their sizes.
fn shorten(buffers: &mut Buffers, random: &mut Random) {
    for _ in 0..random.between(1, 2) {
        let which = random.below(5);
        let size = SIZES[which];
        let below = random.below(size);
        let lengths = [
            0,
            size / 4,
            size / 2,
            size - 8,
            size - 2,
            size - 1,
            size - 1,
            below,
        ];
        buffers.0[which].truncate(random.pick(&lengths));
    }
}

/// Flips a few bits, by choice near the front of a buffer.
fn flip(buffers: &mut Buffers, random: &mut Random) {
    for _ in 0..random.between(1, 3) {
        let buffer = &mut buffers.0[random.below(5)];
        let range = random.pick(&[16, 64, buffer.len()]).min(buffer.len());
        buffer[random.below(range)] ^= 1 << random.below(8);
    }
}
