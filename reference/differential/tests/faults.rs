//! A library with one fault is found out, by a file that reproduces it.

use checker::limits::TIDY_BYTES;
use differential::compare::{compare, Found};
use differential::generate::Scenarios;
use differential::library::{Lean, Lent, Library, Shared};
use differential::scenario::{Call, Scenario};

/// What the faulty library does to an answer that was right.
#[derive(Clone, Copy, Debug, PartialEq)]
enum Fault {
    Nothing,
    /// A load or a run writes the byte behind what is stated of buffer i.
    WritesBehind(usize),
    /// A refused run clears the first kind.
    ChangesAfterRefusal,
    /// A load that answers 1 keeps the state.
    KeepsState,
    /// A load that answers 1 clears the kinds.
    ClearsShort,
    /// A refused load leaves a byte in the literals.
    LeavesALiteral,
    /// A line number too many.
    NextLine,
    /// A step number too few.
    EarlierStep,
    /// The steps of a refuted run count one more.
    MoreSteps,
    /// The highest field is not 0.
    HighField,
    /// An accepted load answers case 0.
    ClearedCase,
    /// A show starts one entry early.
    EarlyShow,
    /// A show of an unknown clause is refused.
    ShowRefuses,
    /// A question narrows its number to 16 bits.
    Narrows,
    /// Set words are counted without their highest place of eight.
    Miscounts,
    /// 2 is not told of a state that is one count off.
    TrustsState,
    /// An `e` line sees later universals too.
    SeesLater,
    /// An `e` line sees nothing.
    SeesNothing,
    /// The first two `e` lines have each other's sets.
    SwapsSets,
    /// The `a` line goes by number.
    DeclaredByNumber,
    /// The members of a set go by their place.
    SetsByPlace,
    /// A `d` line for each fork variable too.
    WritesForks,
    /// The derived clauses too.
    WritesDerived,
    /// A `d` line for each undeclared variable too.
    WritesUndeclared,
    /// The last line has no line feed.
    Unended,
    /// A write changes the byte behind the text.
    WritesBehindText,
    /// A write puts a 0 byte behind the text.
    EndsText,
    /// A write that tells 30 has written what there is room for.
    WritesShort,
    /// A write that tells 1 or 2 has begun.
    WritesRefused,
    /// A write tells 30 before 1 and 2.
    ShortFirst,
    /// A write tells 30 where the output is just long enough.
    WantsMore,
    /// A write counts one byte too many.
    LongerLength,
    /// A write tells the low 16 bits of the length only.
    LowLength,
    /// A write tells 31 for 30.
    OtherNumber,
}

const FAULTS: [Fault; 22] = [
    Fault::WritesBehind(0),
    Fault::WritesBehind(1),
    Fault::WritesBehind(2),
    Fault::WritesBehind(3),
    Fault::WritesBehind(4),
    Fault::ChangesAfterRefusal,
    Fault::KeepsState,
    Fault::ClearsShort,
    Fault::LeavesALiteral,
    Fault::NextLine,
    Fault::EarlierStep,
    Fault::MoreSteps,
    Fault::HighField,
    Fault::ClearedCase,
    Fault::EarlyShow,
    Fault::ShowRefuses,
    Fault::Narrows,
    Fault::Miscounts,
    Fault::TrustsState,
    Fault::SeesLater,
    Fault::SeesNothing,
    Fault::SwapsSets,
];

/// Those that only a write has.
const WRITE_FAULTS: [Fault; 15] = [
    Fault::DeclaredByNumber,
    Fault::SetsByPlace,
    Fault::WritesForks,
    Fault::WritesDerived,
    Fault::WritesUndeclared,
    Fault::Unended,
    Fault::WritesBehindText,
    Fault::EndsText,
    Fault::WritesShort,
    Fault::WritesRefused,
    Fault::ShortFirst,
    Fault::WantsMore,
    Fault::LongerLength,
    Fault::LowLength,
    Fault::OtherNumber,
];

/// The fast checker with one fault.
struct Faulty(Fault);

fn reborrow<'a>(lent: &'a mut Lent) -> Lent<'a> {
    lent.each_mut().map(|buffer| &mut **buffer)
}

impl Faulty {
    fn number(&self, number: u32) -> u32 {
        match self.0 {
            Fault::Narrows => number & 0xFFFF,
            _ => number,
        }
    }

    fn behind(&self, lent: &mut Lent) {
        if let Fault::WritesBehind(buffer) = self.0 {
            if let Some(byte) = lent[buffer].get_mut(lean::SIZES[buffer]) {
                *byte = byte.wrapping_add(1);
            }
        }
    }

    /// Gives the variables on `e` lines of an accepted text other sets.
    fn change_sets(&self, text: &[u8], lent: &mut Lent) {
        let text = String::from_utf8_lossy(text);
        let lines = text.lines().filter(|line| line.starts_with('e'));
        let lines: Vec<Vec<i32>> = lines.map(numbers).collect();
        let place = |variable: i32| 32 * (variable as usize - 1);
        let set = |line: &Vec<i32>| lent[2][place(line[0])..][..32].try_into().unwrap();
        let mut sets: Vec<[u8; 32]> = lines.iter().map(set).collect();
        match self.0 {
            Fault::SeesLater => sets.fill(every_universal(lent[4])),
            Fault::SeesNothing => sets.fill([0; 32]),
            Fault::SwapsSets if sets.len() > 1 => sets.swap(0, 1),
            _ => return,
        }
        for (line, set) in lines.iter().zip(sets) {
            for &variable in line {
                lent[2][place(variable)..][..32].copy_from_slice(&set);
            }
        }
    }
}

/// The set of all universals of a state.
fn every_universal(state: &[u8]) -> [u8; 32] {
    let universals = usize::from(u16::from_le_bytes([state[4], state[5]]));
    let bits = |byte| (0..8).filter(move |bit| 8 * byte + bit < universals);
    std::array::from_fn(|byte| bits(byte).fold(0, |all, bit| all | 1 << bit))
}

impl Library for Faulty {
    fn load(&mut self, text: &[u8], mut lent: Lent) -> u64 {
        let state = lent[4].to_vec();
        let word = Lean.load(text, reborrow(&mut lent));
        self.behind(&mut lent);
        let refused = word & 0xFFFF == 4;
        let short = word == 4 | 1 << 32;
        match self.0 {
            Fault::KeepsState if short => lent[4].copy_from_slice(&state),
            Fault::ClearsShort if short => lent[3].fill(0),
            Fault::LeavesALiteral if refused && !short => lent[0][0] = 1,
            Fault::NextLine if refused && !short => return word + (1 << 16),
            Fault::HighField if !refused => return word | 1 << 48,
            Fault::ClearedCase if !refused => return word & !0xFFFF,
            _ if !refused => self.change_sets(text, &mut lent),
            _ => (),
        }
        word
    }

    fn run(&mut self, records: &[u8], mut lent: Lent) -> u64 {
        if self.0 == Fault::TrustsState {
            return trusting_run(records, lent);
        }
        let word = Lean.run(records, reborrow(&mut lent));
        self.behind(&mut lent);
        let steps = word >> 16 & 0xFFFF;
        match (self.0, word & 0xFFFF) {
            (Fault::ChangesAfterRefusal, 3) if !lent[3].is_empty() => lent[3][0] = 0,
            (Fault::EarlierStep, 3) if steps > 1 => return word - (1 << 16),
            (Fault::MoreSteps, 1) => return word + (1 << 16),
            _ => (),
        }
        word
    }

    fn show(&mut self, lent: Shared, clause: u32) -> u64 {
        let word = Lean.show(lent, self.number(clause));
        match (self.0, Lean.clause(lent, clause) & 0xFFFF) {
            (Fault::EarlyShow, 1) if word >> 16 & 0xFFFF > 0 => word - (1 << 16),
            (Fault::ShowRefuses, 2) => Lean.clause(lent, clause),
            _ => word,
        }
    }

    fn clause(&mut self, lent: Shared, clause: u32) -> u64 {
        Lean.clause(lent, self.number(clause))
    }

    fn variable(&mut self, lent: Shared, variable: u32) -> u64 {
        let word = Lean.variable(lent, self.number(variable));
        let many = word & 0xFFFF == 1 && word >> 32 >= 8;
        word - if self.0 == Fault::Miscounts && many {
            1 << 32
        } else {
            0
        }
    }

    fn write(&mut self, out: &mut [u8], lent: Shared) -> u64 {
        let mut whole = vec![0; TIDY_BYTES];
        let word = Lean.write(&mut whole, lent);
        if word & 0xFFFF == 2 {
            return self.refused(out, word);
        }
        whole.truncate((word >> 16) as usize);
        let text = self.text(String::from_utf8(whole).expect("digits"), lent);
        self.written(out, text.as_bytes())
    }
}

/// Tables and their text, for the faults of a write.
struct Written<'a> {
    lent: Shared<'a>,
    lines: Vec<String>,
}

impl Faulty {
    /// The answer to a write over tables that are refused.
    fn refused(&self, out: &mut [u8], word: u64) -> u64 {
        match self.0 {
            Fault::WritesRefused if !out.is_empty() => out[0] = b'p',
            Fault::ShortFirst if out.len() < 10 => return SHORT,
            _ => (),
        }
        word
    }

    /// The text that is written for the right one.
    fn text(&self, text: String, lent: Shared) -> String {
        let lines = text.lines().map(String::from).collect();
        let mut written = Written { lent, lines };
        match self.0 {
            Fault::DeclaredByNumber => written.sort('a', |number| number),
            Fault::SetsByPlace => {
                let declared = written.declared();
                let place = |number| declared.iter().position(|&each| each == number);
                written.sort('d', |number| place(number).unwrap_or(0) as i32);
            }
            Fault::WritesForks => written.declare(3),
            Fault::WritesUndeclared => written.declare(0),
            Fault::WritesDerived => written.derive(),
            _ => (),
        }
        let ending = if self.0 == Fault::Unended { "" } else { "\n" };
        written.lines.join("\n") + ending
    }

    /// Writes a text and answers.
    fn written(&self, out: &mut [u8], text: &[u8]) -> u64 {
        let length = text.len();
        if length > out.len() || self.0 == Fault::WantsMore && length == out.len() {
            match self.0 {
                Fault::WritesShort => out.copy_from_slice(&text[..out.len()]),
                Fault::OtherNumber => return SHORT + (1 << 16),
                _ => (),
            }
            return SHORT;
        }
        out[..length].copy_from_slice(text);
        match self.0 {
            Fault::WritesBehindText if length < out.len() => out[length] ^= 1,
            Fault::EndsText if length < out.len() => out[length] = 0,
            Fault::LongerLength => return 1 | (length as u64 + 1) << 16,
            Fault::LowLength => return 1 | (length as u64 & 0xFFFF) << 16,
            _ => (),
        }
        1 | (length as u64) << 16
    }
}

/// The answer 30.
const SHORT: u64 = 2 | 30 << 16;

fn numbers(line: &str) -> Vec<i32> {
    let words = line.split(' ').filter_map(|word| word.parse().ok());
    words.filter(|&number| number != 0).collect()
}

fn joined(front: &str, numbers: &[i32]) -> String {
    let words = numbers.iter().map(|number| format!("{number} "));
    format!("{front}{}0", words.collect::<String>())
}

impl Written<'_> {
    fn count(&self, buffer: usize, index: usize) -> usize {
        let bytes = &self.lent[buffer][2 * index..];
        usize::from(u16::from_le_bytes([bytes[0], bytes[1]]))
    }

    /// The universals in order of declaration.
    fn declared(&self) -> Vec<i32> {
        let line = self.lines.iter().find(|line| line.starts_with('a'));
        line.map(|line| numbers(line)).unwrap_or_default()
    }

    /// Puts the numbers of each line of a letter, behind the first of a `d` line,
    /// into another order.
    fn sort(&mut self, letter: char, key: impl Fn(i32) -> i32) {
        for line in self
            .lines
            .iter_mut()
            .filter(|line| line.starts_with(letter))
        {
            let mut numbers = numbers(line);
            let first = usize::from(letter == 'd');
            numbers[first..].sort_by_key(|&number| key(number));
            *line = joined(&format!("{letter} "), &numbers);
        }
    }

    /// Adds a `d` line behind the prefix for each variable of a kind.
    fn declare(&mut self, kind: u8) {
        let prefix = |line: &String| line.starts_with(['p', 'a', 'd']);
        let mut place = self.lines.iter().filter(|line| prefix(line)).count();
        for variable in (0..self.count(4, 1)).filter(|&index| self.lent[3][index] == kind) {
            self.lines.insert(place, format!("d {} 0", variable + 1));
            place += 1;
        }
    }

    /// Adds the clauses that are no formula clauses.
    fn derive(&mut self) {
        for clause in self.count(4, 3)..self.count(4, 4) {
            let start = if clause == 0 {
                0
            } else {
                self.count(1, clause - 1)
            };
            let literals = start..self.count(1, clause);
            let signed = |place| i32::from(self.count(0, place) as u16 as i16);
            let literals: Vec<i32> = literals.map(signed).collect();
            self.lines.push(joined("", &literals));
        }
    }
}

/// Makes the count of steps right before the run.
fn trusting_run(records: &[u8], lent: Lent) -> u64 {
    if lent[4].len() >= 16 {
        let count =
            |state: &[u8], i: usize| i32::from(state[2 * i]) + 256 * i32::from(state[2 * i + 1]);
        let state = &lent[4];
        let steps = count(state, 0) + count(state, 4) - count(state, 1) - count(state, 3);
        if (0..2_048).contains(&steps) {
            lent[4][12..14].copy_from_slice(&(steps as u16).to_le_bytes());
        }
    }
    Lean.run(records, lent)
}

/// The first scenario that differs, and the call that does.
fn found(fault: Fault, scenarios: &Scenarios) -> (Scenario, Found) {
    let tried = (0..5_000).map(|index| scenarios.scenario(index));
    let mut found = tried.filter_map(|scenario| {
        let found = compare(&scenario, &mut Faulty(fault))?;
        Some((scenario, found))
    });
    found
        .next()
        .unwrap_or_else(|| panic!("{fault:?} is not found"))
}

#[test]
fn every_fault_is_found_and_reproduced() {
    let scenarios = Scenarios::new(1);
    for fault in FAULTS.into_iter().chain(WRITE_FAULTS) {
        let (scenario, first) = found(fault, &scenarios);
        let writes = matches!(scenario.calls[first.call], Call::Write(_));
        assert_eq!(writes, WRITE_FAULTS.contains(&fault), "{fault:?}");
        let again = Scenario::of_file(&scenario.to_file()).expect("a file of a scenario");
        assert_eq!(
            compare(&again, &mut Faulty(fault)),
            Some(first),
            "{fault:?}"
        );
    }
}

#[test]
fn without_a_fault_nothing_is_found() {
    let scenarios = Scenarios::new(1);
    for index in 0..1_500 {
        let scenario = scenarios.scenario(index);
        let found = compare(&scenario, &mut Faulty(Fault::Nothing));
        assert_eq!(found, None, "{}", scenario.label);
    }
}
