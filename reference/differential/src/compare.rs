//! A scenario on a library and on a checker that says what is right, call by
//! call.

use std::fmt;

use checker::driver::Buffers;

use crate::guarded::{Five, Guarded};
use crate::library::{ask, Library};
use crate::oracle;
use crate::scenario::{Call, Scenario};

/// Where the two part.
#[derive(Clone, Debug, PartialEq, Eq)]
pub enum Difference {
    /// The answers, the right one first.
    Word(u64, u64),
    /// A buffer or the output, and its first different byte.
    Byte(&'static str, usize, u8, u8),
    /// A buffer, the input or the output, and the guard byte that is changed.
    Guard(&'static str, isize),
    /// The text or the records were written to.
    Input,
}

/// The first difference and the call, counted from 0, that makes it.
#[derive(Clone, Debug, PartialEq, Eq)]
pub struct Found {
    pub call: usize,
    pub difference: Difference,
}

const NAMES: [&str; 5] = ["literals", "ends", "sets", "kinds", "state"];

/// The four fields of a word.
pub fn fields(word: u64) -> [u16; 4] {
    [0, 16, 32, 48].map(|shift| (word >> shift) as u16)
}

impl fmt::Display for Difference {
    fn fmt(&self, out: &mut fmt::Formatter) -> fmt::Result {
        match self {
            Difference::Word(wanted, found) => {
                let (wanted, found) = (fields(*wanted), fields(*found));
                write!(out, "answers {found:?} for {wanted:?}")
            }
            Difference::Byte(name, place, wanted, found) => {
                write!(out, "byte {place} of the {name} is {found} for {wanted}")
            }
            Difference::Guard(name, place) => {
                write!(out, "guard byte {place} of the {name} changed")
            }
            Difference::Input => write!(out, "the input changed"),
        }
    }
}

/// Makes all calls on the reference checker and on a library; the first
/// difference, if there is one.
pub fn compare(scenario: &Scenario, library: &mut impl Library) -> Option<Found> {
    compare_with(oracle::answer, scenario, library)
}

/// The same with another checker that says what is right.
pub fn compare_with(
    right: impl Fn(&mut Buffers, &Call, &mut [u8]) -> u64,
    scenario: &Scenario,
    library: &mut impl Library,
) -> Option<Found> {
    let mut wanted = scenario.buffers.clone();
    let mut found = Five::new(&scenario.buffers);
    for (call, each) in scenario.calls.iter().enumerate() {
        let mut output = each.output();
        let word = right(&mut wanted, each, &mut output);
        let difference = answers_differ(word, &output, each, &mut found, library)
            .or_else(|| bytes_differ(&wanted, &found));
        if let Some(difference) = difference {
            return Some(Found { call, difference });
        }
    }
    None
}

/// Makes the call on the library; whether the answer or the output is wrong, or a
/// byte has changed that is not lent.
fn answers_differ(
    right: u64,
    output: &[u8],
    call: &Call,
    buffers: &mut Five,
    library: &mut impl Library,
) -> Option<Difference> {
    let given = Guarded::new(call.input(), 1);
    let mut written = Guarded::new(&call.output(), 2);
    let word = match call {
        Call::Load(_) => library.load(given.contents(), buffers.lent()),
        Call::Run(_) => library.run(given.contents(), buffers.lent()),
        Call::Write(_) => library.write(written.contents_mut(), buffers.shared()),
        question => ask(library, buffers.shared(), question),
    };
    if right != word {
        return Some(Difference::Word(right, word));
    }
    if given.contents() != call.input() {
        return Some(Difference::Input);
    }
    let others = [(&"input", &given), (&"output", &written)];
    let guards = NAMES.iter().zip(&buffers.0).chain(others);
    let mut broken = guards.filter_map(|(name, guarded)| Some((name, guarded.broken()?)));
    let broken = broken.next();
    broken
        .map(|(name, place)| Difference::Guard(name, place))
        .or_else(|| byte_differs("output", output, written.contents()))
}

fn bytes_differ(wanted: &Buffers, found: &Five) -> Option<Difference> {
    let mut pairs = NAMES.iter().zip(wanted.0.iter().zip(&found.0));
    pairs.find_map(|(name, (wanted, found))| byte_differs(name, wanted, found.contents()))
}

/// The first byte that differs, of two stretches of one length.
fn byte_differs(name: &'static str, wanted: &[u8], found: &[u8]) -> Option<Difference> {
    if wanted == found {
        return None;
    }
    let mut pairs = wanted.iter().zip(found);
    let place = pairs.position(|(wanted, found)| wanted != found)?;
    Some(Difference::Byte(name, place, wanted[place], found[place]))
}
