//! Scenarios from the bytes of a fuzzer.
//!
//! An input is a text, a 0 byte and records: the text is loaded and the records
//! are run twice over used buffers, with questions and writes between. A write's
//! output is long enough, or of a length that the input's length tells.
//!
//! An input whose first byte is 128 or more, which begins no text, changes what
//! is lent. Its three lowest bits choose a buffer that is lent short (5 to 7:
//! none), by one byte more than the second byte tells. The third byte tells how
//! many changes follow: a buffer, a place in two bytes and a value each. The rest
//! is an input as above. No call of the scenario loads the tables before they are
//! run and asked about: they are what the fast checker makes of the rest, with the
//! changes.

use checker::driver::Buffers;
use checker::limits::{TIDY_BYTES, UNIVERSALS};

use crate::library::{answer, Lean};
use crate::scenario::{Call, Scenario};

/// The text and the records of an input.
fn parts(input: &[u8]) -> (Vec<u8>, Vec<u8>) {
    match input.iter().position(|&byte| byte == 0) {
        Some(end) => (input[..end].to_vec(), input[end + 1..].to_vec()),
        None => (input.to_vec(), Vec::new()),
    }
}

/// Buffers that are longer than they need be and not 0.
fn used_buffers() -> Buffers {
    let mut buffers = Buffers::zero();
    for (index, buffer) in buffers.0.iter_mut().enumerate() {
        buffer.extend(vec![0; index + 1]);
        buffer.fill(0x5A);
    }
    buffers
}

/// Bytes of an output for the text of a load: the two bytes of an existential on
/// an `e` line can become twelve and its set, which has no more than the input.
fn long_enough(input: &[u8]) -> usize {
    let line = 12 + input.len().min(4 * UNIVERSALS);
    TIDY_BYTES.min((input.len() / 2 + 1) * line + 16)
}

/// The variable and the clause that an input of some length asks about.
fn asked(input: &[u8]) -> (u32, u32) {
    ((input.len() % 300) as u32, (input.len() % 64) as u32)
}

fn loaded(input: &[u8]) -> Scenario {
    let (text, records) = parts(input);
    let (variable, clause) = asked(input);
    let calls = vec![
        Call::Load(text),
        Call::Variable(variable),
        Call::Write(input.len() % 256),
        Call::Run(records.clone()),
        Call::Show(clause),
        Call::Run(records),
        Call::Clause(clause),
        Call::Variable(variable),
        Call::Write(long_enough(input)),
    ];
    Scenario {
        label: "an input of the fuzzer".into(),
        buffers: used_buffers(),
        calls,
    }
}

fn changed(short: u8, less: u8, changes: &[u8], input: &[u8]) -> Scenario {
    let (text, records) = parts(input);
    let mut buffers = Buffers::zero();
    for call in [Call::Load(text.clone()), Call::Run(records.clone())] {
        answer(&mut Lean, &mut buffers, &call, &mut []);
    }
    for change in changes.chunks_exact(4) {
        let buffer = &mut buffers.0[usize::from(change[0] % 5)];
        let place = usize::from(u16::from_le_bytes([change[1], change[2]])) % buffer.len();
        buffer[place] = change[3];
    }
    if let Some(buffer) = buffers.0.get_mut(usize::from(short)) {
        buffer.truncate(buffer.len().saturating_sub(1 + usize::from(less)));
    }
    let (variable, clause) = asked(input);
    let calls = vec![
        Call::Show(clause),
        Call::Clause(clause),
        Call::Variable(variable),
        Call::Write(long_enough(input)),
        Call::Run(records.clone()),
        Call::Show(clause + 1),
        Call::Write(input.len() % 256),
        Call::Load(text),
        Call::Run(records),
    ];
    Scenario {
        label: "an input of the fuzzer, over changed buffers".into(),
        buffers,
        calls,
    }
}

/// The scenario of an input.
pub fn scenario(input: &[u8]) -> Scenario {
    match *input {
        [first, less, count, ref rest @ ..] if first >= 128 => {
            let (changes, rest) = rest.split_at(rest.len().min(4 * usize::from(count)));
            changed(first & 7, less, changes, rest)
        }
        _ => loaded(input),
    }
}
