//! The driver's calls, as any library offers them.

use checker::driver::Buffers;
pub use lean::{Lent, Shared};

use crate::scenario::Call;

/// Each call answers a word of four 16-bit fields, the lowest first.
pub trait Library {
    fn load(&mut self, text: &[u8], lent: Lent) -> u64;
    fn run(&mut self, records: &[u8], lent: Lent) -> u64;
    fn show(&mut self, lent: Shared, clause: u32) -> u64;
    fn clause(&mut self, lent: Shared, clause: u32) -> u64;
    fn variable(&mut self, lent: Shared, variable: u32) -> u64;
    fn write(&mut self, out: &mut [u8], lent: Shared) -> u64;
}

/// A call that only reads and has no output; 0 for another.
pub fn ask(library: &mut impl Library, lent: Shared, question: &Call) -> u64 {
    match *question {
        Call::Show(clause) => library.show(lent, clause),
        Call::Clause(clause) => library.clause(lent, clause),
        Call::Variable(variable) => library.variable(lent, variable),
        Call::Load(_) | Call::Run(_) | Call::Write(_) => 0,
    }
}

/// Makes a call on buffers and on an output, which only a write changes.
pub fn answer(
    library: &mut impl Library,
    buffers: &mut Buffers,
    call: &Call,
    out: &mut [u8],
) -> u64 {
    let lent = buffers.0.each_mut().map(Vec::as_mut_slice);
    match call {
        Call::Load(text) => library.load(text, lent),
        Call::Run(records) => library.run(records, lent),
        Call::Write(_) => library.write(out, lent.map(|buffer| &*buffer)),
        question => ask(library, lent.map(|buffer| &*buffer), question),
    }
}

/// The fast checker of this workspace.
#[derive(Clone, Copy)]
pub struct Lean;

impl Library for Lean {
    fn load(&mut self, text: &[u8], lent: Lent) -> u64 {
        lean::load(text, lent)
    }

    fn run(&mut self, records: &[u8], lent: Lent) -> u64 {
        lean::run(records, lent)
    }

    fn show(&mut self, lent: Shared, clause: u32) -> u64 {
        lean::show(lent, clause)
    }

    fn clause(&mut self, lent: Shared, clause: u32) -> u64 {
        lean::clause(lent, clause)
    }

    fn variable(&mut self, lent: Shared, variable: u32) -> u64 {
        lean::variable(lent, variable)
    }

    fn write(&mut self, out: &mut [u8], lent: Shared) -> u64 {
        lean::write(out, lent)
    }
}

/// The calls of the fast checker that only read, for a library that has another load
/// or run.
#[macro_export]
macro_rules! reads_as_lean {
    () => {
        fn show(&mut self, lent: $crate::library::Shared, clause: u32) -> u64 {
            $crate::library::Lean.show(lent, clause)
        }

        fn clause(&mut self, lent: $crate::library::Shared, clause: u32) -> u64 {
            $crate::library::Lean.clause(lent, clause)
        }

        fn variable(&mut self, lent: $crate::library::Shared, variable: u32) -> u64 {
            $crate::library::Lean.variable(lent, variable)
        }

        fn write(&mut self, out: &mut [u8], lent: $crate::library::Shared) -> u64 {
            $crate::library::Lean.write(out, lent)
        }
    };
}
