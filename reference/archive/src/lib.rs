//! The library's archive behind its C interface: a slice is a pointer and a
//! length, and every call answers a word.

use differential::library::{Lent, Library, Shared};

extern "C" {
    fn kefthrun_interface() -> u32;

    fn kefthrun_load(
        text: *const u8,
        text_length: usize,
        literals: *mut u8,
        literals_length: usize,
        ends: *mut u8,
        ends_length: usize,
        sets: *mut u8,
        sets_length: usize,
        kinds: *mut u8,
        kinds_length: usize,
        state: *mut u8,
        state_length: usize,
    ) -> u64;

    fn kefthrun_run(
        records: *const u8,
        records_length: usize,
        literals: *mut u8,
        literals_length: usize,
        ends: *mut u8,
        ends_length: usize,
        sets: *mut u8,
        sets_length: usize,
        kinds: *mut u8,
        kinds_length: usize,
        state: *mut u8,
        state_length: usize,
    ) -> u64;

    fn kefthrun_show(
        literals: *const u8,
        literals_length: usize,
        ends: *const u8,
        ends_length: usize,
        sets: *const u8,
        sets_length: usize,
        kinds: *const u8,
        kinds_length: usize,
        state: *const u8,
        state_length: usize,
        clause: u32,
    ) -> u64;

    fn kefthrun_clause(
        literals: *const u8,
        literals_length: usize,
        ends: *const u8,
        ends_length: usize,
        sets: *const u8,
        sets_length: usize,
        kinds: *const u8,
        kinds_length: usize,
        state: *const u8,
        state_length: usize,
        clause: u32,
    ) -> u64;

    fn kefthrun_variable(
        literals: *const u8,
        literals_length: usize,
        ends: *const u8,
        ends_length: usize,
        sets: *const u8,
        sets_length: usize,
        kinds: *const u8,
        kinds_length: usize,
        state: *const u8,
        state_length: usize,
        variable: u32,
    ) -> u64;

    fn kefthrun_write(
        out: *mut u8,
        out_length: usize,
        literals: *const u8,
        literals_length: usize,
        ends: *const u8,
        ends_length: usize,
        sets: *const u8,
        sets_length: usize,
        kinds: *const u8,
        kinds_length: usize,
        state: *const u8,
        state_length: usize,
    ) -> u64;
}

/// Calls a writing function with an input and the five buffers.
///
/// Safe: every pointer is a slice's, with its length, and no two overlap.
macro_rules! write {
    ($call:ident, $input:ident, $lent:ident) => {{
        let [literals, ends, sets, kinds, state] = $lent;
        unsafe {
            $call(
                $input.as_ptr(),
                $input.len(),
                literals.as_mut_ptr(),
                literals.len(),
                ends.as_mut_ptr(),
                ends.len(),
                sets.as_mut_ptr(),
                sets.len(),
                kinds.as_mut_ptr(),
                kinds.len(),
                state.as_mut_ptr(),
                state.len(),
            )
        }
    }};
}

/// Calls a reading function with the five buffers and a number.
///
/// Safe: every pointer is a slice's, with its length.
macro_rules! read {
    ($call:ident, $lent:ident, $number:ident) => {{
        let [literals, ends, sets, kinds, state] = $lent;
        unsafe {
            $call(
                literals.as_ptr(),
                literals.len(),
                ends.as_ptr(),
                ends.len(),
                sets.as_ptr(),
                sets.len(),
                kinds.as_ptr(),
                kinds.len(),
                state.as_ptr(),
                state.len(),
                $number,
            )
        }
    }};
}

/// The library as the archive has it.
#[derive(Clone, Copy)]
pub struct Archive;

impl Archive {
    /// The archive, if its interface is the one that this crate declares.
    pub fn of_this_interface() -> Option<Archive> {
        // Safe: no argument, and it only answers a number.
        (unsafe { kefthrun_interface() } == lean::INTERFACE).then_some(Archive)
    }
}

impl Library for Archive {
    fn load(&mut self, text: &[u8], lent: Lent) -> u64 {
        write!(kefthrun_load, text, lent)
    }

    fn run(&mut self, records: &[u8], lent: Lent) -> u64 {
        write!(kefthrun_run, records, lent)
    }

    fn show(&mut self, lent: Shared, clause: u32) -> u64 {
        read!(kefthrun_show, lent, clause)
    }

    fn clause(&mut self, lent: Shared, clause: u32) -> u64 {
        read!(kefthrun_clause, lent, clause)
    }

    fn variable(&mut self, lent: Shared, variable: u32) -> u64 {
        read!(kefthrun_variable, lent, variable)
    }

    fn write(&mut self, out: &mut [u8], lent: Shared) -> u64 {
        let [literals, ends, sets, kinds, state] = lent;
        // Safe: every pointer is a slice's, with its length, and no two overlap.
        unsafe {
            kefthrun_write(
                out.as_mut_ptr(),
                out.len(),
                literals.as_ptr(),
                literals.len(),
                ends.as_ptr(),
                ends.len(),
                sets.as_ptr(),
                sets.len(),
                kinds.as_ptr(),
                kinds.len(),
                state.as_ptr(),
                state.len(),
            )
        }
    }
}
