//! An archive with the library's C interface over the fast checker, so that the
//! link and the comparison can be tried without the library.
//!
//! Every function is as safe as its caller: each pointer must be good for its
//! length, and no two may overlap.

use std::slice::{from_raw_parts, from_raw_parts_mut};

macro_rules! writing {
    ($name:ident, $call:path) => {
        /// # Safety
        /// See the top of the crate.
        #[no_mangle]
        pub unsafe extern "C" fn $name(
            input: *const u8,
            input_length: usize,
            literals: *mut u8,
            literals_length: usize,
            ends: *mut u8,
            ends_length: usize,
            sets: *mut u8,
            sets_length: usize,
            kinds: *mut u8,
            kinds_length: usize,
            state: *mut u8,
            state_length: usize,
        ) -> u64 {
            let lent = [
                from_raw_parts_mut(literals, literals_length),
                from_raw_parts_mut(ends, ends_length),
                from_raw_parts_mut(sets, sets_length),
                from_raw_parts_mut(kinds, kinds_length),
                from_raw_parts_mut(state, state_length),
            ];
            $call(from_raw_parts(input, input_length), lent)
        }
    };
}

macro_rules! reading {
    ($name:ident, $call:path) => {
        /// # Safety
        /// See the top of the crate.
        #[no_mangle]
        pub unsafe extern "C" fn $name(
            literals: *const u8,
            literals_length: usize,
            ends: *const u8,
            ends_length: usize,
            sets: *const u8,
            sets_length: usize,
            kinds: *const u8,
            kinds_length: usize,
            state: *const u8,
            state_length: usize,
            number: u32,
        ) -> u64 {
            let lent = [
                from_raw_parts(literals, literals_length),
                from_raw_parts(ends, ends_length),
                from_raw_parts(sets, sets_length),
                from_raw_parts(kinds, kinds_length),
                from_raw_parts(state, state_length),
            ];
            $call(lent, number)
        }
    };
}

/// The number of the interface.
#[no_mangle]
pub extern "C" fn kefthrun_interface() -> u32 {
    lean::INTERFACE
}

writing!(kefthrun_load, lean::load);
writing!(kefthrun_run, lean::run);
reading!(kefthrun_show, lean::show);
reading!(kefthrun_clause, lean::clause);
reading!(kefthrun_variable, lean::variable);

/// # Safety
/// See the top of the crate.
#[no_mangle]
pub unsafe extern "C" fn kefthrun_write(
    out: *mut u8,
    out_length: usize,
    literals: *const u8,
    literals_length: usize,
    ends: *const u8,
    ends_length: usize,
    sets: *const u8,
    sets_length: usize,
    kinds: *const u8,
    kinds_length: usize,
    state: *const u8,
    state_length: usize,
) -> u64 {
    let lent = [
        from_raw_parts(literals, literals_length),
        from_raw_parts(ends, ends_length),
        from_raw_parts(sets, sets_length),
        from_raw_parts(kinds, kinds_length),
        from_raw_parts(state, state_length),
    ];
    lean::write(from_raw_parts_mut(out, out_length), lent)
}
