//! A libFuzzer target. An input is a scenario as `differential::fuzzed` says; the
//! archive and the fast checker must agree on every answer and byte.

#![no_main]

use archive::Archive;
use checker::driver::Buffers;
use differential::compare::compare_with;
use differential::fuzzed::scenario;
use differential::library::{answer, Lean};
use differential::scenario::Call;

/// # Safety
/// libFuzzer gives a pointer that is good for the length.
#[no_mangle]
pub unsafe extern "C" fn LLVMFuzzerTestOneInput(input: *const u8, length: usize) -> i32 {
    let input = match length {
        0 => &[],
        _ => std::slice::from_raw_parts(input, length),
    };
    let scenario = scenario(input);
    let right =
        |buffers: &mut Buffers, call: &Call, out: &mut [u8]| answer(&mut Lean, buffers, call, out);
    if let Some(found) = compare_with(right, &scenario, &mut Archive) {
        eprintln!(
            "{}: {}",
            scenario.calls[found.call].short(),
            found.difference
        );
        std::process::abort();
    }
    0
}
