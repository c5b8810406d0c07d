//! Numbers for the program `lines_test`, which prints of each how many digits it
//! has and, with the number behind it, the line of every verdict. The number of a
//! refused step, and the variable that it names, have 16 bits.

use std::fmt::Write;

use crate::random::Random;

const SEED: u64 = 18;

/// Numbers beside 1 to 19 at every place and beside the powers of two, random ones
/// of every length, and some of zeros and nines alone, in no order.
pub fn numbers() -> Vec<u32> {
    let random = &mut Random::new(SEED);
    let places = (0..10).map(|exponent| 10_u64.pow(exponent));
    let tens = places.flat_map(|power| (1..20).map(move |front| front * power));
    let twos = (0..33).map(|exponent| 1_u64 << exponent);
    let beside = |number: u64| [number - 1, number, number + 1];
    let mut numbers: Vec<u64> = tens.chain(twos).flat_map(beside).collect();
    for length in (1..=10).cycle().take(200) {
        numbers.push(random.word() % 10_u64.pow(length).min(1 << 32));
        let ends = (0..length).map(|_| random.pick(&[0, 9]));
        numbers.push(ends.fold(0, |number, digit| 10 * number + digit));
    }
    numbers.sort_unstable();
    numbers.dedup();
    random.shuffle(&mut numbers);
    let narrow = |number| u32::try_from(number).ok();
    numbers.into_iter().filter_map(narrow).collect()
}

/// As the program reads them: 32 bits each, little-endian.
pub fn bytes() -> Vec<u8> {
    numbers().into_iter().flat_map(u32::to_le_bytes).collect()
}

/// What the program prints.
pub fn printed() -> String {
    let mut printed = String::new();
    for pair in numbers().windows(2) {
        let (first, second) = (pair[0], pair[1]);
        let length = first.to_string().len();
        writeln!(printed, "{length}").expect("a string");
        writeln!(printed, "refuted {first} {second}").expect("a string");
        writeln!(printed, "open {first}").expect("a string");
        let (number, variable) = (second % 65536, first % 65536);
        writeln!(printed, "bad {first} {number}").expect("a string");
        writeln!(printed, "bad {first} {number} {variable}").expect("a string");
        writeln!(printed, "formula {first} {second}").expect("a string");
    }
    printed
}
