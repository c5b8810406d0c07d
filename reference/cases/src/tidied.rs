//! Cases for the program `tidy_test`, which loads a text, runs the records and
//! writes the tidy text of the formula: over an output that is long enough, and
//! over one that is a byte short.

use checker::calls::Lent;
use checker::limits::TIDY_BYTES;
use checker::state::State;
use checker::tidy;

use crate::case::Case;
use crate::fixed;
use crate::formulas::{self, random_formula};
use crate::prover::{records_of, Prover};
use crate::random::Random;
use crate::seeded;
use crate::tabled::expanded;

const SEED: u64 = 17;
/// Every byte of an output before a write.
const MARK: u8 = b'~';
/// So many bytes may the tidy text of a fixed case have, and of a seeded one.
const MOST: usize = 3_000;
const MOST_SEEDED: usize = 900;
/// Larger fixed ones: as many variables, clauses and literals as there can be.
const LARGE: [&str; 4] = [
    "text border/512 variables",
    "text border/2048 clauses",
    "text border/2048 empty clauses",
    "room/8192 literals: empty resolvent",
];

/// Texts of this module with their labels; braces and strokes as in
/// `data/texts.txt`.
const TEXTS: [(&str, &str); 29] = [
    ("nothing in use", "c|c  p|p  cnf 0  0|"),
    ("no universal", "p cnf 3 2|e 3 1 0|d 2 0|3 -2 0|1 0|"),
    ("no existential", "p cnf 3 2|a 3 0|a 1 2 0|-3 1 0|2 0|"),
    ("no clause", "p cnf 3 0|a 2 0|e 1 0|d 3 2 2 2 0|"),
    ("clauses alone", "p cnf 7 3|0|0|0|"),
    ("an empty clause between", "p cnf 2 3|e 1 2 0|2 1 0|0|-1 0|"),
    (
        "undeclared between",
        "p cnf 20 1|a 3 11 0|d 7 11 0|d 19 3 11 0|19 -3 7 0|",
    ),
    ("V of 512, one declared", "p cnf 512 1|e 512 0|-512 -512 0|"),
    (
        "V of 512, two declared",
        "p cnf 512 1|a 511 0|e 512 0|512 -511 0|",
    ),
    (
        "a by declaration",
        "p cnf 5 1|a 5 0|a 2 4 0|d 1 4 5 2 0|e 3 0|3 1 5 0|",
    ),
    (
        "numbers of one, two and three digits",
        "p cnf 101 2|a 100 9 99 10 0|d 101 99 10 100 9 0|d 8 9 0|101 100 -10 -9 8 0|-99 0|",
    ),
    (
        "e before, between and behind",
        "p cnf 6 0|e 1 0|a 6 0|e 2 0|a 3 0|e 5 4 0|",
    ),
    (
        "an e line before each a line",
        "p cnf 8 0|e 2 0|a 1 0|e 4 0|a 3 0|e 6 0|a 5 0|e 8 0|a 7 0|",
    ),
    (
        "e between falling universals",
        "p cnf 7 1|a 7 6 0|e 2 5 0|a 4 0|e 3 0|a 1 0|-2 1 0|",
    ),
    (
        "e behind 63 universals and behind 64",
        "p cnf 66 0|a {1..63}0|e 65 0|a 64 0|e 66 0|",
    ),
    (
        "d before its last universals",
        "p cnf 5 0|a 4 0|d 5 4 0|a 1 0|d 2 1 4 0|a 3 0|",
    ),
    (
        "wide gaps",
        "c  c|p    cnf   4     2|a   2     1  0|d    4   1     1  0|4     -2  4   0|-4    0|",
    ),
    (
        "equal clauses",
        "p cnf 2 4|e 2 1 0|1 2 0|2 1 0|1 1 2 0|-2 0|",
    ),
    (
        "64 universals, rising",
        "p cnf 66 1|a {1..64}0|e 66 0|d 65 64 1 33 32 0|-65 66 64 -1 0|",
    ),
    (
        "64 universals, the last first",
        "p cnf 66 1|a {33..64}0|a {1..32}0|e 66 0|d 65 64 1 33 32 0|65 -66 0|",
    ),
    (
        "64 universals of three digits",
        "p cnf 512 2|a {449..512}0|d 1 512 449 0|e 448 0|-1 448 0|512 -449 1 0|",
    ),
    (
        "e at the borders of words",
        "p cnf 304 0|a {1..64}0|e 301 0|a 65 0|e 302 0|a {66..128}0|e 303 0|a 129 0|e 304 0|",
    ),
    (
        "e behind 192 universals and behind 193",
        "p cnf 300 0|a {1..192}0|e 298 0|a 193 0|e 297 0|a {194..256}0|d 299 193 64 256 1 0|",
    ),
    (
        "256 universals, rising",
        "p cnf 260 1|a {1..256}0|e 258 0|d 257 256 193 192 129 128 65 64 1 0|-257 258 256 -1 0|",
    ),
    (
        "256 universals, the last first",
        "p cnf 258 1|a {129..256}0|a {1..128}0|d 257 256 193 192 129 128 65 64 1 0|257 -193 0|",
    ),
    (
        "256 universals of three digits",
        "p cnf 512 2|a {257..512}0|d 1 512 257 0|e 256 0|-1 256 0|512 -257 1 0|",
    ),
    // 32,769 bytes, one more than a load takes.
    (
        "longer than a load takes",
        "p cnf 512 334|a {1..64}0|e {100..259}0|{100 0|*330}{-100 0|*4}",
    ),
    // A length above 16 bits.
    (
        "longer than 65535 bytes",
        "p cnf 512 1|a {449..512}0|e {100..355}0|-512 355 0|",
    ),
    // The longest that 64 universals can have is 163,495 bytes long.
    (
        "longer than 64 universals make it",
        "p cnf 512 1|a {257..512}0|e {1..160}0|-512 160 0|",
    ),
];

/// All cases: texts of this module, fixed ones, and seeded ones.
pub fn cases() -> Vec<Case> {
    let texts = TEXTS.iter().map(|(label, text)| {
        let text = expanded(text).into_bytes();
        Case::checked(format!("tidy/{label}"), text, Vec::new())
    });
    let fixed = fixed().into_iter().filter(is_chosen);
    let mut seeded: Vec<Case> = (0..120).map(|index| seeded::case(SEED, index)).collect();
    seeded.retain(|case| length(case).is_none_or(|length| length <= MOST_SEEDED));
    let prefixed = (0..140).map(|index| seeded::prefixed(SEED, index));
    let prefixed = prefixed.filter(|case| length(case).is_some_and(|length| length <= MOST));
    let loose = (0..90).map(|index| loose(SEED, index));
    let all = texts.chain(fixed).chain(seeded).chain(prefixed);
    all.chain(loose).collect()
}

/// The length of the tidy text, if the text is accepted.
fn length(case: &Case) -> Option<usize> {
    let state = State::load(&case.text).ok()?;
    Some(tidy::text(&state).len())
}

/// Those marked, stated or published, those with other spellings or at a border,
/// and a few that are refused.
fn is_chosen(case: &Case) -> bool {
    let begins = |fronts: &[&str]| fronts.iter().any(|front| case.label.starts_with(front));
    match length(case) {
        None => begins(&["fault/text 14"]),
        Some(_) if begins(&LARGE) => true,
        Some(length) if length > MOST => false,
        Some(_) => {
            let spelled = [
                "text border/",
                "universals/",
                "width/",
                "spacing/",
                "order/",
            ];
            begins(&["marked/", "stated/", "published/", "set/"]) || begins(&spelled)
        }
    }
}

/// A formula in a loose spelling with steps of all kinds.
fn loose(seed: u64, index: u64) -> Case {
    let random = &mut Random::for_case(seed ^ 4, index);
    let size = random.pick(&[formulas::TINY, formulas::FORKED, formulas::FORKED]);
    let text = random_formula(random, size).loose(random);
    let start = State::load(&text).expect("drafts are within the limits");
    let mut prover = Prover::new(start, random);
    prover.wander(30);
    Case::checked("seeded/loose", text, records_of(&prover.steps))
}

/// What the program `tidy_test` prints. The tables pass from case to case as the
/// case before left them.
pub fn printed(cases: &[Case]) -> String {
    let lent = &mut Lent::zero();
    cases.iter().map(|case| told(lent, case)).collect()
}

/// The label, and the refusal of the text; or the tidy text, its length, the
/// answer to a write over an output a byte short, and whether the marks behind
/// the text and in that output are still there.
fn told(lent: &mut Lent, case: &Case) -> String {
    let label = &case.label;
    if let Err(refusal) = lent.load(&case.text) {
        let number = refusal.number.value();
        return format!("{label}\nformula {} {number}\n", refusal.line);
    }
    lent.run(&case.records);
    let mut long = vec![MARK; TIDY_BYTES];
    let length = lent.write(&mut long).expect("long enough");
    let text = String::from_utf8_lossy(&long[..length]);
    let mut short = vec![MARK; length - 1];
    let refusal = lent.write(&mut short).expect_err("a byte short");
    let kept = long[length..]
        .iter()
        .chain(&short)
        .all(|&byte| byte == MARK);
    let marks = if kept { "marked" } else { "changed" };
    format!("{label}\n{text}{length}\n{}\n{marks}\n", refusal.value())
}
