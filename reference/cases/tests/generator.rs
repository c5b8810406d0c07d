//! The generator: the same cases for a seed, and every refusal often enough.

use std::collections::{BTreeMap, BTreeSet};

use std::sync::OnceLock;

use cases::case::Case;
use cases::container::{lines, pack, unpack};
use cases::{fixed, generate, numbered, seeded, stepped, tidied};
use checker::calls::Lent;
use checker::limits::{RECORD, TIDY_BYTES};
use checker::refusal::Number;

/// Five thousand cases, made once for all tests.
fn many() -> &'static [Case] {
    static MANY: OnceLock<Vec<Case>> = OnceLock::new();
    MANY.get_or_init(|| generate(1, Some(5_000)))
}

#[test]
fn a_seed_gives_the_same_cases() {
    let first = generate(5, Some(1_000));
    assert_eq!(first.len(), 1_000);
    assert_eq!(first, generate(5, Some(1_000)));
    assert_ne!(first, generate(6, Some(1_000)));
    // Longer lists go on where shorter ones end.
    assert_eq!(first[..], generate(5, Some(1_100))[..1_000]);
}

#[test]
fn a_seed_gives_the_same_cases_on_every_machine() {
    let lines: Vec<String> = (0..12).map(|i| seeded::case(1, i).expected).collect();
    assert_eq!(lines, SEED_1);
}

const SEED_1: [&str; 12] = [
    "bad 1 23 39",
    "refuted 18 33",
    "bad 11 25",
    "bad 1 23 15",
    "formula 1 10",
    "bad 1 23 487",
    "bad 1 20",
    "bad 3 23 331",
    "bad 64 21",
    "bad 3 24",
    "refuted 1 26",
    "bad 93 22",
];

#[test]
fn containers_keep_the_cases() {
    let cases = generate(5, Some(900));
    let bytes = pack(&cases);
    assert_eq!(unpack(&bytes), Some(cases.clone()));
    assert_eq!(unpack(&bytes[..bytes.len() - 1]), None);
    assert_eq!(bytes[..4], 900u32.to_le_bytes());
    assert_eq!(lines(&cases).lines().count(), 900);
}

#[test]
fn labels_are_short() {
    let long = |label: &str| label.len() > 60 || label.contains('\n');
    assert!(!many().iter().any(|case| long(&case.label)));
}

/// For each kind of line, with its number if it has one: how many, and at how
/// many different lines or steps.
fn coverage(cases: &[Case]) -> BTreeMap<String, (usize, usize)> {
    let mut places: BTreeMap<String, Vec<String>> = BTreeMap::new();
    for case in cases {
        let words: Vec<&str> = case.expected.split(' ').collect();
        let kind = match words[0] {
            "bad" | "formula" => format!("{} {}", words[0], words[2]),
            verdict => verdict.to_string(),
        };
        places.entry(kind).or_default().push(words[1].to_string());
    }
    let tally = |places: Vec<String>| {
        let different: BTreeSet<&String> = places.iter().collect();
        (places.len(), different.len())
    };
    let counted = places.into_iter().map(|(kind, found)| (kind, tally(found)));
    counted.collect()
}

#[test]
fn every_refusal_occurs_at_several_places() {
    let coverage = coverage(many());
    let formula = [10, 11, 12, 13, 14].map(|n| (format!("formula {n}"), 40, 8));
    let bad = [20, 21, 22, 23, 24, 25, 26, 27, 28, 29].map(|n| (format!("bad {n}"), 30, 6));
    let verdicts = ["refuted", "open"].map(|v| (v.to_string(), 600, 20));
    let list = [("bad 11".to_string(), 3, 1)];
    let wanted: Vec<_> = formula
        .into_iter()
        .chain(bad)
        .chain(verdicts)
        .chain(list)
        .collect();
    for (kind, least, places) in &wanted {
        let found = coverage.get(kind).copied().unwrap_or_default();
        assert!(found.0 >= *least && found.1 >= *places, "{kind}: {found:?}");
    }
    // There are no other outcomes: 1 and 2 need tables.
    assert_eq!(coverage.len(), wanted.len(), "{coverage:?}");
}

#[test]
fn many_lists_go_deep() {
    let mut deep = 0;
    let mut refuted_by_steps = 0;
    for case in many() {
        let words: Vec<&str> = case.expected.split(' ').collect();
        let steps: usize = words[1].parse().unwrap();
        deep += usize::from(words[0] != "formula" && steps >= 20);
        refuted_by_steps += usize::from(words[0] == "refuted" && steps >= 3);
    }
    assert!(deep > 650, "{deep}");
    assert!(refuted_by_steps > 300, "{refuted_by_steps}");
}

#[test]
fn the_families_of_000_are_refuted() {
    let families = fixed().into_iter().filter(|case| {
        case.label.starts_with("published/F_") || case.label.starts_with("published/G_")
    });
    let mut count = 0;
    for case in families {
        assert!(case.expected.starts_with("refuted"), "{}", case.label);
        count += 1;
    }
    assert_eq!(count, 22);
}

#[test]
fn no_step_applies_to_theorem_2() {
    let steps = cases::published::theorem_steps();
    assert_eq!(steps.len(), 1000);
    assert!(steps.iter().all(|case| case.expected.starts_with("bad 1 ")));
}

/// The stored data of a program of the library, and what it must print.
fn assert_data(program: &str, name: &str, data: &[u8], printed: &str) {
    let folder = format!("{}/../../crates/{program}", env!("CARGO_MANIFEST_DIR"));
    let read = |name: &str| std::fs::read(format!("{folder}/{name}")).expect(name);
    assert!(read(&format!("data/{name}")) == data);
    assert!(read("stdout") == printed.as_bytes());
}

/// The same for a program that reads packed cases.
fn assert_stored(program: &str, cases: &[Case], printed: &str) {
    assert_data(program, "cases.bin", &cases::packed::pack(cases), printed);
}

/// `cases --vectors crates/vectors` makes the two files again.
#[test]
fn the_vectors_are_up_to_date() {
    let cases = cases::vectors();
    assert_stored("vectors", &cases, &cases::packed::printed(&cases));
}

/// `cases --steps crates/steps_test` makes the two files again.
#[test]
fn the_steps_are_up_to_date() {
    let cases = stepped::cases();
    assert_stored("steps_test", &cases, &stepped::printed(&cases));
}

/// `cases --texts crates/tidy_test` makes the two files again.
#[test]
fn the_tidy_texts_are_up_to_date() {
    let cases = tidied::cases();
    assert_stored("tidy_test", &cases, &tidied::printed(&cases));
}

/// `cases --numbers crates/lines_test` makes the two files again.
#[test]
fn the_numbers_are_up_to_date() {
    let data = numbered::bytes();
    assert_data("lines_test", "numbers.bin", &data, &numbered::printed());
}

#[test]
fn numbers_have_every_digit_at_every_place() {
    let numbers = numbered::numbers();
    assert!((700..900).contains(&numbers.len()), "{}", numbers.len());
    for border in [0, 9, 10, 999_999_999, 1_000_000_000, u32::MAX] {
        assert!(numbers.contains(&border), "{border}");
    }
    for place in 0..9 {
        let power = 10_u32.pow(place);
        for digit in 0..10 {
            let long = numbers.iter().filter(|&&number| number >= 10 * power);
            let same = long.filter(|&&number| number / power % 10 == digit);
            assert!(same.count() >= 2, "{digit} at {place}");
        }
    }
}

#[test]
fn tidy_texts_are_of_many_kinds() {
    let cases = tidied::cases();
    let (mut refused, mut tidy, mut forked, mut derived) = (0, 0, 0, 0);
    let (mut full, mut fullest, mut unordered, mut most) = (0, 0, 0, 0);
    let mut lengths = Vec::new();
    for case in &cases {
        let lent = &mut Lent::zero();
        if lent.load(&case.text).is_err() {
            refused += 1;
            continue;
        }
        lent.run(&case.records);
        let mut out = vec![0; TIDY_BYTES];
        let length = lent.write(&mut out).unwrap();
        tidy += usize::from(case.text == out[..length]);
        let counts = lent.counts;
        forked += usize::from(counts.variables > counts.header_variables);
        derived += usize::from(counts.steps > 0);
        full += usize::from(counts.universals == 64);
        fullest += usize::from(counts.universals == 256);
        most += usize::from(counts.header_variables == 512);
        let kinds = lent.tables.kinds.iter().zip(lent.tables.sets.chunks(4));
        let sets = kinds.filter(|(&kind, _)| kind == 1).map(|(_, set)| set);
        let highest_first = sets.map(|set| set.iter().rev());
        unordered += usize::from(!highest_first.is_sorted_by(|a, b| a.clone().le(b.clone())));
        lengths.push(length);
    }
    assert!((250..=400).contains(&cases.len()), "{}", cases.len());
    assert!((10..40).contains(&refused) && tidy < 60, "{refused} {tidy}");
    assert!(forked > 60 && derived > 120, "{forked} {derived}");
    assert!(full > 8 && most > 15, "{full} {most}");
    assert!(fullest > 15, "{fullest}");
    assert!(unordered > 80, "{unordered}");
    let longer = |limit| lengths.iter().filter(|&&length| length > limit).count();
    let limits = [32_768, 65_535, 163_840];
    assert_eq!(limits.map(longer), [3, 2, 1]);
    assert!(tidied::printed(&cases).len() < 500_000);
}

#[test]
fn steps_go_on_behind_refused_ones() {
    let lent = &mut Lent::zero();
    let mut found: BTreeMap<u16, usize> = BTreeMap::new();
    let mut variables = BTreeSet::new();
    let mut wide: BTreeMap<u16, usize> = BTreeMap::new();
    let (mut behind, mut forks, mut emptied, mut cut) = (0, 0, 0, 0);
    for case in stepped::cases() {
        if lent.load(&case.text).is_err() {
            continue;
        }
        let answers = stepped::answers(lent, &case.records);
        let refused = answers.iter().position(Option::is_some);
        let later = &answers[refused.expect("the rest is empty at last")..];
        behind += later.iter().filter(|answer| answer.is_none()).count();
        for answer in answers {
            let number = answer.map_or(0, Number::value);
            *found.entry(number).or_default() += 1;
            if case.label == "seeded/wide" {
                *wide.entry(number).or_default() += 1;
            }
            variables.extend(answer.and_then(Number::variable));
        }
        let counts = lent.counts;
        forks += counts.variables - counts.header_variables;
        emptied += usize::from(counts.lowest_empty > counts.formula_clauses);
        cut += usize::from(case.records.len() % RECORD > 0);
    }
    let numbers: Vec<u16> = found.keys().copied().collect();
    assert_eq!(numbers, [0, 20, 21, 22, 23, 24, 25, 26, 27, 28, 29]);
    assert!(found.values().all(|&count| count >= 15), "{found:?}");
    assert!(behind > 500 && forks > 1_000, "{behind} {forks}");
    assert!(emptied > 100 && cut > 50, "{emptied} {cut}");
    // Document 02, Notes 4 and 5.
    assert!(wide[&23] > 50 && wide[&24] > 50, "{wide:?}");
    assert!(variables.len() > 60, "{variables:?}");
    assert!([1, 2, 255, 256, 511, 512]
        .iter()
        .all(|v| variables.contains(v)));
}
