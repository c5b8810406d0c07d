//! Libraries that decide forks and reductions by some of the words, or by words in
//! another order.

use std::collections::BTreeSet;

use differential::compare::{compare, Difference};
use differential::generate::Scenarios;
use differential::library::{Lean, Lent, Library};
use differential::scenario::{Call, Scenario};

use crate::tally::{answers, union};
use crate::words::{count, examined, lent_of, Decided, Examined, Set};

/// Operations on sets, one of which is wrong.
#[derive(Clone, Copy)]
pub struct Operations {
    union: fn(&[Set]) -> Set,
    intersection: fn(Set, Set) -> Set,
    contained: fn(Set, Set) -> bool,
}

const RIGHT: Operations = Operations {
    union,
    intersection,
    contained: |one, other| inside(one, other, &[0, 1, 2, 3]),
};

fn intersection(one: Set, other: Set) -> Set {
    [0, 1, 2, 3].map(|word| one[word] & other[word])
}

/// Whether one set lies inside the other, by some of the words.
fn inside(one: Set, other: Set, words: &[usize]) -> bool {
    words.iter().all(|&word| one[word] & !other[word] == 0)
}

fn without(mut set: Set, word: usize) -> Set {
    set[word] = 0;
    set
}

/// Containment that looks at some words.
const fn by(contained: fn(Set, Set) -> bool) -> Operations {
    Operations { contained, ..RIGHT }
}

const fn intersecting(intersection: fn(Set, Set) -> Set) -> Operations {
    Operations {
        intersection,
        ..RIGHT
    }
}

const fn uniting(union: fn(&[Set]) -> Set) -> Operations {
    Operations { union, ..RIGHT }
}

const FAULTS: [(&str, Operations); 17] = [
    (
        "containment on the first word",
        by(|a, b| inside(a, b, &[0])),
    ),
    (
        "containment on the last word",
        by(|a, b| inside(a, b, &[3])),
    ),
    ("containment on two words", by(|a, b| inside(a, b, &[0, 1]))),
    (
        "containment on three words",
        by(|a, b| inside(a, b, &[0, 1, 2])),
    ),
    (
        "containment without the second word",
        by(|a, b| inside(a, b, &[0, 2, 3])),
    ),
    (
        "containment without the third word",
        by(|a, b| inside(a, b, &[0, 1, 3])),
    ),
    (
        "containment in some word",
        by(|a, b| (0..4).any(|word| inside(a, b, &[word]))),
    ),
    (
        "equal words are not contained",
        by(|a, b| inside(a, b, &[0, 1, 2, 3]) && a != b),
    ),
    (
        "intersection of the first word",
        intersecting(|a, b| [a[0] & b[0], 0, 0, 0]),
    ),
    (
        "intersection of words in swapped order",
        intersecting(|a, b| [0, 1, 2, 3].map(|word| a[word] & b[word ^ 1])),
    ),
    (
        "intersection of the last words swapped",
        intersecting(|a, b| [a[0] & b[0], a[1] & b[1], a[2] & b[3], a[3] & b[2]]),
    ),
    (
        "intersection without the last word",
        intersecting(|a, b| without(intersection(a, b), 3)),
    ),
    (
        "the union for the intersection in the last word",
        intersecting(|a, b| [a[0] & b[0], a[1] & b[1], a[2] & b[2], a[3] | b[3]]),
    ),
    (
        "union without the second word",
        uniting(|sets| without(union(sets), 1)),
    ),
    (
        "union without the third word",
        uniting(|sets| without(union(sets), 2)),
    ),
    (
        "union without the last word",
        uniting(|sets| without(union(sets), 3)),
    ),
    (
        "the last literal for the union in the last word",
        uniting(|sets| {
            let last = sets.last().map_or(0, |set| set[3]);
            [union(sets)[0], union(sets)[1], union(sets)[2], last]
        }),
    ),
];

/// What a library with such operations makes of a step: whether it is accepted,
/// and the set of a fork variable.
fn outcome(operations: Operations, decided: &Decided) -> (bool, Option<Set>) {
    let Operations {
        union,
        intersection,
        contained,
    } = operations;
    match decided {
        Decided::Fork([left, right]) => {
            let (left, right) = (union(left), union(right));
            let comparable = contained(left, right) || contained(right, left);
            (
                !comparable,
                (!comparable).then(|| intersection(left, right)),
            )
        }
        // The variable is seen if its set lies inside the union.
        Decided::Reduction(single, others) => (!contained(*single, union(others)), None),
    }
}

fn is_wrong(operations: Operations, examined: &Examined) -> bool {
    outcome(operations, &examined.decided) != outcome(RIGHT, &examined.decided)
}

/// The fast checker with such operations, up to the first step that comes out
/// wrong.
struct Faulty(Operations);

impl Faulty {
    /// The answer to a list whose step is decided wrongly, and what it leaves.
    fn wrong(&self, wrong: &Examined, records: &[u8], mut lent: Lent) -> u64 {
        let before = &records[..16 * (wrong.step - 1)];
        let through = &records[..16 * wrong.step];
        let (accepted, set) = outcome(self.0, &wrong.decided);
        match (wrong.accepted, accepted) {
            (true, true) => {
                let told = Lean.run(through, lent.each_mut().map(|b| &mut **b));
                let new = 32 * (count(lent[4], 1) - 1);
                let words = set.expect("a fork").map(u64::to_le_bytes);
                lent[2][new..new + 32].copy_from_slice(words.as_flattened());
                told
            }
            (_, false) => {
                Lean.run(before, lent);
                let number = match wrong.decided {
                    Decided::Fork(_) => 29,
                    Decided::Reduction(..) => 27,
                };
                3 | (wrong.step as u64) << 16 | number << 32
            }
            (false, true) => {
                let told = Lean.run(before, lent);
                2 | ((told >> 16 & 0xFFFF) + 1) << 16
            }
        }
    }
}

impl Library for Faulty {
    fn load(&mut self, text: &[u8], lent: Lent) -> u64 {
        Lean.load(text, lent)
    }

    fn run(&mut self, records: &[u8], lent: Lent) -> u64 {
        let mut buffers = lent.each_ref().map(|buffer| buffer.to_vec());
        let steps = examined(records, lent_of(&mut buffers).map(|buffer| &*buffer));
        match steps.iter().find(|step| is_wrong(self.0, step)) {
            Some(wrong) => self.wrong(wrong, records, lent),
            None => Lean.run(records, lent),
        }
    }

    differential::reads_as_lean!();
}

/// The library is found in the first scenario that it decides wrongly, and once
/// more from its file.
fn assert_found(name: &str, operations: Operations, index: u64) {
    let scenario = Scenarios::new(1).scenario(index);
    let compared = |scenario| compare(scenario, &mut Faulty(operations));
    let first = compared(&scenario).expect(name);
    assert!(matches!(scenario.calls[first.call], Call::Run(_)), "{name}");
    let told = matches!(
        first.difference,
        Difference::Word(..) | Difference::Byte("sets", ..)
    );
    assert!(told, "{name}");
    let again = Scenario::of_file(&scenario.to_file()).expect("a file of a scenario");
    assert_eq!(compared(&again), Some(first), "{name}");
}

#[test]
fn every_fault_of_a_step_is_found_and_reproduced() {
    for (name, operations) in FAULTS {
        let steps = answers().steps.iter();
        let wrong = steps.filter(|(_, examined)| is_wrong(operations, examined));
        let found: BTreeSet<u64> = wrong.map(|(index, _)| *index).collect();
        assert!(found.len() > 20, "{name}: {} scenarios", found.len());
        assert_found(name, operations, *found.first().expect("some"));
    }
}
