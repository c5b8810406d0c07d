//! Every faulty library is found, and its first difference is reproduced.

use std::collections::BTreeSet;

use differential::compare::{compare, fields, Difference};
use differential::generate::Scenarios;
use differential::library::{Lean, Lent, Library};
use differential::scenario::{Call, Scenario};

use crate::answers::{answers, Answer, Before};
use crate::wrong::{Fault, LoadFault, LINES, ORDERS, OTHERS, VARIABLES};

/// The fast checker with a fault in its answers.
struct Faulty {
    run: Fault,
    load: LoadFault,
    before: Before,
}

impl Faulty {
    fn new() -> Faulty {
        Faulty {
            run: |answer| answer.fields,
            load: |_, fields| fields,
            before: Before::NOTHING,
        }
    }
}

/// The result with such fields.
fn word(fields: [u16; 4]) -> u64 {
    let [tag, first, second, third] = fields.map(u64::from);
    tag | first << 16 | second << 32 | third << 48
}

impl Library for Faulty {
    fn load(&mut self, text: &[u8], lent: Lent) -> u64 {
        self.before.load();
        word((self.load)(text, fields(Lean.load(text, lent))))
    }

    fn run(&mut self, records: &[u8], mut lent: Lent) -> u64 {
        let told = Lean.run(records, lent.each_mut().map(|buffer| &mut **buffer));
        let lent = lent.map(|buffer| &*buffer);
        let answer = Answer::of(told, records, lent, self.before);
        self.before.run(&answer);
        word((self.run)(&answer))
    }

    differential::reads_as_lean!();
}

/// In more than 20 scenarios a library with the fault tells something else. The
/// comparison finds it in the first of them, and once more from its file.
fn assert_found(name: &str, found: BTreeSet<u64>, library: impl Fn() -> Faulty) -> Call {
    assert!(found.len() > 20, "{name}: {} scenarios", found.len());
    let scenario = Scenarios::new(1).scenario(*found.first().expect("some"));
    let compared = |scenario| compare(scenario, &mut library());
    let first = compared(&scenario).expect("a difference");
    assert!(matches!(first.difference, Difference::Word(..)), "{name}");
    let call = scenario.calls[first.call].clone();
    let again = Scenario::of_file(&scenario.to_file()).expect("a file of a scenario");
    assert_eq!(compared(&again), Some(first), "{name}");
    call
}

#[test]
fn every_fault_of_a_run_is_found_and_reproduced() {
    let faults = VARIABLES.into_iter().chain(OTHERS).chain(ORDERS);
    for (name, run) in faults {
        let runs = answers().runs.iter();
        let wrong = runs.filter(|(_, answer)| run(answer) != answer.fields);
        let found = wrong.map(|(index, _)| *index).collect();
        let library = || Faulty {
            run,
            ..Faulty::new()
        };
        let call = assert_found(name, found, library);
        assert!(matches!(call, Call::Run(_)), "{name}");
    }
}

#[test]
fn every_fault_of_a_load_is_found_and_reproduced() {
    for (name, load) in LINES {
        let loads = answers().loads.iter();
        let wrong = loads.filter(|(_, text, fields)| load(text, *fields) != *fields);
        let found = wrong.map(|(index, ..)| *index).collect();
        let library = || Faulty {
            load,
            ..Faulty::new()
        };
        let call = assert_found(name, found, library);
        assert!(matches!(call, Call::Load(_)), "{name}");
    }
}
