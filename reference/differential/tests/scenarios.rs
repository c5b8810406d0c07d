//! The scenarios reach every answer of every call, and a program that prints a
//! wrong line is found.

use std::collections::BTreeSet;
use std::fs;
use std::os::unix::fs::PermissionsExt;
use std::path::Path;

use cases::e_lines::{old_state, with_smaller_sets};
use checker::state::State;
use differential::compare::fields;
use differential::generate::Scenarios;
use differential::oracle;
use differential::program::Program;
use differential::scenario::Call;

/// Call, tag and, in a refusal, its number; of a show, how many of its two values
/// are not 0. Only a run refused with 23 tells a variable.
fn outcome(call: &Call, word: u64) -> (&'static str, u16, u16) {
    let [tag, first, second, variable] = fields(word);
    let clash = matches!(call, Call::Run(_)) && (tag, second) == (3, 23);
    assert_eq!(variable > 0, clash, "{}", call.short());
    match call {
        Call::Load(_) => ("load", tag, second),
        Call::Run(_) => ("run", tag, if tag == 3 { second } else { 0 }),
        Call::Show(_) => ("show", tag, u16::from(first > 0) + u16::from(second > 0)),
        Call::Clause(_) => ("clause", tag, if tag == 2 { first } else { 0 }),
        Call::Variable(_) => ("variable", tag, if tag == 2 { first } else { 0 }),
        Call::Write(_) => ("write", tag, if tag == 2 { first } else { 0 }),
    }
}

#[test]
fn scenarios_reach_every_answer() {
    let scenarios = Scenarios::new(1);
    let mut found = BTreeSet::new();
    for index in 0..3_000 {
        let scenario = scenarios.scenario(index);
        let mut buffers = scenario.buffers;
        for call in &scenario.calls {
            let word = oracle::answer(&mut buffers, call, &mut call.output());
            found.insert(outcome(call, word));
        }
    }
    let mut wanted = BTreeSet::from([("load", 1, 0), ("run", 1, 0), ("run", 2, 0)]);
    wanted.extend([1, 10, 11, 12, 13, 14].map(|number| ("load", 4, number)));
    let run = [1, 2, 11, 20, 21, 22, 23, 24, 25, 26, 27, 28, 29];
    wanted.extend(run.map(|number| ("run", 3, number)));
    wanted.extend([0, 1, 2].map(|values| ("show", 1, values)));
    for (call, unknown) in [("clause", 21), ("variable", 22)] {
        wanted.insert((call, 1, 0));
        wanted.extend([1, 2, unknown].map(|number| (call, 2, number)));
    }
    wanted.insert(("write", 1, 0));
    wanted.extend([1, 2, 30].map(|number| ("write", 2, number)));
    assert_eq!(found, wanted);
}

/// A tidy text that is loaded again makes the buffers that the load of its formula
/// left, and is written once more. The outputs are just long enough, a byte short
/// and longer; some texts have lengths above 16 bits.
#[test]
fn a_tidy_text_restores_the_formula() {
    let scenarios = Scenarios::new(1);
    let (mut restored, mut stepped, mut high, mut outputs) = (0, 0, 0, [0; 3]);
    for index in 0..3_000 {
        let scenario = scenarios.scenario(index);
        let mut buffers = scenario.buffers;
        let (mut loaded, mut ran, mut text) = (None, None, Vec::new());
        for call in &scenario.calls {
            let mut output = call.output();
            let word = oracle::answer(&mut buffers, call, &mut output);
            let [tag, low, more, _] = fields(word);
            match call {
                Call::Load(given) if tag == 1 && *given == text && loaded.is_some() => {
                    assert_eq!(loaded.as_ref(), Some(&buffers), "{}", scenario.label);
                    restored += 1;
                    stepped += usize::from(loaded != ran);
                }
                Call::Load(_) => loaded = (tag == 1).then(|| buffers.clone()),
                Call::Run(_) => ran = Some(buffers.clone()),
                Call::Write(_) if tag == 1 => {
                    let length = usize::from(low) + 65_536 * usize::from(more);
                    high += usize::from(more > 0);
                    outputs[usize::from(length < output.len())] += 1;
                    text = output[..length].to_vec();
                }
                Call::Write(_) => outputs[2] += 1,
                _ => (),
            }
        }
    }
    assert!(restored > 400 && stepped > 100, "{restored} {stepped}");
    let [exact, longer, short] = outputs;
    assert!(exact > 800 && longer > 400 && short > 800, "{outputs:?}");
    assert!(high > 20, "{high}");
}

/// Note 3 of document 02: many texts have an `e` line before an `a` line, and many
/// of their lists end otherwise than by the rule before the note.
#[test]
fn scenarios_reach_e_lines_before_universals() {
    let scenarios = Scenarios::new(1);
    let (mut texts, mut otherwise) = (0, 0);
    for case in (0..3_000).filter_map(|index| scenarios.case(index)) {
        let refused = case.expected.starts_with("formula");
        if refused || with_smaller_sets(&case.text).is_empty() {
            continue;
        }
        let old = old_state(&case.text).run(&case.records);
        let new = State::load(&case.text).map(|mut state| state.run(&case.records));
        texts += 1;
        otherwise += usize::from(new != Ok(old));
    }
    assert!(texts > 400 && otherwise > 200, "{texts} {otherwise}");
}

#[test]
fn a_wrong_line_is_found() {
    let folder = Path::new(env!("CARGO_TARGET_TMPDIR")).join("line");
    fs::create_dir_all(&folder).unwrap();
    let script = folder.join("program");
    fs::write(&script, "#!/bin/sh\necho open 0\n").unwrap();
    fs::set_permissions(&script, fs::Permissions::from_mode(0o755)).unwrap();
    let program = Program::new(&script, &folder).unwrap();
    let mut right = 0;
    for case in cases::fixed().iter().take(200) {
        let difference = program.difference(case).unwrap();
        assert_eq!(difference.is_none(), case.expected == "open 0");
        right += usize::from(difference.is_none());
    }
    assert!((1..200).contains(&right), "{right}");
    fs::write(&script, "#!/bin/sh\necho open 0\nexit 3\n").unwrap();
    for case in cases::fixed().iter().take(200) {
        assert!(program.difference(case).unwrap().is_some());
    }
    let wrong = ["bad 1 23", "bad 1 23 0", "bad 1 23 50"];
    assert_only(&script, &program, "clash/two pairs", "bad 1 23 7", wrong);
    let (pair, none) = (
        "clash/33 literals, one pair in front",
        "wide/34 literals, no pair",
    );
    let wrong = ["bad 1 24", "bad 1 24 1", "bad 1 23"];
    assert_only(&script, &program, pair, "bad 1 23 1", wrong);
    let wrong = ["bad 1 24 0", "bad 1 24 1", "bad 1 23 1"];
    assert_only(&script, &program, none, "bad 1 24", wrong);
}

/// Of some lines that a program prints for a fixed case only one is right.
fn assert_only(script: &Path, program: &Program, label: &str, right: &str, wrong: [&str; 3]) {
    let fixed = cases::fixed();
    let case = fixed.iter().find(|case| case.label == label).expect(label);
    for line in [right].into_iter().chain(wrong) {
        fs::write(script, format!("#!/bin/sh\necho {line}\n")).unwrap();
        let difference = program.difference(case).unwrap();
        assert_eq!(difference.is_none(), line == right, "{line}");
    }
}
