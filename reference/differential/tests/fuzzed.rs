//! The inputs of the fuzzer reach short buffers, ill-formed tables, and well-formed
//! tables that no load made.

use checker::records::record;
use differential::compare::fields;
use differential::fuzzed::scenario;
use differential::oracle;
use differential::scenario::Call;

const REST: &[u8] = b"p cnf 2 2\na 1 0\nd 2 0\n1 2 0\n-1 -2 0\n\0";

/// What the first run answers.
fn first_answer(input: &[u8]) -> [u16; 4] {
    let scenario = scenario(input);
    let mut buffers = scenario.buffers;
    for call in &scenario.calls {
        let word = oracle::answer(&mut buffers, call, &mut call.output());
        if let Call::Run(_) = call {
            return fields(word);
        }
    }
    unreachable!("every scenario has a run")
}

/// Case and number of the first run.
fn first_run(input: &[u8]) -> (u16, u16) {
    let [tag, _, second, _] = first_answer(input);
    (tag, second)
}

/// Case and first value of each write.
fn writes(input: &[u8]) -> Vec<(u16, u16)> {
    let scenario = scenario(input);
    let mut buffers = scenario.buffers;
    let mut found = Vec::new();
    for call in &scenario.calls {
        let word = oracle::answer(&mut buffers, call, &mut call.output());
        let [tag, first, ..] = fields(word);
        if let Call::Write(_) = call {
            found.push((tag, first));
        }
    }
    found
}

fn changed(front: &[u8]) -> Vec<u8> {
    [front, REST].concat()
}

#[test]
fn inputs_reach_what_is_lent() {
    assert_eq!(first_run(REST), (2, 0));
    for short in 0..5 {
        assert_eq!(first_run(&changed(&[128 + short, 0, 0])), (3, 1));
        assert_eq!(first_run(&changed(&[128 + short, 255, 0])), (3, 1));
    }
    assert_eq!(first_run(&changed(&[133, 0, 0])), (2, 0));
    // One universal more in the state: not well formed.
    assert_eq!(first_run(&changed(&[133, 0, 1, 4, 4, 0, 2])), (3, 2));
    // Literal 2 of clause 1 made -2: well formed, and no load of this text made it.
    assert_eq!(
        first_run(&changed(&[133, 0, 2, 0, 2, 0, 0xFE, 0, 3, 0, 0xFF])),
        (2, 0)
    );
    // Cut anywhere it is a scenario still.
    let whole = changed(&[131, 7, 3, 0, 2, 0, 0xFE, 0, 3, 0, 0xFF]);
    for length in 0..whole.len() {
        first_run(&whole[..length]);
    }
}

#[test]
fn inputs_reach_a_clash() {
    for (pivot, variable) in [(1, 2), (2, 1)] {
        let input = [REST, &record(1, [1, 2, pivot])].concat();
        assert_eq!(first_answer(&input), [3, 1, 23, variable]);
    }
    // Clause 2 made {-1, 2}: no pair is left.
    let front = [133, 0, 2, 0, 6, 0, 2, 0, 7, 0, 0];
    let input = [&changed(&front)[..], &record(1, [1, 2, 1])].concat();
    assert_eq!(first_answer(&input), [2, 1, 0, 0]);
}

#[test]
fn inputs_reach_writes() {
    assert_eq!(writes(REST), [(1, 36), (1, 36)]);
    // An output of 35 bytes, a byte short.
    assert_eq!(writes(&[REST, &[0; 254]].concat()), [(2, 30), (1, 36)]);
    assert_eq!(writes(&changed(&[133, 0, 0])), [(1, 36), (1, 36)]);
    assert_eq!(writes(&changed(&[128, 0, 0])), [(2, 1), (2, 1)]);
    let universals = &changed(&[133, 0, 1, 4, 4, 0, 2]);
    assert_eq!(writes(universals), [(2, 2), (2, 2)]);
    // A long text of a short input.
    let numbers = |range: std::ops::Range<u32>| -> String {
        range.map(|number| format!("{number} ")).collect()
    };
    let text = format!(
        "p cnf 99 0\na {}0\ne {}0\n",
        numbers(36..100),
        numbers(1..36)
    );
    let length = 11 + 196 + 35 * 196 + 9 * 2 + 26 * 3;
    assert_eq!(writes(text.as_bytes()), [(2, 30), (1, length)]);
    // The longest texts of short inputs: the first fields are the low 16 bits.
    for universals in [1, 9, 64, 65, 128, 256] {
        let others = 512 - universals;
        let (named, seeing) = (numbers(1..universals + 1), numbers(universals + 1..513));
        let text = format!("p cnf 512 0\na {named}0\ne {seeing}0\n");
        let length = 12 + 4 + named.len() + seeing.len() + others as usize * (named.len() + 4);
        assert_eq!(writes(text.as_bytes()).last(), Some(&(1, length as u16)));
    }
}

/// A question about a variable, in a text of 256 universals: its set.
#[test]
fn inputs_reach_sets_of_all_words() {
    let named: String = (1..=256).map(|number| format!("{number} ")).collect();
    let mut text = format!("c\np cnf 300 0\na {named}0\ne 299 0\n");
    while text.len() % 300 != 299 {
        text.insert(1, ' ');
    }
    let scenario = scenario(text.as_bytes());
    let mut buffers = scenario.buffers;
    let told = scenario.calls.iter().map(|call| {
        let word = oracle::answer(&mut buffers, call, &mut call.output());
        (call.short(), fields(word))
    });
    let told: Vec<_> = told.collect();
    assert!(
        told.contains(&("variable 299".into(), [1, 2, 256, 0])),
        "{told:?}"
    );
}
