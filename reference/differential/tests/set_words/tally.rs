//! The scenarios of the gate, run once by the reference checker.

use std::sync::OnceLock;

use differential::compare::fields;
use differential::generate::Scenarios;
use differential::oracle;
use differential::scenario::Call;

use crate::words::{count, examined, Decided, Examined, Set};

/// As many as the gate compares.
pub const SCENARIOS: u64 = 5_000;

/// The steps that the sets decide, with the numbers of their scenarios.
pub struct Answers {
    pub steps: Vec<(u64, Examined)>,
    /// Scenarios with more than 64, 128 and 192 universals, and with 256.
    many: [usize; 4],
}

/// Made once for all tests.
pub fn answers() -> &'static Answers {
    static ANSWERS: OnceLock<Answers> = OnceLock::new();
    ANSWERS.get_or_init(|| {
        let mut answers = Answers {
            steps: Vec::new(),
            many: [0; 4],
        };
        let scenarios = Scenarios::new(1);
        for index in 0..SCENARIOS {
            answers.add(index, &scenarios);
        }
        answers
    })
}

impl Answers {
    fn add(&mut self, index: u64, scenarios: &Scenarios) {
        let scenario = scenarios.scenario(index);
        let mut buffers = scenario.buffers;
        let mut most = 0;
        for call in &scenario.calls {
            let before = buffers.0.each_ref().map(Vec::as_slice);
            if let Call::Run(records) = call {
                let steps = examined(records, before).into_iter();
                self.steps.extend(steps.map(|step| (index, step)));
            }
            let word = oracle::answer(&mut buffers, call, &mut call.output());
            let accepted = matches!((call, fields(word)[0]), (Call::Load(_), 1));
            let examined = matches!((call, fields(word)[0]), (Call::Run(_), 1 | 2));
            if accepted || examined {
                most = most.max(count(&buffers.0[4], 2));
            }
        }
        for (many, least) in self.many.iter_mut().zip([65, 129, 193, 256]) {
            *many += usize::from(most >= least);
        }
    }
}

/// The words in which a set has a bit that another has not.
fn words_with_more(one: &Set, other: &Set) -> Vec<usize> {
    (0..4)
        .filter(|&word| one[word] & !other[word] != 0)
        .collect()
}

/// The union over some literals.
pub fn union(sets: &[Set]) -> Set {
    let mut all = [0; 4];
    for set in sets {
        all = [0, 1, 2, 3].map(|word| all[word] | set[word]);
    }
    all
}

/// Forks and reductions of which word w decides: neither part has more in a word
/// before it, or the reduced variable's bit is in it.
#[derive(Debug, Default)]
struct Tally {
    accepted_forks: [usize; 4],
    refused_forks: [usize; 4],
    accepted_reductions: [usize; 4],
    refused_reductions: [usize; 4],
}

impl Tally {
    fn count(&mut self, examined: &Examined) {
        let accepted = examined.accepted;
        match &examined.decided {
            Decided::Fork([left, right]) => {
                let (left, right) = (union(left), union(right));
                let [more, less] =
                    [(left, right), (right, left)].map(|(a, b)| words_with_more(&a, &b));
                match (more.first(), less.first()) {
                    (Some(&one), Some(&other)) => self.accepted_forks[one.max(other)] += 1,
                    (Some(&word), None) | (None, Some(&word)) => self.refused_forks[word] += 1,
                    (None, None) => (),
                }
                assert_eq!(accepted, !more.is_empty() && !less.is_empty());
            }
            Decided::Reduction(single, others) => {
                let word = (0..4).find(|&word| single[word] != 0).expect("a bit");
                let seen = union(others)[word] & single[word] != 0;
                assert_eq!(accepted, !seen);
                match accepted {
                    true => self.accepted_reductions[word] += 1,
                    false => self.refused_reductions[word] += 1,
                }
            }
        }
    }
}

#[test]
fn scenarios_reach_sets_of_all_words() {
    let answers = answers();
    let mut tally = Tally::default();
    for (_, examined) in &answers.steps {
        tally.count(examined);
    }
    let often = |counts: &[usize], least| counts.iter().all(|&count| count > least);
    assert!(often(&answers.many, 150), "{:?}", answers.many);
    assert!(often(&tally.accepted_forks, 60), "{tally:?}");
    assert!(often(&tally.refused_forks, 15), "{tally:?}");
    assert!(often(&tally.accepted_reductions, 60), "{tally:?}");
    assert!(often(&tally.refused_reductions, 15), "{tally:?}");
}
