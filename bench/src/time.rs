//! Times of one work on the three checkers, in the same rounds.

use std::time::{Duration, Instant};

use archive::Archive;
use checker::driver::Buffers;
use differential::library::{self, Lean, Library};
use differential::oracle;
use differential::scenario::Call;

use crate::work::{Input, Work};

/// Medians: the archive, the fast checker, the reference checker.
pub struct Times {
    pub archive: Duration,
    pub lean: Duration,
    pub reference: Duration,
}

/// What a call answers and leaves.
#[derive(Clone, PartialEq)]
pub struct Left {
    word: u64,
    buffers: Buffers,
    output: Vec<u8>,
}

/// The call's time and what it leaves.
pub type Outcome = (Duration, Left);

fn timed(input: &Input, make: impl FnOnce(&mut Buffers, &Call, &mut [u8]) -> u64) -> Outcome {
    // Copies, so that all are in the cache whoever is called first.
    let (mut buffers, call) = (input.start.clone(), input.call.clone());
    let mut output = call.output();
    let start = Instant::now();
    let word = make(&mut buffers, &call, &mut output);
    let time = start.elapsed();
    let left = Left {
        word,
        buffers,
        output,
    };
    (time, left)
}

pub fn call(library: &mut impl Library, input: &Input) -> Outcome {
    timed(input, |buffers, call, output| {
        library::answer(library, buffers, call, output)
    })
}

fn median(mut times: Vec<Duration>) -> Duration {
    times.sort_unstable();
    times[times.len() / 2]
}

/// The medians of some works on one library, timed in turn.
pub fn each(library: &mut impl Library, works: &[Work], rounds: usize) -> Vec<Duration> {
    let mut times = vec![Vec::new(); works.len()];
    for round in 0..rounds {
        for (time, work) in times.iter_mut().zip(works) {
            time.push(call(library, work.input(round)).0);
        }
    }
    times.into_iter().map(median).collect()
}

/// The medians of all three, which must agree on what they leave.
pub fn all(work: &Work, rounds: usize) -> Times {
    let mut times = [Vec::new(), Vec::new(), Vec::new()];
    for round in 0..rounds {
        let input = work.input(round);
        // Each is the first in every other round.
        let early = (round % 2 == 1).then(|| call(&mut Lean, input));
        let archive = call(&mut Archive, input);
        let lean = early.unwrap_or_else(|| call(&mut Lean, input));
        let mut outcomes = vec![archive, lean];
        // The reference is slow, and a tenth of the rounds is enough for it.
        if round % 10 == 0 {
            outcomes.push(timed(input, oracle::answer));
        }
        let (_, left) = outcomes[0].clone();
        for (time, (each, other)) in times.iter_mut().zip(outcomes) {
            assert!(left == other, "{}", work.name);
            time.push(each);
        }
    }
    let [archive, lean, reference] = times.map(median);
    Times {
        archive,
        lean,
        reference,
    }
}
