//! Nothing true is refuted by the reference checker and by the fast one, and the
//! search would find it: most false formulas are refuted, some with forks, and a
//! library with a wrong answer to some runs is found out.

use std::panic::catch_unwind;

use differential::library::{Lean, Lent, Library};
use differential::soundness::{refutes, searched, tried_at_random, Refuted};

#[test]
fn nothing_true_is_refuted_by_the_reference_checker() {
    searched(|text, records| {
        let line = checker::check(text, records).to_string();
        let refuted = line.starts_with("refuted");
        Refuted {
            ever: refuted,
            at_the_end: refuted,
        }
    });
}

#[test]
fn nothing_true_is_refuted_by_the_fast_checker() {
    searched(|text, records| refutes(&mut Lean, text, records));
    tried_at_random(&mut Lean);
}

/// Some runs: the number of records, the case, and the number of accepted
/// steps if the case is 2.
type Runs = fn(usize, u64, u64) -> bool;

/// The fast checker, but it answers refuted to some runs.
#[derive(Clone, Copy)]
struct Wrong(Runs);

impl Library for Wrong {
    fn load(&mut self, text: &[u8], lent: Lent) -> u64 {
        Lean.load(text, lent)
    }

    fn run(&mut self, records: &[u8], lent: Lent) -> u64 {
        let word = Lean.run(records, lent);
        match self.0(records.len() / 16, word & 0xFFFF, word >> 16 & 0xFFFF) {
            true => 1 | 1 << 16 | 1 << 32,
            false => word,
        }
    }

    differential::reads_as_lean!();
}

/// Whether the search finds a formula that is true and refuted.
fn finds(search: fn(Wrong), wrong: Wrong) -> bool {
    catch_unwind(|| search(wrong)).is_err_and(|cause| {
        let message = cause.downcast_ref::<String>();
        message.is_some_and(|message| message.starts_with("true and refuted"))
    })
}

#[test]
fn a_wrong_answer_to_any_run_is_found() {
    let permitted = |mut wrong: Wrong| {
        searched(|text, records| refutes(&mut wrong, text, records));
    };
    let any = |mut wrong: Wrong| {
        tried_at_random(&mut wrong);
    };
    let open: [Runs; 4] = [
        |records, case, steps| records == 0 && case == 2 && steps > 0,
        |records, case, _| records == 1 && case == 2,
        |records, case, _| records > 1 && case == 2,
        |records, _, _| records > 0,
    ];
    for wrong in open {
        assert!(finds(permitted, Wrong(wrong)));
        assert!(finds(any, Wrong(wrong)));
    }
    // Permitted steps are never bad.
    let bad: [Runs; 2] = [
        |records, case, _| records == 1 && case == 3,
        |records, case, _| records > 1 && case == 3,
    ];
    for wrong in bad {
        assert!(finds(any, Wrong(wrong)));
    }
}
