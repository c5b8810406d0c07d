//! What each call must answer and leave, by the reference checker.

use checker::driver::Buffers;
use checker::refusal::Number;
use checker::verdict::Verdict;

use crate::scenario::Call;

/// The word of a tag, which is never 0, and its values.
pub fn word(tag: u16, values: [usize; 3]) -> u64 {
    let fields = values.map(|value| u64::from(u16::try_from(value).expect("16 bits each")));
    u64::from(tag) | fields[0] << 16 | fields[1] << 32 | fields[2] << 48
}

fn number(number: Number) -> usize {
    number.value().into()
}

/// The variable that is told with a number; 0: none.
fn variable(number: Number) -> usize {
    number.variable().unwrap_or(0) as usize
}

/// Makes the call on the buffers and on an output, which only a write changes;
/// gives its word.
pub fn answer(buffers: &mut Buffers, call: &Call, out: &mut [u8]) -> u64 {
    match call {
        Call::Load(text) => match buffers.load(text) {
            Ok(()) => word(1, [0, 0, 0]),
            Err(refusal) => word(4, [refusal.line, number(refusal.number), 0]),
        },
        Call::Run(records) => verdict(buffers.run(records)),
        &Call::Show(clause) => {
            let shown = buffers.show(clause);
            // Where the question is refused it is the empty stretch at the start.
            match buffers.clause_length(clause) {
                Ok(length) => assert_eq!(shown.len(), length),
                Err(_) => assert_eq!(shown, 0..0),
            }
            word(1, [shown.start, shown.len(), 0])
        }
        &Call::Clause(clause) => asked(buffers.clause_length(clause), |length| [length, 0, 0]),
        &Call::Variable(variable) => asked(buffers.variable(variable), |(kind, universals)| {
            [kind.into(), universals, 0]
        }),
        Call::Write(_) => asked(buffers.write(out), |length| {
            [length & 0xFFFF, length >> 16, 0]
        }),
    }
}

fn verdict(verdict: Verdict) -> u64 {
    match verdict {
        Verdict::Refuted { steps, clause } => word(1, [steps, clause, 0]),
        Verdict::Open { steps } => word(2, [steps, 0, 0]),
        Verdict::Bad { step, number: n } => word(3, [step, number(n), variable(n)]),
        Verdict::Formula(_) => unreachable!("a run reads no formula"),
    }
}

fn asked<T>(answer: Result<T, Number>, values: impl FnOnce(T) -> [usize; 3]) -> u64 {
    match answer {
        Ok(found) => word(1, values(found)),
        Err(refused) => word(2, [number(refused), 0, 0]),
    }
}
