//! The stored example of a trace, and traces that are wrong.

use checker::check;
use qrp2steps::convert;

macro_rules! example {
    ($include:ident, $file:literal) => {
        $include!(concat!("../../../examples/depqbf/", $file))
    };
}

#[test]
fn the_example_is_what_its_trace_gives() {
    let qdimacs = example!(include_str, "formula.qdimacs");
    let converted = convert(qdimacs, example!(include_str, "trace.qrp")).unwrap();
    assert_eq!(converted.formula, example!(include_str, "formula.dq"));
    assert_eq!(converted.steps, example!(include_bytes, "steps.bin"));
    let line = check(converted.formula.as_bytes(), &converted.steps).to_string();
    assert_eq!(line + "\n", example!(include_str, "expected"));
}

const TINY: &str = "p cnf 4 3\na 1 0\ne 2 0\na 3 0\ne 4 0\n1 2 0\n-2 -3 0\n2 3 4 0\n";

fn tiny(steps: &str) -> Result<usize, String> {
    let trace = format!("p qrp 4 9\na 1 0\ne 2 0\na 3 0\ne 4 0\n{steps}\n");
    let converted = convert(TINY, &trace)?;
    let verdict = check(converted.formula.as_bytes(), &converted.steps).to_string();
    assert!(verdict.starts_with("refuted"), "{verdict}");
    Ok(converted.steps.len() / 16)
}

#[test]
fn reductions_become_records() {
    let initial = "1 1 2 0 0\n2 -2 -3 0 0\n";
    // The universals 3 and 1 are reduced, one of them in the same step.
    assert_eq!(
        tiny(&format!("{initial}5 -2 0 2 0\n6 0 1 5 0\nr UNSAT")),
        Ok(3)
    );
    assert_eq!(tiny(&format!("{initial}5 0 1 2 0\nr UNSAT")), Ok(3));
    // What the empty clause does not need is left out, whatever it is.
    assert_eq!(
        tiny(&format!(
            "{initial}3 4 -3 0 0\n5 0 1 2 0\n7 9 0 8 0\nr UNSAT"
        )),
        Ok(3)
    );
    // A clause of the formula may be listed with its universals reduced.
    assert_eq!(tiny("1 1 2 0 0\n2 -2 0 0\n3 0 1 2 0\nr UNSAT"), Ok(3));
}

#[test]
fn wrong_traces_are_told() {
    let initial = "1 1 2 0 0\n2 -2 -3 0 0\n3 2 3 4 0 0\n";
    let wrong = [
        ("5 0 1 2 0\nr SAT", "the trace does not end with r UNSAT"),
        ("5 1 0 1 2 0\nr UNSAT", "no empty clause"),
        ("5 0 1 3 0\nr UNSAT", "step 5: no single pivot"),
        ("5 0 1 6 0\nr UNSAT", "step 6 is used before it is there"),
        ("5 0 3 0\nr UNSAT", "step 5: refused with 27"),
        ("5 0 1 0\nr UNSAT", "step 5: refused with 27"),
        (
            "5 -3 0 2 0\n6 0 5 0\nr UNSAT",
            "step 5: another clause follows",
        ),
        (
            "5 9 0 0\n6 0 5 0\nr UNSAT",
            "step 5: no clause of the formula",
        ),
        ("5 0 1 2 3 0\nr UNSAT", "step 5: more than two antecedents"),
        ("5 0 1 2\nr UNSAT", "5 0 1 2: a 0 is missing"),
        ("x 0 1 2 0\nr UNSAT", "x 0 1 2 0: no number leads"),
    ];
    for (steps, wanted) in wrong {
        assert_eq!(tiny(&format!("{initial}{steps}")), Err(wanted.into()));
    }
}
