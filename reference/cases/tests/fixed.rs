//! The stated lines of the fixed cases are what the checker prints.

use cases::fixed;

#[test]
fn the_checker_prints_the_stated_lines() {
    let cases = fixed();
    let wrong: Vec<String> = cases
        .iter()
        .filter_map(|case| {
            let found = checker::check(&case.text, &case.records).to_string();
            let differs = found != case.expected;
            differs.then(|| format!("{}: {found}, stated {}", case.label, case.expected))
        })
        .collect();
    assert!(wrong.is_empty(), "{wrong:#?}");
    assert!(cases.len() > 400, "{}", cases.len());
}
