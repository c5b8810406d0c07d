//! The file `listed` of each example is what `check --listed` prints for it.

use std::fs;
use std::path::Path;

use checker::listed::listed;

#[test]
fn the_examples_are_listed() {
    let examples = Path::new(env!("CARGO_MANIFEST_DIR")).join("../../examples");
    let mut compared = 0;
    for entry in fs::read_dir(examples).unwrap() {
        let folder = entry.unwrap().path();
        if !folder.is_dir() {
            continue;
        }
        let bytes = |name: &str| fs::read(folder.join(name)).unwrap();
        let lines = listed(&bytes("formula.dq"), &bytes("steps.bin"));
        assert_eq!(bytes("listed"), lines.as_bytes(), "{}", folder.display());
        let first = lines.lines().next().unwrap();
        assert_eq!(bytes("expected"), format!("{first}\n").as_bytes());
        compared += 1;
    }
    assert!(compared >= 10, "{compared}");
}
