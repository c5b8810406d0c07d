//! Document 01, "The line printed", and document 02, Notes 1 and 4: the program
//! `check`.

use std::fs;
use std::path::{Path, PathBuf};
use std::process::Command;

use checker::records::record;

fn printed(folder: &Path) -> String {
    printed_for(&[folder])
}

fn printed_for(arguments: &[&Path]) -> String {
    let program = Command::new(env!("CARGO_BIN_EXE_check"))
        .args(arguments)
        .output();
    String::from_utf8(program.unwrap().stdout).unwrap()
}

/// A folder with the given files and no others.
fn folder(name: &str, files: &[(&str, &[u8])]) -> PathBuf {
    let folder = Path::new(env!("CARGO_TARGET_TMPDIR")).join(name);
    let _ = fs::remove_dir_all(&folder);
    fs::create_dir_all(&folder).unwrap();
    for (file, bytes) in files {
        fs::write(folder.join(file), bytes).unwrap();
    }
    folder
}

const EXAMPLE: &[u8] = include_bytes!("data/ex002_formula.dq");
const EXAMPLE_STEPS: &[u8] = include_bytes!("data/ex002_steps.bin");

#[test]
fn both_files() {
    let files = [("formula.dq", EXAMPLE), ("steps.bin", EXAMPLE_STEPS)];
    assert_eq!(printed(&folder("both", &files)), "refuted 26 38\n");
}

#[test]
fn a_missing_file_counts_as_empty() {
    let no_steps = folder("no_steps", &[("formula.dq", EXAMPLE)]);
    assert_eq!(printed(&no_steps), "open 0\n");
    let no_formula = folder("no_formula", &[("steps.bin", EXAMPLE_STEPS)]);
    assert_eq!(printed(&no_formula), "formula 1 10\n");
    assert_eq!(printed(&no_formula.join("nowhere")), "formula 1 10\n");
}

#[test]
fn the_variable_of_23() {
    let formula: &[u8] = b"p cnf 12 2\na 12 0\ne 2 5 0\n2 5 12 0\n-12 -5 -2 0\n";
    for (pivot, line) in [(2, "bad 1 23 5\n"), (5, "bad 1 23 2\n")] {
        let steps = record(1, [1, 2, pivot]);
        let files = [("formula.dq", formula), ("steps.bin", &steps)];
        assert_eq!(printed(&folder("clash", &files)), line);
    }
}

#[test]
fn a_tidy_text() {
    let untidy: &[u8] = b"c x\np  cnf 3 1\na 2 0\ne 3 0\na 1 0\n3 -2 3 0\n";
    let long = [untidy, &[b'x'; 32_768]].concat();
    let files: [(&str, &[u8]); 4] = [
        ("example", EXAMPLE),
        ("untidy", untidy),
        ("refused", b"p cnf 1 0\n1 0\n"),
        ("long", &long),
    ];
    let folder = folder("tidy", &files);
    let tidy = |name: &str| printed_for(&[Path::new("--tidy"), &folder.join(name)]);
    assert_eq!(tidy("example").as_bytes(), EXAMPLE);
    assert_eq!(tidy("untidy"), "p cnf 3 1\na 2 1 0\nd 3 2 0\n-2 3 0\n");
    assert_eq!(tidy("refused"), "formula 2 12\n");
    assert_eq!(tidy("long"), "formula 0 11\n");
    assert_eq!(tidy("missing"), "formula 1 10\n");
}
