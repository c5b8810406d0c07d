//! Document 01, "The line printed": `check DIR` reads `formula.dq` and
//! `steps.bin` in DIR and prints the one line; `check --listed DIR` prints each
//! clause, each variable and the tidy text behind it. `check --tidy FILE` prints
//! the tidy text of a formula.

#![forbid(unsafe_code)]

use std::path::Path;
use std::process::ExitCode;

/// A file that cannot be read counts as empty.
fn bytes_of(file: &Path) -> Vec<u8> {
    std::fs::read(file).unwrap_or_default()
}

/// The formula and the steps of a folder.
fn both_of(directory: &Path) -> (Vec<u8>, Vec<u8>) {
    let [text, records] = ["formula.dq", "steps.bin"].map(|name| bytes_of(&directory.join(name)));
    (text, records)
}

fn main() -> ExitCode {
    let arguments: Vec<_> = std::env::args_os().skip(1).collect();
    match arguments.as_slice() {
        [directory] => {
            let (text, records) = both_of(directory.as_ref());
            println!("{}", checker::check(&text, &records));
        }
        [option, directory] if option == "--listed" => {
            let (text, records) = both_of(directory.as_ref());
            print!("{}", checker::listed::listed(&text, &records));
        }
        [option, file] if option == "--tidy" => {
            print!("{}", checker::tidy::tidied(&bytes_of(file.as_ref())));
        }
        _ => {
            eprintln!("usage: check [--listed] DIR | check --tidy FILE");
            return ExitCode::from(2);
        }
    }
    ExitCode::SUCCESS
}
