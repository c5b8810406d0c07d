//! `decide FILE` prints `true`, `false` or `too large` for an accepted text.

#![forbid(unsafe_code)]

use std::process::ExitCode;

fn main() -> ExitCode {
    let arguments: Vec<_> = std::env::args_os().skip(1).collect();
    let [file] = arguments.as_slice() else {
        eprintln!("usage: decide FILE");
        return ExitCode::from(2);
    };
    let Ok(text) = std::fs::read(file) else {
        eprintln!("decide: the file cannot be read");
        return ExitCode::from(2);
    };
    match decide::decide(&text) {
        Some(true) => println!("true"),
        Some(false) => println!("false"),
        None => println!("too large"),
    }
    ExitCode::SUCCESS
}
