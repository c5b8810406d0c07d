//! `archive` compares the library's archive with the reference checker.

#![forbid(unsafe_code)]

use std::process::ExitCode;

fn main() -> ExitCode {
    match archive::Archive::of_this_interface() {
        Some(archive) => differential::command::main(archive),
        None => {
            eprintln!("the archive has another interface");
            ExitCode::from(2)
        }
    }
}
