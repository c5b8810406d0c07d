//! `compare-lean` compares the fast checker with the reference checker.

#![forbid(unsafe_code)]

fn main() -> std::process::ExitCode {
    differential::command::main(differential::library::Lean)
}
