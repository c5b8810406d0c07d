//! `cases --seed S --count N` with `--out FILE`, `--dir DIR`, `--joined DIR` or
//! `--lines FILE` writes cases; `--only PREFIX` keeps those whose label begins so.
//! `cases --vectors DIR` writes the data and the stdout of the program `vectors`,
//! `cases --steps DIR` those of the program `steps_test`, `cases --texts DIR` those
//! of the program `tidy_test`, `cases --numbers DIR` those of the program
//! `lines_test`.

#![forbid(unsafe_code)]

use std::fs;
use std::io;
use std::path::{Path, PathBuf};
use std::process::ExitCode;

use cases::case::Case;
use cases::{container, generate, numbered, packed, stepped, tidied, vectors};

const USAGE: &str = "usage: cases [--seed S] [--count N] [--only PREFIX] \
    [--out FILE] [--dir DIR] [--joined DIR] [--lines FILE] \
    [--vectors DIR] [--steps DIR] [--texts DIR] [--numbers DIR]";

#[derive(Default)]
struct Options {
    seed: u64,
    count: Option<usize>,
    only: String,
    out: Option<PathBuf>,
    dir: Option<PathBuf>,
    joined: Option<PathBuf>,
    lines: Option<PathBuf>,
    vectors: Option<PathBuf>,
    steps: Option<PathBuf>,
    texts: Option<PathBuf>,
    numbers: Option<PathBuf>,
}

fn options() -> Option<Options> {
    let mut options = Options::default();
    let mut arguments = std::env::args().skip(1);
    while let Some(name) = arguments.next() {
        let value = arguments.next()?;
        match name.as_str() {
            "--seed" => options.seed = value.parse().ok()?,
            "--count" => options.count = Some(value.parse().ok().filter(|&count| count > 0)?),
            "--only" => options.only = value,
            "--out" => options.out = Some(value.into()),
            "--dir" => options.dir = Some(value.into()),
            "--joined" => options.joined = Some(value.into()),
            "--lines" => options.lines = Some(value.into()),
            "--vectors" => options.vectors = Some(value.into()),
            "--steps" => options.steps = Some(value.into()),
            "--texts" => options.texts = Some(value.into()),
            "--numbers" => options.numbers = Some(value.into()),
            _ => return None,
        }
    }
    Some(options)
}

/// The data of a program of the library, as it has them in its folder, and what it
/// prints.
fn write_data(folder: &Path, name: &str, data: Vec<u8>, printed: String) -> io::Result<()> {
    fs::create_dir_all(folder.join("data"))?;
    fs::write(folder.join("data").join(name), data)?;
    fs::write(folder.join("stdout"), printed)
}

/// The same for a program that reads packed cases.
fn write_program(folder: &Path, cases: &[Case], printed: String) -> io::Result<usize> {
    write_data(folder, "cases.bin", packed::pack(cases), printed)?;
    Ok(cases.len())
}

fn write(options: &Options) -> io::Result<usize> {
    if let Some(folder) = options.vectors.as_deref() {
        let cases = vectors();
        return write_program(folder, &cases, packed::printed(&cases));
    }
    if let Some(folder) = options.steps.as_deref() {
        let cases = stepped::cases();
        return write_program(folder, &cases, stepped::printed(&cases));
    }
    if let Some(folder) = options.texts.as_deref() {
        let cases = tidied::cases();
        return write_program(folder, &cases, tidied::printed(&cases));
    }
    if let Some(folder) = options.numbers.as_deref() {
        write_data(
            folder,
            "numbers.bin",
            numbered::bytes(),
            numbered::printed(),
        )?;
        return Ok(numbered::numbers().len());
    }
    let mut cases = generate(options.seed, options.count);
    cases.retain(|case| case.label.starts_with(&options.only));
    let file = |path: &Option<PathBuf>, bytes: &[u8]| match path {
        Some(path) => fs::write(path, bytes),
        None => Ok(()),
    };
    file(&options.out, &container::pack(&cases))?;
    file(&options.lines, container::lines(&cases).as_bytes())?;
    if let Some(folder) = options.dir.as_deref() {
        container::write_folders(&cases, Path::new(folder))?;
    }
    if let Some(folder) = options.joined.as_deref() {
        container::write_joined(&cases, Path::new(folder))?;
    }
    Ok(cases.len())
}

fn main() -> ExitCode {
    let Some(options) = options() else {
        eprintln!("{USAGE}");
        return ExitCode::from(2);
    };
    match write(&options) {
        Ok(count) => {
            println!("{count} cases");
            ExitCode::SUCCESS
        }
        Err(error) => {
            eprintln!("cases: {error}");
            ExitCode::FAILURE
        }
    }
}
