//! The command line of a comparison.

use std::fs;
use std::io;
use std::path::{Path, PathBuf};
use std::process::ExitCode;
use std::thread;

use cases::case::Case;
use cases::container::write_folders;

use crate::compare::{compare, fields, Found};
use crate::generate::Scenarios;
use crate::library::Library;
use crate::oracle;
use crate::program::Program;
use crate::scenario::Scenario;

const USAGE: &str =
    "usage: [--seed S] [--first I] [--count N] [--jobs J] [--program FILE] [--failures DIR]
       --replay FILE";

#[derive(Clone)]
struct Options {
    seed: u64,
    first: u64,
    count: u64,
    jobs: u64,
    program: Option<PathBuf>,
    failures: PathBuf,
    replay: Option<PathBuf>,
}

/// A number that is not 0: with no scenario or no job nothing would be compared.
fn some(value: &str) -> Option<u64> {
    value.parse().ok().filter(|&number| number > 0)
}

fn options(mut arguments: impl Iterator<Item = String>) -> Option<Options> {
    let mut options = Options {
        seed: 1,
        first: 0,
        count: 5_000,
        jobs: 1,
        program: None,
        failures: "failures".into(),
        replay: None,
    };
    while let Some(name) = arguments.next() {
        let value = arguments.next()?;
        match name.as_str() {
            "--seed" => options.seed = value.parse().ok()?,
            "--first" => options.first = value.parse().ok()?,
            "--count" => options.count = some(&value)?,
            "--jobs" => options.jobs = some(&value)?,
            "--program" => options.program = Some(value.into()),
            "--failures" => options.failures = value.into(),
            "--replay" => options.replay = Some(value.into()),
            _ => return None,
        }
    }
    // A sum that wraps would leave nothing to compare.
    options.first.checked_add(options.count)?;
    Some(options)
}

/// Compares as the arguments say; the exit code tells whether all agree.
pub fn main<L: Library + Send + Copy>(library: L) -> ExitCode {
    let Some(options) = options(std::env::args().skip(1)) else {
        eprintln!("{USAGE}");
        return ExitCode::from(2);
    };
    let outcome = match &options.replay {
        Some(file) => replay(file, library),
        None => compare_all(&options, library),
    };
    match outcome {
        Ok(0) => ExitCode::SUCCESS,
        Ok(_) => ExitCode::FAILURE,
        Err(error) => {
            eprintln!("{error}");
            ExitCode::from(2)
        }
    }
}

/// What a job has compared and found.
#[derive(Default)]
struct Tally {
    scenarios: u64,
    calls: usize,
    lines: usize,
    failures: usize,
}

/// The number of scenarios that differ.
fn compare_all<L: Library + Send + Copy>(options: &Options, library: L) -> io::Result<usize> {
    let all = compared(options, library)?;
    println!(
        "{} scenarios, {} calls, {} lines: {} differ",
        all.scenarios, all.calls, all.lines, all.failures
    );
    Ok(all.failures)
}

/// What all jobs have compared; each scenario that differs is written to a file.
fn compared<L: Library + Send + Copy>(options: &Options, library: L) -> io::Result<Tally> {
    let scenarios = &Scenarios::new(options.seed);
    let tallies: io::Result<Vec<Tally>> = thread::scope(|scope| {
        let start = |number| scope.spawn(move || job(options, scenarios, number, library));
        let jobs: Vec<_> = (0..options.jobs).map(start).collect();
        let ends = jobs.into_iter().map(|job| job.join().expect("no panic"));
        ends.collect()
    });
    let mut all = Tally::default();
    for tally in tallies? {
        all.scenarios += tally.scenarios;
        all.calls += tally.calls;
        all.lines += tally.lines;
        all.failures += tally.failures;
    }
    Ok(all)
}

/// Every so many scenarios from the job's number on. While it runs, the job's
/// folder tells in `now` which one it is at: if the library crashes, `--first`
/// and `--count 1` repeat it.
fn job<L: Library>(
    options: &Options,
    scenarios: &Scenarios,
    number: u64,
    mut library: L,
) -> io::Result<Tally> {
    let folder = options.failures.join(format!("job{number}"));
    fs::create_dir_all(&folder)?;
    let program = match &options.program {
        Some(path) => Some(Program::new(path, &folder)?),
        None => None,
    };
    let mut tally = Tally::default();
    let indices = options.first..options.first + options.count;
    for index in indices.skip(number as usize).step_by(options.jobs as usize) {
        let at = format!("--seed {} --first {index} --count 1\n", options.seed);
        fs::write(folder.join("now"), at)?;
        let scenario = scenarios.scenario(index);
        tally.scenarios += 1;
        tally.calls += scenario.calls.len();
        if let Some(found) = compare(&scenario, &mut library) {
            tally.failures += 1;
            let name = format!("calls-{}-{index}", options.seed);
            keep(&scenario, &found, &options.failures.join(name))?;
        }
        if let (Some(program), Some(case)) = (&program, scenarios.case(index)) {
            tally.lines += 1;
            let name = format!("line-{}-{index}", options.seed);
            tally.failures += line(program, case, &options.failures.join(name))?;
        }
    }
    fs::remove_dir_all(folder)?;
    Ok(tally)
}

/// Compares the program's line; a case that differs is written to a folder.
fn line(program: &Program, case: Case, folder: &Path) -> io::Result<usize> {
    let Some(difference) = program.difference(&case)? else {
        return Ok(0);
    };
    println!(
        "{}: {}: the program {difference}",
        folder.display(),
        case.label
    );
    write_folders(&[case], folder)?;
    Ok(1)
}

/// Writes the scenario up to the call that differs.
fn keep(scenario: &Scenario, found: &Found, file: &Path) -> io::Result<()> {
    let mut cut = scenario.clone();
    cut.calls.truncate(found.call + 1);
    fs::write(file, cut.to_file())?;
    let call = scenario.calls[found.call].short();
    let (label, difference) = (&scenario.label, &found.difference);
    println!("{}: {label}: {call}: {difference}", file.display());
    Ok(())
}

/// Prints every call of a file with both answers, and the first difference.
fn replay<L: Library>(file: &Path, mut library: L) -> io::Result<usize> {
    let text = fs::read_to_string(file)?;
    let Some(scenario) = Scenario::of_file(&text) else {
        return Err(io::Error::new(io::ErrorKind::InvalidData, "no scenario"));
    };
    let found = compare(&scenario, &mut library);
    let mut wanted = scenario.buffers.clone();
    println!("{}", scenario.label);
    for call in &scenario.calls {
        println!(
            "{}: {:?}",
            call.short(),
            fields(oracle::answer(&mut wanted, call, &mut call.output()))
        );
    }
    match found {
        None => println!("no difference"),
        Some(ref found) => println!(
            "{}: {}",
            scenario.calls[found.call].short(),
            found.difference
        ),
    }
    Ok(found.is_some().into())
}

#[cfg(test)]
mod tests {
    use super::*;
    use crate::library::Lean;

    #[test]
    fn as_many_as_asked_are_compared() {
        let folder = std::env::temp_dir().join(format!("command-{}", std::process::id()));
        for (first, count, jobs) in [(0, 1, 1), (3, 7, 3), (u64::MAX - 2, 2, 5)] {
            let line = format!("--first {first} --count {count} --jobs {jobs}");
            let mut options = options(line.split(' ').map(String::from)).expect("options");
            options.failures = folder.clone();
            let all = compared(&options, Lean).expect("a folder");
            assert_eq!((all.scenarios, all.failures), (count, 0), "{line}");
        }
        fs::remove_dir_all(folder).expect("a folder");
    }

    #[test]
    fn a_comparison_of_nothing_is_refused() {
        let taken = |line: &str| options(line.split(' ').map(String::from)).is_some();
        assert!(taken("--count 1 --jobs 2 --seed 0 --first 0"));
        assert!(taken("--first 18446744073709551613 --count 2"));
        for line in [
            "--count 0",
            "--jobs 0",
            "--count -1",
            "--jobs",
            "--count 1 --jobs 0",
            "--job 1",
            "--first 18446744073709551615 --count 2",
            "--first 18446744073709551614 --count 2",
            "--count 18446744073709551615 --first 1",
            "--first 18446744073709551615",
        ] {
            assert!(!taken(line), "{line}");
        }
    }
}
