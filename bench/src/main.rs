//! `bench` prints the tables of docs/PERFORMANCE.md. It fails if the cost of a
//! run does not grow linearly with its records.

mod random;
mod stack;
mod time;
mod work;

use std::process::ExitCode;
use std::time::Duration;

use archive::Archive;
use differential::library::Lean;

use work::{List, Work};

const ROUNDS: usize = 301;

/// The whole list may take so many times its half; 2 is linear, 4 quadratic.
const LINEAR: f64 = 2.5;

fn micros(time: Duration) -> f64 {
    time.as_secs_f64() * 1e6
}

fn compared(work: &Work) {
    let times = time::all(work, ROUNDS);
    let archive = micros(times.archive);
    println!(
        "| {} | {} | {archive:.1} | {:.1} | {:.1} | {:.2} | {:.2} |",
        work.name,
        work.size(),
        micros(times.lean),
        micros(times.reference),
        archive / micros(times.lean),
        archive / micros(times.reference),
    );
}

fn comparisons() {
    println!("| call | bytes or records | library, µs | lean, µs | reference, µs | to lean | to reference |");
    println!("|---|---|---|---|---|---|---|");
    let (lists, wide_lists) = (work::lists(), work::wide_lists());
    for work in work::loads().iter().chain(&random::loads()) {
        compared(work);
    }
    for list in lists.iter().chain(&wide_lists) {
        compared(&list.run(list.most));
    }
    for work in &random::runs() {
        compared(work);
    }
    let single = lists[0].single("full tables");
    for work in single.iter().chain(&wide_lists[1].single("256 universals")) {
        compared(work);
    }
    for work in work::writes().iter().chain(&random::writes()) {
        compared(work);
    }
}

/// The times of some works and the ratio of the last two. A ratio that is not
/// linear is measured again, since the machine may have been busy.
fn growth_times(works: &[Work]) -> (Vec<Duration>, f64) {
    let mut attempts = 3;
    loop {
        let times = time::each(&mut Archive, works, ROUNDS);
        let ratio = micros(times[works.len() - 1]) / micros(times[works.len() - 2]);
        attempts -= 1;
        if ratio <= LINEAR || attempts == 0 {
            return (times, ratio);
        }
    }
}

/// Prints the time of a run of no record, of an eighth, .. of a list; whether it
/// is linear.
fn growth(list: &List) -> bool {
    let records = [0, list.most / 8, list.most / 4, list.most / 2, list.most];
    let works = records.map(|records| list.run(records));
    let (times, ratio) = growth_times(&works);
    print!("| {} |", list.name);
    for (work, time) in works.iter().zip(&times) {
        print!(" {}: {:.1} |", work.size(), micros(*time));
    }
    println!(" {ratio:.2} |");
    ratio <= LINEAR
}

fn growths() -> bool {
    println!("\n| list | none: µs | an eighth: µs | a quarter: µs | half: µs | whole: µs | whole to half |");
    println!("|---|---|---|---|---|---|---|");
    let lists = [work::lists(), work::wide_lists()].concat();
    let linear: Vec<bool> = lists.iter().map(growth).collect();
    linear.iter().all(|&each| each)
}

fn stacks() {
    println!("\n| call | library, bytes of stack | lean, bytes of stack |");
    println!("|---|---|---|");
    let mut loads = work::loads();
    loads.extend(random::loads());
    let lists = [work::lists(), work::wide_lists()].concat();
    let mut runs: Vec<Work> = lists.iter().map(|list| list.run(list.most)).collect();
    runs.extend(random::runs());
    let single = lists[0].single("full tables");
    let mut writes = work::writes();
    writes.extend(random::writes());
    for (name, works) in [
        ("load", &loads[..]),
        ("run", &runs[..]),
        ("show", &single[1..2]),
        ("length of a clause", &single[2..3]),
        ("kind of a variable", &single[3..]),
        ("write", &writes[..]),
    ] {
        let most =
            |library: fn(&Work)| works.iter().map(|work| stack::used(|| library(work))).max();
        let archive = most(|work| drop(time::call(&mut Archive, work.input(0))));
        let lean = most(|work| drop(time::call(&mut Lean, work.input(0))));
        println!(
            "| {name} | {} | {} |",
            archive.unwrap_or(0),
            lean.unwrap_or(0)
        );
    }
}

fn main() -> ExitCode {
    comparisons();
    let linear = growths();
    stacks();
    if linear {
        ExitCode::SUCCESS
    } else {
        eprintln!("the cost of a run is not linear in its records");
        ExitCode::FAILURE
    }
}
