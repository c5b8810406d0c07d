//! Small false QBFs, random ones and a family, are refuted by DepQBF, and every
//! trace is checked: by the reference checker, and by the program that
//! KEFTHRUN_PROGRAM names, if it is set. tests/depqbf.sh runs it.

use std::env;
use std::fs;
use std::path::Path;
use std::process::Command;

use cases::random::Random;
use checker::check;
use qrp2steps::convert;

const OPTIONS: [&str; 4] = [
    "--trace",
    "--dep-man=simple",
    "--traditional-qcdcl",
    "--no-qbce-dynamic",
];

/// Three pairs of a universal and an existential block; clauses of two or three
/// existentials and at most one universal.
fn random_qbf(random: &mut Random) -> String {
    let universals = random.between(3, 12);
    let existentials = random.between(8, 40);
    let mut variables: Vec<usize> = (1..=universals + existentials).collect();
    random.shuffle(&mut variables);
    let (universals, existentials) = variables.split_at(universals);
    let clauses = existentials.len() * random.between(36, 48) / 10;
    let mut text = format!("p cnf {} {clauses}\n", variables.len());
    for block in 0..3 {
        for (letter, all) in [("a", universals), ("e", existentials)] {
            let named: Vec<String> = all
                .iter()
                .skip(block)
                .step_by(3)
                .map(usize::to_string)
                .collect();
            text += &format!("{letter} {} 0\n", named.join(" "));
        }
    }
    for _ in 0..clauses {
        let (mut first, mut second) = (existentials.to_vec(), universals.to_vec());
        random.shuffle(&mut first);
        random.shuffle(&mut second);
        first.truncate(random.pick(&[2, 3, 3]));
        second.truncate(random.pick(&[0, 1, 1]));
        for variable in first.into_iter().chain(second) {
            let sign = random.pick(&["", "-"]);
            text += &format!("{sign}{variable} ");
        }
        text += "0\n";
    }
    text
}

/// Formula t of the family of Kleine Büning, Karpinski and Flögel: the variables
/// are y(0), then y(i), y'(i) and the universal x(i) for each i, then the z(i).
fn kleine_buening(t: i32) -> String {
    let (y, x, z) = (
        |i: i32| 3 * i - 1,
        |i: i32| 3 * i + 1,
        |i: i32| 3 * t + 1 + i,
    );
    let mut text = format!("p cnf {} {}\ne 1 2 3 0\na 4 0\n", 4 * t + 1, 4 * t + 2);
    for i in 2..=t {
        text += &format!("e {} {} 0\na {} 0\n", y(i), y(i) + 1, x(i));
    }
    let all = |sign: &str| -> String { (1..=t).map(|i| format!("{sign}{} ", z(i))).collect() };
    text += &format!("e {}0\n-1 0\n1 -2 -3 0\n", all(""));
    for i in 1..=t {
        let next = match i < t {
            true => format!("-{} -{} ", y(i + 1), y(i + 1) + 1),
            false => all("-"),
        };
        text += &format!(
            "{} -{} {next}0\n{} {} {next}0\n",
            y(i),
            x(i),
            y(i) + 1,
            x(i)
        );
        text += &format!("{} {} 0\n-{} {} 0\n", x(i), z(i), x(i), z(i));
    }
    text
}

fn trace(file: &Path) -> String {
    match Command::new("depqbf").args(OPTIONS).arg(file).output() {
        Ok(output) => String::from_utf8(output.stdout).unwrap(),
        Err(error) => panic!("depqbf: {error}"),
    }
}

fn printed(program: &str, folder: &Path) -> String {
    let output = Command::new(program).current_dir(folder).output().unwrap();
    assert!(output.status.success(), "{}", output.status);
    String::from_utf8(output.stdout).unwrap()
}

#[test]
#[ignore = "needs DepQBF: tests/depqbf.sh"]
fn traces_of_false_formulas_refute() {
    let folder = Path::new(env!("CARGO_TARGET_TMPDIR")).join("depqbf");
    fs::create_dir_all(&folder).unwrap();
    let program = env::var("KEFTHRUN_PROGRAM").ok();
    let (mut refuted, mut records) = (0, 0);
    let family = (1..=6).map(kleine_buening);
    let random = (0..120).map(|index| random_qbf(&mut Random::for_case(5, index)));
    for (index, qbf) in family.chain(random).enumerate() {
        let file = folder.join("qbf.qdimacs");
        fs::write(&file, &qbf).unwrap();
        let trace = trace(&file);
        if !trace.ends_with("r UNSAT\n") {
            assert!(index >= 6, "the family is false");
            continue;
        }
        let converted = convert(&qbf, &trace).unwrap_or_else(|error| panic!("{index}: {error}"));
        let line = check(converted.formula.as_bytes(), &converted.steps).to_string();
        assert!(line.starts_with("refuted "), "{index}: {line}");
        if let Some(program) = &program {
            fs::write(folder.join("formula.dq"), &converted.formula).unwrap();
            fs::write(folder.join("steps.bin"), &converted.steps).unwrap();
            assert_eq!(printed(program, &folder), format!("{line}\n"), "{index}");
        }
        refuted += 1;
        records += converted.steps.len() / 16;
    }
    println!("{refuted} traces, {records} records");
    assert!(refuted > 60, "{refuted}");
}
