//! `qrp2steps FORMULA DIR` reads the formula in QDIMACS and a QRP trace from
//! standard input, and writes `formula.dq` and `steps.bin` into DIR.

#![forbid(unsafe_code)]

use std::fs;
use std::io;
use std::path::Path;
use std::process::ExitCode;

fn files(formula: &Path, folder: &Path) -> Result<String, String> {
    let told = |error: io::Error| error.to_string();
    let qdimacs = fs::read_to_string(formula).map_err(told)?;
    let trace = io::read_to_string(io::stdin()).map_err(told)?;
    let converted = qrp2steps::convert(&qdimacs, &trace)?;
    fs::create_dir_all(folder).map_err(told)?;
    fs::write(folder.join("formula.dq"), converted.formula).map_err(told)?;
    fs::write(folder.join("steps.bin"), &converted.steps).map_err(told)?;
    Ok(format!("{} records", converted.steps.len() / 16))
}

fn main() -> ExitCode {
    let arguments: Vec<_> = std::env::args_os().skip(1).collect();
    let [formula, folder] = arguments.as_slice() else {
        eprintln!("usage: qrp2steps FORMULA DIR < TRACE");
        return ExitCode::from(2);
    };
    match files(Path::new(formula), Path::new(folder)) {
        Ok(written) => {
            println!("{written}");
            ExitCode::SUCCESS
        }
        Err(error) => {
            eprintln!("qrp2steps: {error}");
            ExitCode::FAILURE
        }
    }
}
