//! Drives the command line tool with seeded random logs, snapshots, texts and
//! wanted colours, right and damaged, and holds what it prints and how it ends to
//! the second model.
//!
//! tool [--seed S] [--inputs N] PATH
//!
//! N is how many accepted logs are listed and assembled again; the other
//! classes try a part of that, and at least a few. Prints a line for each class
//! and 'N passed, M failed'.

use compare::options::{number, DEFAULT_SEED};
use compare::tool::Driver;
use std::path::PathBuf;
use std::process::ExitCode;

const DEFAULT_INPUTS: usize = 2_000;
const USAGE: &str = "tool [--seed S] [--inputs N] PATH";

struct Options {
    seed: u64,
    inputs: usize,
    program: PathBuf,
}

fn options(mut arguments: impl Iterator<Item = String>) -> Option<Options> {
    let (mut seed, mut inputs, mut program) = (DEFAULT_SEED, DEFAULT_INPUTS, None);
    while let Some(argument) = arguments.next() {
        match argument.as_str() {
            "--seed" => seed = number(&arguments.next()?)?,
            "--inputs" => inputs = number(&arguments.next()?)? as usize,
            path if program.is_none() && !path.starts_with('-') => program = Some(path.into()),
            _ => return None,
        }
    }
    Some(Options {
        seed,
        inputs,
        program: program?,
    })
}

fn driven(options: &Options) -> Result<bool, String> {
    let mut driver = Driver::new(&options.program, options.seed, options.inputs)?;
    driver.all();
    println!("seed {:#x}, {} inputs", options.seed, options.inputs);
    Ok(driver.report.verdict())
}

fn main() -> ExitCode {
    let Some(options) = options(std::env::args().skip(1)) else {
        eprintln!("usage: {USAGE}");
        return ExitCode::from(2);
    };
    match driven(&options) {
        Ok(true) => ExitCode::SUCCESS,
        Ok(false) => ExitCode::FAILURE,
        Err(fault) => {
            eprintln!("{fault}");
            ExitCode::FAILURE
        }
    }
}
