//! Compares the compiled library with the second model on seeded random cases,
//! checks demand 3 and the data sheets' examples on the library itself, and
//! compares the proved programs' output with the model's.
//!
//! compare [--seconds N] [--seed S] [--replay PATH] [--calls PATH] [--tries N] [--may-lack] [--trace]
//! compare --time [--seed S]
//! compare --write DIR [--seed S]
//!
//! The classes of a program that isn't given fail, as do those of a call that
//! the library lacks; with --may-lack they are named as left out.

use compare::calls::classes;
use compare::calls::record::Record;
use compare::comparison::{Comparison, Programs};
use compare::library::{lacks, Call};
use compare::options::{number, DEFAULT_SEED};
use compare::report::Report;
use compare::{replay, time};
use kit::Random;
use std::path::{Path, PathBuf};
use std::process::ExitCode;
use std::time::{Duration, Instant};
use std::{fs, io};

/// Rounds of the random classes when no time is given.
const ROUNDS: u64 = 30;
/// Tries that may be spent on making failing cases small.
const DEFAULT_TRIES: usize = 12_000;
const USAGE: &str = "compare [--seconds N] [--seed S] [--replay PATH] [--calls PATH] \
    [--tries N] [--may-lack] [--trace] | compare --time [--seed S] \
    | compare --write DIR [--seed S]";

struct Options {
    seconds: Option<u64>,
    seed: u64,
    programs: Programs,
    tries: usize,
    may_lack: bool,
    trace: bool,
    time: bool,
    write: Option<PathBuf>,
}

fn options(mut arguments: impl Iterator<Item = String>) -> Option<Options> {
    let mut options = Options {
        seconds: None,
        seed: DEFAULT_SEED,
        programs: Programs::default(),
        tries: DEFAULT_TRIES,
        may_lack: false,
        trace: false,
        time: false,
        write: None,
    };
    while let Some(argument) = arguments.next() {
        match argument.as_str() {
            "--seconds" => options.seconds = Some(number(&arguments.next()?)?),
            "--seed" => options.seed = number(&arguments.next()?)?,
            "--replay" => options.programs.replay = Some(arguments.next()?.into()),
            "--calls" => options.programs.calls = Some(arguments.next()?.into()),
            "--tries" => options.tries = number(&arguments.next()?)? as usize,
            "--may-lack" => options.may_lack = true,
            "--trace" => options.trace = true,
            "--time" => options.time = true,
            "--write" => options.write = Some(arguments.next()?.into()),
            _ => return None,
        }
    }
    Some(options)
}

fn compared(options: &Options) -> bool {
    let started = Instant::now();
    let mut comparison = Comparison {
        report: Report::default(),
        seed: options.seed,
        trace: options.trace,
        tries: options.tries,
        may_lack: options.may_lack,
    };
    comparison.once(&options.programs);
    let mut rounds = 0;
    loop {
        comparison.round(&options.programs, rounds);
        rounds += 1;
        let enough = match options.seconds {
            Some(seconds) => started.elapsed() >= Duration::from_secs(seconds),
            None => rounds >= ROUNDS,
        };
        if enough {
            break;
        }
    }
    println!("seed {:#x}, {rounds} rounds", options.seed);
    comparison.report.verdict()
}

/// Writes the samples as replay/NAME.in and calls/NAME.in, and what the model
/// prints for each as NAME.out beside it.
fn write_samples(seed: u64, directory: &Path) -> io::Result<()> {
    let random = &mut Random::seeded(seed);
    for (name, log) in replay::samples(random) {
        write_sample(
            &directory.join("replay"),
            &name,
            &log,
            &model::printed(&log),
        )?;
    }
    for (name, records) in classes::samples(random) {
        let input: Vec<u8> = records.iter().flat_map(Record::bytes).collect();
        let output: String = records.iter().map(Record::printed).collect();
        write_sample(&directory.join("calls"), &name, &input, &output)?;
    }
    Ok(())
}

fn write_sample(directory: &Path, name: &str, input: &[u8], output: &str) -> io::Result<()> {
    fs::create_dir_all(directory)?;
    fs::write(directory.join(format!("{name}.in")), input)?;
    fs::write(directory.join(format!("{name}.out")), output)
}

fn timed(seed: u64) -> bool {
    if !Call::Run.is_there() {
        eprintln!("{}", lacks(Call::Run));
        return false;
    }
    time::report(seed);
    true
}

fn written(seed: u64, directory: &Path) -> bool {
    match write_samples(seed, directory) {
        Ok(()) => true,
        Err(fault) => {
            eprintln!("{}: {fault}", directory.display());
            false
        }
    }
}

fn main() -> ExitCode {
    let Some(options) = options(std::env::args().skip(1)) else {
        eprintln!("usage: {USAGE}");
        return ExitCode::from(2);
    };
    let good = match &options.write {
        Some(directory) => written(options.seed, directory),
        None if options.time => timed(options.seed),
        None => compared(&options),
    };
    if good {
        ExitCode::SUCCESS
    } else {
        ExitCode::FAILURE
    }
}
