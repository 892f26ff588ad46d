//! Writes `crates/sequences/stdin`, the sequences as records, and
//! `crates/sequences/stdout`, what the second model answers to them.
//!
//! `make-sequences` writes both files. `make-sequences --check` compares both
//! with what it would write, sequence by sequence, and changes nothing.

#![forbid(unsafe_code)]

mod hd153129;
mod marked_lines;
mod sequence;
mod tlc34058;
mod tms34070;

use kit::{hexadecimal, CHIPS};
use model::{event, State};
use sequence::{Sequence, Step, RECORD_BYTES};
use std::path::{Path, PathBuf};
use std::process::ExitCode;
use std::{env, fs, io};

/// A chip byte that no chip has, and that doesn't make the chips fresh.
const NO_CHIP: u8 = 255;

/// The last sequence: nothing behind a chip byte of no chip is played.
const END: Sequence = Sequence {
    name: "the program: a chip byte of no chip ends it",
    chip: 1,
    parts: &[&[
        Step::Save,
        Step::Chip(NO_CHIP),
        Step::Save,
        Step::Chip(1),
        Step::Save,
    ]],
};

/// A sequence's own part of both files.
struct Part {
    name: &'static str,
    input: Vec<u8>,
    output: String,
}

fn main() -> ExitCode {
    let check = match env::args().skip(1).collect::<Vec<_>>().as_slice() {
        [] => false,
        [word] if word == "--check" => true,
        _ => {
            eprintln!("usage: make-sequences [--check]");
            return ExitCode::from(2);
        }
    };
    let crate_folder: PathBuf = [
        env!("CARGO_MANIFEST_DIR"),
        "..",
        "..",
        "crates",
        "sequences",
    ]
    .iter()
    .collect();
    let parts = parts();
    let done = if check {
        compared(&crate_folder, &parts)
    } else {
        written(&crate_folder, &parts)
    };
    match done {
        Ok(true) => ExitCode::SUCCESS,
        Ok(false) => ExitCode::FAILURE,
        Err(error) => {
            eprintln!("{}: {error}", crate_folder.display());
            ExitCode::FAILURE
        }
    }
}

fn parts() -> Vec<Part> {
    let tables = [
        tlc34058::SEQUENCES,
        hd153129::SEQUENCES,
        tms34070::SEQUENCES,
        marked_lines::SEQUENCES,
        &[END],
    ];
    tables.into_iter().flatten().map(part).collect()
}

fn part(sequence: &Sequence) -> Part {
    let input = sequence.records();
    let output = played(&input);
    Part {
        name: sequence.name,
        input,
        output,
    }
}

/// What the second model prints for records: each an event called by itself.
fn played(records: &[u8]) -> String {
    let mut chips = fresh_chips();
    let mut printed = String::new();
    for record in records.chunks_exact(RECORD_BYTES) {
        let chip = record[0];
        if chip == 0 {
            chips = fresh_chips();
            printed.push_str("-\n");
            continue;
        }
        let Some(state) = chips.iter_mut().find(|state| state.chip() == chip) else {
            break;
        };
        let operand = record[2..].try_into().expect("8 bytes");
        let (answer, next) = event(state, record[1], operand);
        *state = next;
        printed.push_str(&hexadecimal(&answer));
        printed.push('\n');
    }
    printed
}

fn fresh_chips() -> Vec<State> {
    let fresh = |chip| State::fresh(chip).expect("a built chip");
    CHIPS.into_iter().map(fresh).collect()
}

fn written(folder: &Path, parts: &[Part]) -> io::Result<bool> {
    let input: Vec<u8> = parts.iter().flat_map(|part| part.input.clone()).collect();
    let output: String = parts.iter().map(|part| part.output.as_str()).collect();
    fs::write(folder.join("stdin"), &input)?;
    fs::write(folder.join("stdout"), &output)?;
    println!(
        "{} sequences, {} records",
        parts.len(),
        input.len() / RECORD_BYTES
    );
    Ok(true)
}

/// Says which parts of the files differ, and the count; true if none does.
fn compared(folder: &Path, parts: &[Part]) -> io::Result<bool> {
    let input = fs::read(folder.join("stdin"))?;
    let output = fs::read(folder.join("stdout"))?;
    let (mut input, mut output) = (input.as_slice(), output.as_slice());
    let (mut passed, mut failed) = (0, 0);
    for part in parts {
        let same_input = starts_with(&mut input, &part.input);
        let same_output = starts_with(&mut output, part.output.as_bytes());
        if same_input && same_output {
            passed += 1;
        } else {
            failed += 1;
            println!("{}: the files differ", part.name);
        }
    }
    if !input.is_empty() || !output.is_empty() {
        failed += 1;
        println!("the files go on past the last sequence");
    }
    println!("{passed} passed, {failed} failed");
    Ok(failed == 0)
}

/// Takes as many bytes as `part` has; true if they are the same.
fn starts_with(bytes: &mut &[u8], part: &[u8]) -> bool {
    let (first, rest) = bytes.split_at(part.len().min(bytes.len()));
    *bytes = rest;
    first == part
}
