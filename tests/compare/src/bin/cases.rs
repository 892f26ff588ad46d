//! Plays the blocks of documents and the stored cases of folders through the
//! library, and the logs of runs through the printing program.
//!
//! cases --replay PROGRAM FILE.md|FOLDER..
//!
//! tests/stored/README.md describes the language. Compared are the returned
//! number, every byte of the buffers, the bytes around them, the inputs, and
//! every byte that is printed. Each file or folder must show every refusal of a
//! run, and a file every one of the other calls too. Prints a line for each case
//! and 'N passed, M failed'.

use compare::blocks::{self, Block};
use compare::library::{self, in_words, lacks, Call};
use compare::program::{printed_by, WHOLE};
use kit::{hexadecimal, ANSWER_BYTES};
use std::collections::BTreeSet;
use std::fs;
use std::io;
use std::path::{Path, PathBuf};
use std::process::ExitCode;

/// The refusals that a call can show, in its answers or returned.
fn refusals(call: Call) -> &'static [u64] {
    match call {
        Call::Run => &[
            1, 2, 3, 4, 5, 10, 11, 12, 13, 14, 15, 20, 21, 22, 23, 24, 25, 26, 30, 31,
        ],
        Call::Currents => &[4, 13, 20, 21, 22, 23, 24, 25, 30, 31, 40],
        Call::Plan => &[20, 21, 22, 23, 24, 25, 41, 42, 43],
    }
}

/// The number of a run's log among its inputs.
const LOG: usize = 1;

/// What the buffers hold before a call. Two calls, so that a byte is noticed
/// that changes to, or stays, what the first pattern happens to be.
const PATTERNS: [u8; 2] = [0xA5, 0x5A];

/// A case by its name, or why it can't be played.
type Named = (String, Result<Block, String>);

struct Tally {
    replay: PathBuf,
    passed: usize,
    failed: usize,
}

impl Tally {
    fn say(&mut self, name: &str, fault: Option<String>) {
        match fault {
            None => {
                self.passed += 1;
                println!("ok {name}");
            }
            Some(fault) => {
                self.failed += 1;
                println!("FAILED {name}: {fault}");
            }
        }
    }

    /// The cases of one file or folder, and that they show every refusal.
    fn source(&mut self, path: &Path) {
        let name = path.display().to_string();
        let cases = match cases(path) {
            Err(fault) => return self.say(&name, Some(fault.to_string())),
            Ok(cases) if cases.is_empty() => return self.say(&name, Some("no case in it".into())),
            Ok(cases) => cases,
        };
        let mut shown = BTreeSet::new();
        for (name, block) in cases {
            let fault = match &block {
                Err(fault) => Some(fault.clone()),
                Ok(block) => {
                    shown.extend(block.refusals().into_iter().map(|n| (block.call, n)));
                    self.wrong(block)
                }
            };
            self.say(&name, fault);
        }
        // The stored cases are runs.
        let calls = if path.is_dir() {
            &[Call::Run]
        } else {
            Call::ALL
        };
        for &call in calls {
            self.every_refusal(&name, call, &shown);
        }
    }

    fn every_refusal(&mut self, name: &str, call: Call, shown: &BTreeSet<(Call, u64)>) {
        let is_missing = |&&number: &&u64| !shown.contains(&(call, number));
        let missing: Vec<_> = refusals(call).iter().filter(is_missing).collect();
        let fault = (!missing.is_empty()).then(|| format!("no case shows {missing:?}"));
        self.say(&format!("{name}, every refusal of {}", call.name()), fault);
    }

    /// What the library and the printing program get wrong, if anything.
    fn wrong(&self, block: &Block) -> Option<String> {
        let call =
            (PATTERNS.iter().zip(1..)).find_map(|(&pattern, i)| wrong_call(block, pattern, i));
        let text = block.printed.as_ref();
        let printed = text.and_then(|text| wrong_print(&self.replay, block, text));
        let faults: Vec<_> = call.into_iter().chain(printed).collect();
        (!faults.is_empty()).then(|| faults.join("; "))
    }
}

fn cases(path: &Path) -> io::Result<Vec<Named>> {
    if !path.is_dir() {
        let blocks = blocks::in_document(&fs::read_to_string(path)?);
        let name = |line| format!("{} line {line}", path.display());
        return Ok(blocks
            .into_iter()
            .map(|(line, block)| (name(line), block))
            .collect());
    }
    let mut files = Vec::new();
    for entry in fs::read_dir(path)? {
        files.push(entry?.path());
    }
    files.sort();
    Ok(files.iter().filter_map(|file| stored_case(file)).collect())
}

/// Any other file than a case or the README is a fault: a case with a slip in
/// its name would never be played.
fn stored_case(file: &Path) -> Option<Named> {
    let name = file.file_name()?.to_string_lossy().into_owned();
    if name == "README.md" {
        return None;
    }
    let Some(short) = name.strip_suffix(".case") else {
        return Some((name, Err("neither a case nor README.md".into())));
    };
    let block = fs::read_to_string(file)
        .map_err(|fault| fault.to_string())
        .and_then(|text| blocks::stored(&text));
    Some((short.into(), block))
}

/// The first thing that the library gets wrong, if anything.
fn wrong_call(block: &Block, pattern: u8, layout: u64) -> Option<String> {
    if !block.call.is_there() {
        return Some(lacks(block.call));
    }
    let patterns = block.buffers.iter().map(|buffer| vec![pattern; buffer.len]);
    let strings: Vec<Vec<u8>> = block.inputs.iter().cloned().chain(patterns).collect();
    let strings: Vec<&[u8]> = strings.iter().map(Vec::as_slice).collect();
    let outcome = library::call(block.call, &strings, layout, layout % 2 == 0);
    if let Some(trespass) = outcome.trespass {
        return Some(trespass);
    }
    if outcome.result != block.returned() {
        return Some(format!(
            "the library returned {}, the case says {}",
            in_words(outcome.result),
            in_words(block.returned())
        ));
    }
    let found = outcome.strings.iter().skip(block.inputs.len());
    let mut numbered = found.enumerate();
    numbered.find_map(|(number, found)| wrong_buffer(block, number, found, pattern))
}

/// The first byte that isn't what is right, or, past that, isn't the pattern.
fn first_wrong(found: &[u8], right: &[u8], pattern: u8) -> Option<usize> {
    (0..found.len()).find(|&i| found[i] != *right.get(i).unwrap_or(&pattern))
}

/// What is wrong with the buffer of this number, if anything.
fn wrong_buffer(block: &Block, number: usize, found: &[u8], pattern: u8) -> Option<String> {
    let right = &block.buffers[number].written;
    let index = first_wrong(found, right, pattern)?;
    let (_, name) = block.call.strings()[block.inputs.len() + number];
    Some(match right.get(index) {
        None => format!("byte {index} of the {name} changed, past what is written"),
        Some(_) if block.call == Call::Run && number == 0 => wrong_answer(block, found, index),
        Some(right) => format!(
            "{name}, byte {index}: the library gives {:02x}, the case says {right:02x}",
            found[index]
        ),
    })
}

/// An answer of a run with a wrong byte, which has this number in the buffer.
fn wrong_answer(block: &Block, found: &[u8], index: usize) -> String {
    let event = index / ANSWER_BYTES;
    let line = match block.event_lines.get(event) {
        Some(line) => format!(" (line {line})"),
        None => String::new(),
    };
    let answer = |all: &[u8]| hexadecimal(all.chunks(ANSWER_BYTES).nth(event).unwrap_or_default());
    format!(
        "event {event}{line}, answer byte {}: the library gives {}, the case says {}",
        index % ANSWER_BYTES,
        answer(found),
        answer(&block.buffers[0].written)
    )
}

/// The first thing that the printing program gets wrong, if anything.
fn wrong_print(program: &Path, block: &Block, text: &str) -> Option<String> {
    let output = match printed_by(program, &block.inputs[LOG], WHOLE) {
        Err(fault) => return Some(fault),
        Ok(output) if output == text.as_bytes() => return None,
        Ok(output) => output,
    };
    Some(text_difference(&String::from_utf8_lossy(&output), text))
}

fn text_difference(found: &str, right: &str) -> String {
    let (found, right): (Vec<_>, Vec<_>) =
        (found.split('\n').collect(), right.split('\n').collect());
    let same = found.iter().zip(&right).take_while(|(a, b)| a == b).count();
    let line = |lines: &[&str]| {
        lines
            .get(same)
            .map_or("nothing".into(), |line| line.to_string())
    };
    let (found, right) = (line(&found), line(&right));
    let digit = found
        .bytes()
        .zip(right.bytes())
        .take_while(|(a, b)| a == b)
        .count();
    let rest = |line: &str| line.chars().skip(digit).take(36).collect::<String>();
    format!(
        "printed line {}, from digit {digit} on: the program prints '{}', the case says '{}'",
        same + 1,
        rest(&found),
        rest(&right)
    )
}

/// The printing program, and at least one file or folder.
fn options(arguments: &[String]) -> Option<(&String, &[String])> {
    let (option, rest) = arguments.split_first()?;
    let (replay, sources) = rest.split_first()?;
    let good = option == "--replay" && !sources.is_empty();
    let stray = sources.iter().any(|source| source.starts_with('-'));
    (good && !stray).then_some((replay, sources))
}

fn main() -> ExitCode {
    let arguments: Vec<String> = std::env::args().skip(1).collect();
    let Some((replay, sources)) = options(&arguments) else {
        eprintln!("usage: cases --replay PROGRAM FILE.md|FOLDER..");
        return ExitCode::from(2);
    };
    let mut tally = Tally {
        replay: replay.into(),
        passed: 0,
        failed: 0,
    };
    for source in sources {
        tally.source(Path::new(source));
    }
    println!("{} passed, {} failed", tally.passed, tally.failed);
    match tally.failed == 0 && tally.passed > 0 {
        true => ExitCode::SUCCESS,
        false => ExitCode::FAILURE,
    }
}
