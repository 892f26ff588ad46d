//! The printing program, byte for byte against the model's `printed`.

use crate::case::Case;
use crate::damage::{damaged_log, LOG_FAULTS};
use crate::program::{printed_by, printed_of_a_file, WHOLE};
use kit::{hexadecimal, highest_kind, load, log_bytes, read, save, tick, vertical, write};
use kit::{Random, CHIPS};
use kit::{MOST_LOG_BYTES, OLDER_MOST_EVENTS};
use model::{Event, MOST_EVENTS};
use std::path::Path;

/// The events that the program plays before it prints them.
const PIECE: usize = 128;

/// How an input gets to the program.
#[derive(Clone, Copy)]
pub enum Arrival {
    /// Through a pipe, written in pieces of so many bytes.
    Pipe(usize),
    /// As a file.
    File,
}

/// A sort of input, and how many of them are tried.
pub struct Input {
    pub name: &'static str,
    pub inputs: usize,
    pub make: fn(&mut Random, usize) -> (Vec<u8>, Arrival),
}

pub const INPUTS: &[Input] = &[
    Input {
        name: "replay: accepted logs",
        inputs: 120,
        make: accepted,
    },
    Input {
        name: "replay: damaged logs",
        inputs: 150,
        make: damaged,
    },
    Input {
        name: "replay: lengths about a piece and the limits",
        inputs: 2 * LENGTHS.len(),
        make: of_length,
    },
    Input {
        name: "replay: longer than any log",
        inputs: 36,
        make: long_arriving,
    },
    Input {
        name: "replay: in small pieces through a pipe",
        inputs: 30,
        make: in_pieces,
    },
];

fn accepted(random: &mut Random, _: usize) -> (Vec<u8>, Arrival) {
    let chip = random.chip();
    let count = random.below(200);
    let log = log_bytes(chip, &random.events(chip, count));
    (log, Arrival::Pipe(WHOLE))
}

fn damaged(random: &mut Random, number: usize) -> (Vec<u8>, Arrival) {
    let chip = random.chip();
    let fault = LOG_FAULTS[number % LOG_FAULTS.len()];
    (damaged_log(random, chip, fault), Arrival::Pipe(WHOLE))
}

/// No event, about a piece, about two, the limit of older programs and one more,
/// and about the limit.
const LENGTHS: [usize; 13] = [
    0,
    1,
    PIECE - 1,
    PIECE,
    PIECE + 1,
    2 * PIECE - 1,
    2 * PIECE,
    2 * PIECE + 1,
    OLDER_MOST_EVENTS,
    OLDER_MOST_EVENTS + 1,
    MOST_EVENTS - 1,
    MOST_EVENTS,
    MOST_EVENTS + 1,
];

/// A log of each length, through a pipe and as a file.
fn of_length(random: &mut Random, number: usize) -> (Vec<u8>, Arrival) {
    let chip = random.chip();
    let count = LENGTHS[number / 2];
    let arrival = match number % 2 {
        0 => Arrival::Pipe(WHOLE),
        _ => Arrival::File,
    };
    (log_bytes(chip, &random.events(chip, count)), arrival)
}

/// A log or a header with more behind it than the longest log has.
pub fn very_long(random: &mut Random, number: usize) -> Vec<u8> {
    let chip = random.chip();
    let mut bytes = match number % 4 {
        0 => log_bytes(chip, &random.events(chip, MOST_EVENTS)),
        1 => log_bytes(chip, &random.events(chip, 10)),
        2 => vec![chip, 0xFF, 0xFF, 0xFF, 0xFF],
        _ => vec![random.chip_not_built(), 0, 0, 0, 0],
    };
    let more = random.pick(&[1, 2, 4096, 300_000, 2_000_000]);
    bytes.resize(MOST_LOG_BYTES + more, random.pick(&[0, 1]));
    bytes
}

/// Whole through a pipe, in pieces, and as a file.
fn long_arriving(random: &mut Random, number: usize) -> (Vec<u8>, Arrival) {
    let bytes = very_long(random, number / 3);
    let arrival = match number % 3 {
        0 => Arrival::Pipe(WHOLE),
        1 => Arrival::Pipe(random.pick(&[5, 1000, 4097, MOST_LOG_BYTES])),
        _ => Arrival::File,
    };
    (bytes, arrival)
}

fn in_pieces(random: &mut Random, number: usize) -> (Vec<u8>, Arrival) {
    let bytes = match number % 3 {
        0 => damaged(random, number / 3).0,
        1 => accepted(random, number / 3).0,
        _ => {
            let chip = random.chip();
            log_bytes(chip, &random.events(chip, MOST_EVENTS))
        }
    };
    (bytes, Arrival::Pipe(random.pick(&[1, 2, 3, 7, 19, 4097])))
}

/// Each register read at each position of a triple, which is then finished and
/// read back.
fn reads_inside_triples() -> Vec<Event> {
    let mut events = Vec::new();
    for selector in 0..=3 {
        for position in 0..3 {
            let address = 10 * selector + position;
            events.push(write(0, address));
            for component in 0..3 {
                if component == position {
                    events.push(read(selector));
                }
                events.push(write(1, 1 + address + component));
            }
            for set in [write(0, address), write(3, address)] {
                events.extend([set, read(1), read(1), read(1)]);
            }
        }
    }
    events
}

/// Ticks of each register and the next one, saves and refused loads before,
/// between and behind its two loads. Two registers of four repeat, and there is
/// a tick with DATEN low for every four.
fn ticks_inside_registers() -> Vec<Event> {
    let mut events = Vec::new();
    for register in 0..16 {
        let next = (register + 1) % 16;
        let around = [
            tick([register, next, 0, 0, 0, 0, 0, 1]),
            tick([next, register, 0, 0, 0, 0, 0, u8::from(register % 4 != 1)]),
            save(),
            load(16, register),
        ];
        events.extend(around);
        for half in [load(15 - register, register % 4), load(register, 7)] {
            events.push(half);
            events.extend(around);
        }
    }
    events
}

/// Chip 1's selection: under each CR0 to CR3 and CR6, with blink on and off, a
/// tick whose pixels have every pair of overlay bits, and a plane that the read
/// mask disables and one that blinks.
fn selections() -> Vec<Event> {
    let mut events = vec![write(0, 0)];
    events.extend((1..=12).map(|byte| write(3, byte)));
    for entry in [1, 5] {
        events.push(write(0, entry));
        events.extend((0..3).map(|component| write(1, 20 * entry + component)));
    }
    let [read_mask, blink_mask] = [0x07, 0x04];
    events.extend([write(0, 4), write(2, read_mask)]);
    events.extend([write(0, 5), write(2, blink_mask)]);
    events.push(write(0, 6));
    let pairs = tick([0x0D, 0x0D, 0x0D, 0x0D, 0, 0b0101, 0b0011, 1]);
    // Rate 00: blink is on for 16 vertical periods, then off.
    for periods in [0, 16] {
        events.extend(vec![vertical(); periods]);
        for overlays in 0..16 {
            for ram_enable in [0x00, 0x40] {
                events.extend([write(2, ram_enable + overlays), pairs]);
            }
        }
    }
    events
}

/// Chip 1's test register: every selection, read after ticks of four and of five
/// pixels that differ, after a blanked and after a refused one, and behind a save.
fn halves_of_codes() -> Vec<Event> {
    let mut events = vec![write(0, 1)];
    // Entries 1 to 5: every half of every code is another than its neighbour's.
    events.extend((0..15u8).map(|n| write(1, 0x1F + 0x0E * n)));
    events.extend([write(0, 4), write(2, 0xFF)]);
    let shown = tick([1, 2, 3, 4, 5, 0, 0, 1]);
    let blanked = tick([1, 2, 3, 4, 5, 0, 0, 2]);
    let refused = [
        tick([1, 1, 1, 1, 1, 32, 0, 1]),
        tick([1, 1, 1, 1, 1, 0, 0, 4]),
    ];
    for command in [0x40, 0xC0] {
        for ticks in [
            vec![shown],
            vec![shown, blanked],
            vec![shown, refused[0], refused[1]],
            vec![shown, save()],
        ] {
            events.extend([write(0, 6), write(2, command)]);
            events.extend(ticks);
            events.push(write(0, 7));
            for selection in 0..16 {
                events.extend([write(2, 0x50 + selection), read(2)]);
            }
        }
    }
    events
}

/// What can stand inside an entry's accesses, and the sample's name.
fn inside_entries(chip: u8) -> (&'static str, Vec<Event>) {
    match chip {
        1 | 2 => ("triples", reads_inside_triples()),
        3 => ("registers", ticks_inside_registers()),
        _ => panic!("the entries of chip {chip} aren't listed"),
    }
}

/// Logs for a run without proof, which an interpreter plays too: for each chip
/// an accepted log and one of no events, whose end snapshot is the fresh
/// chip's, one event of each kind with no operand byte 0, then logs with each
/// refusal; of chip 1 its selection, its test register, the header of a log at the
/// limit and past it, and the longest log with a byte more.
pub fn samples(random: &mut Random) -> Vec<(String, Vec<u8>)> {
    let mut samples = Vec::new();
    for chip in CHIPS {
        let events = random.events(chip, 1_000);
        samples.push((format!("accepted-chip-{chip}"), log_bytes(chip, &events)));
        samples.push((format!("empty-chip-{chip}"), log_bytes(chip, &[])));
        let (name, inside) = inside_entries(chip);
        samples.push((format!("{name}-chip-{chip}"), log_bytes(chip, &inside)));
        for kind in 0..=highest_kind(chip) {
            let operand = [1; 8];
            let name = format!("operand-of-kind-{kind}-chip-{chip}");
            samples.push((name, log_bytes(chip, &[Event { kind, operand }])));
        }
    }
    for fault in LOG_FAULTS {
        for chip in CHIPS {
            let name = format!("refused-{}-chip-{chip}", fault.number());
            samples.push((name, damaged_log(random, chip, fault)));
        }
    }
    samples.push(("selections-chip-1".into(), log_bytes(1, &selections())));
    let halves = log_bytes(1, &halves_of_codes());
    samples.push(("halves-of-codes-chip-1".into(), halves));
    for count in [MOST_EVENTS, MOST_EVENTS + 1] {
        let header = [&[1][..], &(count as u32).to_le_bytes()].concat();
        samples.push((format!("header-of-{count}-events"), header));
    }
    let mut longer = log_bytes(1, &vec![vertical(); MOST_EVENTS]);
    longer.push(0);
    samples.push(("longest-and-a-byte".into(), longer));
    samples
}

/// What is wrong with the program's output, if anything.
pub fn wrong(program: &Path, bytes: &[u8], arrival: Arrival) -> Option<String> {
    let expected = model::printed(bytes).into_bytes();
    let printed = match arrival {
        Arrival::Pipe(piece) => printed_by(program, bytes, piece),
        Arrival::File => printed_of_a_file(program, bytes),
    };
    match printed {
        Err(fault) => Some(fault),
        Ok(output) if output == expected => None,
        Ok(output) => Some(first_difference(&output, &expected)),
    }
}

fn first_difference(output: &[u8], expected: &[u8]) -> String {
    let at = (0..output.len().min(expected.len())).find(|&at| output[at] != expected[at]);
    match at {
        Some(at) => {
            let line = expected[..at].iter().filter(|&&byte| byte == b'\n').count();
            format!("line {} differs from the model's, at byte {at}", line + 1)
        }
        None => format!(
            "{} bytes printed, {} by the model",
            output.len(),
            expected.len()
        ),
    }
}

/// A shorter input that is still wrong, found by taking events away, in at most
/// `tries` runs, which are taken off.
pub fn shrunk(program: &Path, bytes: &[u8], arrival: Arrival, tries: &mut usize) -> Vec<u8> {
    let case = Case {
        snapshot: vec![1, 0, 0],
        log: bytes.to_vec(),
        answers_len: 0,
        end_len: 0,
        layout: 0,
        null_if_empty: false,
    };
    let mut fails = |case: &Case| wrong(program, &case.log, arrival).is_some();
    crate::shrink::shrunk(&case, tries, &mut fails).log
}

pub fn described(bytes: &[u8]) -> String {
    format!("  log {}\n", hexadecimal(&bytes[..bytes.len().min(400)]))
}
