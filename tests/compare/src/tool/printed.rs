//! The lines that the tool must print, by the model's answers and the kit's
//! places.

use crate::tool::modelled::{Currents, Plan, Run};
use kit::{entry_places, is_tick, p1, p3, table_places};
use model::{kind, Event};

/// The words for the kinds of events, by their numbers.
const KINDS: [&str; 6] = ["write", "read", "tick", "vertical", "save", "load"];
/// The words for the places of an entry, as many as the chip's entries have.
const PARTS: [&str; 5] = ["red", "green", "blue", "EXT", "REP"];
/// The first of them are the colour.
const COLOUR: usize = 3;

/// A line that must be there.
pub enum Line {
    Whole(String),
    /// More words follow.
    Start(String),
    /// Either of two ends, with a name before it.
    End([String; 2]),
}

impl Line {
    fn fits(&self, line: &str) -> bool {
        match self {
            Line::Whole(whole) => line == whole,
            Line::Start(start) => line.len() > start.len() && line.starts_with(start),
            Line::End(ends) => ends
                .iter()
                .any(|end| line.len() > end.len() && line.ends_with(end)),
        }
    }

    fn in_words(&self) -> String {
        match self {
            Line::Whole(whole) => format!("'{whole}'"),
            Line::Start(start) => format!("'{start}' and more words"),
            Line::End([one, other]) => format!("a name, then '{one}' or '{other}'"),
        }
    }
}

/// These lines, in their order and none besides.
pub fn compare(lines: &[String], right: &[Line]) -> Result<(), String> {
    for (number, (line, right)) in lines.iter().zip(right).enumerate() {
        if !right.fits(line) {
            let number = number + 1;
            return Err(format!(
                "line {number} is '{line}' and should be {}",
                right.in_words()
            ));
        }
    }
    match lines.len() == right.len() {
        true => Ok(()),
        false => Err(format!("{} lines, should be {}", lines.len(), right.len())),
    }
}

/// The words of a line, whatever the spaces between them.
pub fn words(line: &str) -> String {
    line.split_whitespace().collect::<Vec<_>>().join(" ")
}

fn colour(codes: &[u8]) -> String {
    format!("#{:02x}{:02x}{:02x}", codes[0], codes[1], codes[2])
}

/// Whether a tick is blanked, by its answer.
pub fn is_blanked(answer: &[u8]) -> bool {
    answer[2] & 1 == 0
}

/// The bits that a tick's pixels have beside their colours: chip 3's EXT, from
/// bit 1 of byte 2 on.
fn pixel_bits(chip: u8, answer: &[u8]) -> Vec<u8> {
    match chip {
        1 | 2 => vec![],
        3 => (1..=answer[1]).map(|bit| answer[2] >> bit & 1).collect(),
        _ => panic!("the pixels of chip {chip} aren't listed"),
    }
}

/// Whether one of them is 1.
pub fn has_pixel_bit(chip: u8, answer: &[u8]) -> bool {
    pixel_bits(chip, answer).contains(&1)
}

/// By a tick's answer: byte 1 the pixels, byte 2 the levels, then the colours.
fn tick_line(number: usize, chip: u8, answer: &[u8]) -> String {
    let blanked = if is_blanked(answer) { ", blanked" } else { "" };
    let mut line = format!("event {number}, tick{blanked}:");
    for codes in answer[3..].chunks(3).take(answer[1].into()) {
        line += &format!(" {}", colour(codes));
    }
    let bits = pixel_bits(chip, answer);
    if !bits.is_empty() {
        line += ", EXT";
    }
    for bit in bits {
        line += &format!(" {bit}");
    }
    line
}

/// What a write painted, by its answer: 1 in byte 1, the number in bytes 2 and 3.
pub fn painted(event: &Event, answer: &[u8]) -> Option<usize> {
    let number = usize::from(u16::from_le_bytes([answer[2], answer[3]]));
    (event.kind == kind::WRITE && answer[1] == 1).then_some(number)
}

/// The registers that pixels go through, by the numbers of what was painted.
fn painted_name(chip: u8, number: usize) -> String {
    match (chip, number) {
        (1, 260) => "read mask register (04h)".into(),
        (1, 261) => "blink mask register (05h)".into(),
        (1, 262) => "command register (06h)".into(),
        (2, 260) => "pixel mask register".into(),
        _ => entry_name(chip, number),
    }
}

/// What `run` prints.
pub fn of_run(run: &Run) -> Vec<Line> {
    let (mut ticks, mut refused) = (0, 0);
    let mut lines = vec![Line::Start(format!("chip {}, ", run.chip))];
    for (number, (event, answer)) in run.answered().enumerate() {
        if answer[0] != 0 {
            let kind = KINDS[usize::from(event.kind)];
            let start = format!("event {number}, {kind}: refused ({}): ", answer[0]);
            lines.push(Line::Start(start));
            refused += 1;
        } else if is_tick(event) {
            lines.push(Line::Whole(tick_line(number, run.chip, answer)));
            ticks += 1;
        } else if let Some(painted) = painted(event, answer) {
            let name = painted_name(run.chip, painted);
            lines.push(Line::Whole(format!(
                "event {number}, write: painted {name}"
            )));
        }
    }
    lines.push(Line::Whole(format!(
        "{} events, {ticks} ticks shown, {refused} refused, end snapshot of {} bytes",
        run.events.len(),
        run.end.len()
    )));
    lines
}

fn entry_name(chip: u8, entry: usize) -> String {
    const OVERLAYS: usize = p1::OVERLAY_0 / 3;
    match chip {
        1 if entry >= OVERLAYS => format!("overlay {}", entry - OVERLAYS),
        1 => format!("palette {entry:02X}h"),
        2 => format!("CLT {entry:02X}h"),
        3 => format!("register {entry}"),
        _ => panic!("chip {chip} has no names"),
    }
}

/// The words of the lines of `show` that have a colour: chip 1's last pixel, chip
/// 3's colour before, and the entries that aren't all 0.
pub fn of_colours(chip: u8, places: &[u8]) -> Vec<Line> {
    let mut lines = Vec::new();
    match chip {
        1 => {
            let last = colour(&places[p1::LAST_RED..]);
            lines.push(Line::Whole(format!("last pixel (DAC inputs) {last}")));
        }
        3 => {
            let before = colour(&places[p3::COLOUR_BEFORE..]);
            lines.push(Line::Whole(format!("colour before {before}")));
        }
        _ => {}
    }
    let entries = places[..table_places(chip)].chunks(entry_places(chip));
    for (entry, values) in entries.enumerate() {
        if values.iter().any(|&value| value != 0) {
            lines.push(Line::Whole(entry_line(chip, entry, values)));
        }
    }
    lines
}

/// Whether there is a last pixel that isn't black.
pub fn has_last_pixel(chip: u8, places: &[u8]) -> bool {
    chip == 1 && places[p1::LAST_RED..].iter().any(|&code| code != 0)
}

/// An entry's colour and, behind it, its other parts.
fn entry_line(chip: u8, entry: usize, values: &[u8]) -> String {
    let mut line = format!("{} {}", entry_name(chip, entry), colour(values));
    for (part, value) in PARTS.iter().zip(values).skip(COLOUR) {
        line += &format!(", {part} {value}");
    }
    line
}

/// The words of what `diff` prints of two states of a chip: a line for each
/// place that differs. A colour's values are in hexadecimal, the other parts of
/// an entry in decimal, and what is behind the entries in either.
pub fn of_differences(chip: u8, old: &[u8], new: &[u8]) -> Vec<Line> {
    let both = old.iter().zip(new).enumerate();
    both.filter(|(_, (old, new))| old != new)
        .map(|(place, (old, new))| {
            let hexadecimal = format!(" {old:02X}h -> {new:02X}h");
            let decimal = format!(" {old} -> {new}");
            if place >= table_places(chip) {
                return Line::End([hexadecimal, decimal]);
            }
            let (entry, part) = (place / entry_places(chip), place % entry_places(chip));
            let values = if part < COLOUR { hexadecimal } else { decimal };
            let name = entry_name(chip, entry);
            Line::Whole(format!("{name} {}{values}", PARTS[part]))
        })
        .collect()
}

/// The words of what `currents` prints.
pub fn of_currents(right: &Currents) -> Vec<Line> {
    let level = |bit: u8| match right.answer[2] >> bit & 1 {
        0 => "low",
        _ => "high",
    };
    let mut lines = vec![
        Line::Start("chip 1, ".into()),
        Line::Whole(format!("BLK {}, SYNC {}", level(0), level(1))),
    ];
    let codes = right.answer[3..].chunks(3);
    let pixels = ('A'..='E').zip(codes.zip(right.currents.chunks(3)));
    for (pixel, (codes, currents)) in pixels.take(right.answer[1].into()) {
        let milliamperes = |current: u16| format!("{}.{:02} mA", current / 100, current % 100);
        lines.push(Line::Whole(format!(
            "pixel {pixel} {}: green {}, red {}, blue {}",
            colour(codes),
            milliamperes(currents[0]),
            milliamperes(currents[1]),
            milliamperes(currents[2]),
        )));
    }
    lines
}

/// The last line of what `plan` prints.
pub fn sums_of_plan(plan: &Plan) -> String {
    let (writes, entries, runs) = (plan.writes, plan.entries.len(), plan.runs());
    format!("# {writes} writes: {entries} entries in {runs} runs")
}
