//! A sequence of events, and its records.

use model::{kind, Operand};

/// Chip byte, kind, 8 operand bytes.
pub const RECORD_BYTES: usize = 10;

pub enum Step {
    /// A selector, and the bytes written there, a write each.
    Write(u8, &'static [u8]),
    /// A selector, and how many reads.
    Read(u8, usize),
    Tick(Operand),
    /// How many vertical periods.
    Vertical(usize),
    Save,
    /// DA and DB of each load.
    Load(&'static [(u8, u8)]),
    /// A kind and an operand that the other steps don't make.
    Raw(u8, Operand),
    /// From here on events go to this chip.
    Chip(u8),
}

/// All chips start fresh; events go to `chip`.
pub struct Sequence {
    /// The table, the paragraph or the marked line that it plays.
    pub name: &'static str,
    pub chip: u8,
    pub parts: &'static [&'static [Step]],
}

impl Sequence {
    pub fn records(&self) -> Vec<u8> {
        let mut records = vec![0; RECORD_BYTES];
        let mut chip = self.chip;
        for step in self.parts.iter().copied().flatten() {
            match *step {
                Step::Write(selector, bytes) => {
                    for &byte in bytes {
                        push(&mut records, chip, kind::WRITE, operand(selector, byte));
                    }
                }
                Step::Read(selector, times) => {
                    for _ in 0..times {
                        push(&mut records, chip, kind::READ, operand(selector, 0));
                    }
                }
                Step::Tick(operand) => push(&mut records, chip, kind::TICK, operand),
                Step::Vertical(periods) => {
                    for _ in 0..periods {
                        push(&mut records, chip, kind::VERTICAL, [0; 8]);
                    }
                }
                Step::Save => push(&mut records, chip, kind::SAVE, [0; 8]),
                Step::Load(loads) => {
                    for &(da, db) in loads {
                        push(&mut records, chip, kind::LOAD, operand(da, db));
                    }
                }
                Step::Raw(kind, operand) => push(&mut records, chip, kind, operand),
                Step::Chip(other) => chip = other,
            }
        }
        records
    }
}

/// Of a write or a read, or of a load.
fn operand(first: u8, second: u8) -> Operand {
    [first, second, 0, 0, 0, 0, 0, 0]
}

fn push(records: &mut Vec<u8>, chip: u8, kind: u8, operand: Operand) {
    records.push(chip);
    records.push(kind);
    records.extend(operand);
}
