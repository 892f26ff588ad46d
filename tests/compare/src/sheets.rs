//! The data sheets' tables, the TMS34070's paragraphs, document 01's marked lines
//! and document 02's Notes 5 and 7 as examples with the answers and end snapshots
//! worked out by hand from the papers.

mod test_register;
mod tms34070;

use crate::case::Case;
use crate::compared::Compared;
use kit::{log_bytes, read, save, snapshot_bytes, tick, vertical, write, Random};
use model::{Event, ANSWER_BYTES};

/// Values of places; places not named are 0.
type Places = Vec<(u16, u8)>;

/// One example: start, events, the answers' first bytes (the rest are 0), end.
pub struct Example {
    pub name: String,
    chip: u8,
    start: Places,
    events: Vec<Event>,
    answers: Vec<Vec<u8>>,
    end: Places,
}

/// A table or a paragraph of a data sheet, 01's marked lines, or a note of 02.
pub struct Sheet {
    pub name: &'static str,
    pub examples: fn() -> Vec<Example>,
}

pub const SHEETS: &[Sheet] = &[
    Sheet {
        name: "01's marked lines M1 to M10 and its example",
        examples: marked_lines,
    },
    Sheet {
        name: "TLC34058 tables 1 and 2: colour accesses",
        examples: tables_1_and_2,
    },
    Sheet {
        name: "TLC34058 table 3: control registers",
        examples: table_3,
    },
    Sheet {
        name: "TLC34058 table 4: what an address reaches",
        examples: table_4,
    },
    Sheet {
        name: "TLC34058 table 5: colour selection",
        examples: table_5,
    },
    Sheet {
        name: "TLC34058 table 6: blanking and sync",
        examples: table_6,
    },
    Sheet {
        name: "TLC34058 table 7: command register",
        examples: table_7,
    },
    Sheet {
        name: "TLC34058 read mask and blink mask",
        examples: masks,
    },
    Sheet {
        name: "TLC34058 table 8: test register",
        examples: test_register::table_8,
    },
    Sheet {
        name: "02's Note 7: the last pixel shown",
        examples: test_register::last_pixel,
    },
    Sheet {
        name: "HD153129 table 2: register selection",
        examples: hd_table_2,
    },
    Sheet {
        name: "HD153129 table 3: pixel mask example",
        examples: hd_table_3,
    },
    Sheet {
        name: "HD153129 write mode and read mode",
        examples: hd_modes,
    },
    Sheet {
        name: "02's Note 5: what a TLC34058's write painted",
        examples: painted_on_chip_1,
    },
    Sheet {
        name: "02's Note 5: what an HD153129's write painted",
        examples: painted_on_chip_2,
    },
    Sheet {
        name: "TMS34070 registers: loaded in the order 0 to 15, the left half first",
        examples: tms34070::loads,
    },
    Sheet {
        name: "TMS34070 REP: the colour of the preceding pixel",
        examples: tms34070::rep,
    },
    Sheet {
        name: "TMS34070 EXT: the selected register's own",
        examples: tms34070::ext,
    },
    Sheet {
        name: "TMS34070: what the chip refuses",
        examples: tms34070::refused,
    },
];

impl Example {
    pub fn case(&self) -> Case {
        let snapshot = snapshot_bytes(self.chip, &self.start);
        let log = log_bytes(self.chip, &self.events);
        Case::exact(snapshot, log, &mut Random::seeded(1))
    }

    /// What the library gets wrong by the papers, if anything.
    pub fn wrong(&self) -> Option<String> {
        let outcome = self.case().run_library();
        let end = snapshot_bytes(self.chip, &self.end);
        if outcome.result != end.len() as u64 {
            return Some(format!("returned {}, not {}", outcome.result, end.len()));
        }
        let mut answers = Vec::new();
        for expected in &self.answers {
            answers.extend(expected);
            answers.resize(answers.len().next_multiple_of(ANSWER_BYTES), 0);
        }
        if let Some(at) = (0..answers.len()).find(|&at| outcome.answers()[at] != answers[at]) {
            let (event, byte) = (at / ANSWER_BYTES, at % ANSWER_BYTES);
            let (found, wanted) = (outcome.answers()[at], answers[at]);
            return Some(format!(
                "answer {event}, byte {byte} is {found:02x}, not {wanted:02x}"
            ));
        }
        (outcome.end()[..end.len()] != end).then(|| "another end snapshot".into())
    }
}

/// Answers of a write that doesn't paint, a load, a vertical period or a save.
const NOTHING: &[u8] = &[0];

fn example(name: &str, chip: u8, start: &[(u16, u8)]) -> Example {
    Example {
        name: name.into(),
        chip,
        start: start.to_vec(),
        events: Vec::new(),
        answers: Vec::new(),
        end: start.to_vec(),
    }
}

impl Example {
    /// An event and the first bytes of its answer, which aren't all left out:
    /// at least the refusal is given.
    fn event(mut self, event: Event, answer: &[u8]) -> Example {
        self.events.push(event);
        self.answers.push(answer.to_vec());
        self
    }

    /// Writes that don't paint.
    fn writes(mut self, selector: u8, bytes: &[u8]) -> Example {
        for &byte in bytes {
            self = self.event(write(selector, byte), NOTHING);
        }
        self
    }

    /// A write that paints, with the number of what it paints.
    fn paints(self, selector: u8, byte: u8, number: u16) -> Example {
        let answer = [0, 1, (number % 256) as u8, (number / 256) as u8];
        self.event(write(selector, byte), &answer)
    }

    fn reads(mut self, selector: u8, bytes: &[u8]) -> Example {
        for &byte in bytes {
            self = self.event(read(selector), &[0, byte]);
        }
        self
    }

    /// The end has these values where the start had others, or 0.
    fn ends(mut self, changes: &[(u16, u8)]) -> Example {
        for &(place, value) in changes {
            self.end.retain(|&(other, _)| other != place);
            if value != 0 {
                self.end.push((place, value));
            }
        }
        self.end.sort();
        self
    }

    /// The end has these codes of chip 1's last pixel.
    fn ends_after(self, codes: [u8; 3]) -> Example {
        let [red, green, blue] = codes;
        self.ends(&[(789, red), (790, green), (791, blue)])
    }

    /// A chip 1 tick of one pixel A with its overlay bits, BLK high, four
    /// pixels in all: pixel A's codes and those of pixels 00h, the last of which
    /// stay.
    fn shows(self, pixel: u8, ol: [u8; 2], codes: [u8; 3], rest: [u8; 3]) -> Example {
        let [ol1, ol0] = ol;
        let answer = [&[0, 4, 1][..], &codes, &rest, &rest, &rest].concat();
        self.event(tick([pixel, 0, 0, 0, 0, ol0, ol1, 1]), &answer)
            .ends_after(rest)
    }
}

fn marked_lines() -> Vec<Example> {
    let blink = |count: usize| {
        let m6 = example("M6 vertical periods", 1, &[]);
        (0..count).fold(m6, |m6, _| m6.event(vertical(), NOTHING))
    };
    vec![
        example("M1 palette triple at FFh", 1, &[])
            .writes(0, &[0xFF])
            .writes(1, &[0x10, 0x20])
            .paints(1, 0x30, 255)
            .ends(&[(765, 0x10), (766, 0x20), (767, 0x30)])
            .ends(&[(782, 0x10), (783, 0x20)]),
        example("M2 overlay triple at 3", 1, &[])
            .writes(0, &[3])
            .writes(3, &[1, 2])
            .paints(3, 3, 259)
            .event(write(3, 9), &[2])
            .reads(0, &[4])
            .ends(&[(777, 1), (778, 2), (779, 3), (780, 4), (782, 1), (783, 2)]),
        example("M3 address read inside a triple", 1, &[])
            .writes(1, &[0x11])
            .reads(0, &[0])
            .writes(1, &[0x22])
            .ends(&[(781, 1), (782, 0x22)]),
        example("M4 reads, then a write", 1, &[])
            .reads(1, &[0, 0])
            .paints(1, 7, 0)
            .ends(&[(2, 7), (780, 1)]),
        example("M5 control reads at 8 and 7", 1, &[])
            .writes(0, &[8])
            .event(read(2), &[2])
            .writes(0, &[7])
            .reads(2, &[0])
            .ends(&[(780, 7)]),
        blink(127).ends(&[(788, 127)]),
        blink(128),
        example(
            "M7 read mode at FFh",
            2,
            &[(0, 1), (765, 0x15), (766, 0x26), (767, 0x37)],
        )
        .writes(3, &[0xFF])
        .reads(0, &[0])
        .reads(1, &[0x15, 0x26, 0x37, 1])
        .ends(&[(768, 1), (769, 1), (770, 1)]),
        example("M8 colour byte FFh", 2, &[])
            .writes(1, &[0xFF])
            .ends(&[(769, 1), (771, 0x3F)]),
        example("M9 colour read on a fresh chip", 2, &[]).event(read(1), &[3]),
        example("M10 address reads inside a triple", 2, &[])
            .writes(1, &[1])
            .reads(0, &[0])
            .writes(1, &[2])
            .reads(3, &[0])
            .paints(1, 3, 0)
            .ends(&[(0, 1), (1, 2), (2, 3), (768, 1), (771, 1), (772, 2)]),
        example("01's printing example", 2, &[])
            .writes(0, &[5])
            .reads(0, &[5])
            .ends(&[(768, 5)]),
    ]
}

/// Each row at a colour A1h B2h C3h with RREG 51h and GREG 52h, at this entry.
fn colour_rows(selector: u8, address: u8, entry: u16) -> Vec<Example> {
    let name = format!("selector {selector} at {address:02x}h");
    let at = |position: u8| {
        let mut start = vec![
            (3 * entry, 0xA1),
            (3 * entry + 1, 0xB2),
            (3 * entry + 2, 0xC3),
        ];
        start.extend([(780, address), (781, position), (782, 0x51), (783, 0x52)]);
        start.retain(|&(_, value)| value != 0);
        example(&name, 1, &start)
    };
    let moved = [(780, address.wrapping_add(1)), (781, 0)];
    let mut rows = vec![
        at(0)
            .writes(selector, &[0x77])
            .ends(&[(781, 1), (782, 0x77)]),
        at(1)
            .writes(selector, &[0x77])
            .ends(&[(781, 2), (783, 0x77)]),
        at(2)
            .paints(selector, 0x77, entry)
            .ends(&[(3 * entry, 0x51), (3 * entry + 1, 0x52)])
            .ends(&[(3 * entry + 2, 0x77)])
            .ends(&moved),
        at(0).reads(selector, &[0xA1]).ends(&[(781, 1)]),
        at(1).reads(selector, &[0xB2]).ends(&[(781, 2)]),
        at(2).reads(selector, &[0xC3]).ends(&moved),
    ];
    for position in 0..=2 {
        rows.push(
            at(position)
                .writes(0, &[0x77])
                .ends(&[(780, 0x77), (781, 0)]),
        );
        rows.push(at(position).reads(0, &[address]).ends(&[(781, 0)]));
    }
    rows
}

fn tables_1_and_2() -> Vec<Example> {
    let mut rows = Vec::new();
    for address in [0x00, 0x03, 0x04, 0x40, 0xFE, 0xFF] {
        rows.extend(colour_rows(1, address, u16::from(address)));
    }
    for address in 0..=3 {
        rows.extend(colour_rows(3, address, 256 + u16::from(address)));
    }
    rows
}

/// Read, modify, write at each register, the position being anything. Of the test
/// register four bits are read, and neither byte selects one colour alone.
fn table_3() -> Vec<Example> {
    let mut rows = Vec::new();
    for address in 4..=7u8 {
        for position in 1..=2 {
            let place = 780 + u16::from(address);
            let mut row = example("control register", 1, &[(780, address), (781, position)]);
            for byte in [0xA5, 0xAF] {
                row = match address {
                    4 => row.paints(2, byte, 260),
                    5 => row.paints(2, byte, 261),
                    6 => row.paints(2, byte, 262),
                    _ => row.writes(2, &[byte]),
                };
                row = row.reads(2, &[if address == 7 { byte & 0x0F } else { byte }]);
            }
            rows.push(row.ends(&[(place, 0xAF)]));
        }
    }
    rows
}

fn table_4() -> Vec<Example> {
    let registers = [(784, 0xF4), (785, 0xF5), (786, 0xF6), (787, 0xF7)];
    let overlays = [(768, 0xE0), (771, 0xE1), (774, 0xE2), (777, 0xE3)];
    let mut rows = Vec::new();
    for address in 0..=255u8 {
        let own = [(3 * u16::from(address), 0x99), (780, address)];
        let mut start = [&own[..], &overlays, &registers].concat();
        start.retain(|&(_, value)| value != 0);
        start.sort();
        let row = example("table 4", 1, &start)
            .reads(1, &[0x99])
            .writes(0, &[address]);
        let row = match address {
            0..=3 => row.reads(3, &[0xE0 + address]).ends(&[(781, 1)]),
            _ => row.event(read(3), &[2]),
        };
        rows.push(match address {
            4..=6 => row.reads(2, &[0xF0 + address]),
            7 => row.reads(2, &[0x07]),
            _ => row.event(read(2), &[2]),
        });
    }
    rows
}

/// Colours that the rows can tell apart, read mask FFh, this command.
fn selection_chip(name: &str, command: u8, more: &[(u16, u8)]) -> Example {
    let mut start = vec![
        (0, 0x10),
        (1, 0x20),
        (2, 0x30),
        (3, 0x11),
        (4, 0x21),
        (5, 0x31),
    ];
    start.extend([(765, 0x1F), (766, 0x2F), (767, 0x3F)]);
    for overlay in 0..4u8 {
        let place = 768 + 3 * u16::from(overlay);
        start.extend([(place, 0x40 + overlay), (place + 1, 0x50 + overlay)]);
        start.push((place + 2, 0x60 + overlay));
    }
    start.extend([(784, 0xFF), (786, command)]);
    start.extend(more);
    start.retain(|&(_, value)| value != 0);
    start.sort();
    example(name, 1, &start)
}

const ENTRY_00: [u8; 3] = [0x10, 0x20, 0x30];
const ENTRY_01: [u8; 3] = [0x11, 0x21, 0x31];
const ENTRY_FF: [u8; 3] = [0x1F, 0x2F, 0x3F];

fn overlay(number: u8) -> [u8; 3] {
    [0x40 + number, 0x50 + number, 0x60 + number]
}

fn table_5() -> Vec<Example> {
    // CR6, OL1, OL0, pixel, colour; both overlay inputs are enabled.
    let rows = [
        (1, [0, 0], 0x00, ENTRY_00),
        (1, [0, 0], 0x01, ENTRY_01),
        (1, [0, 0], 0xFF, ENTRY_FF),
        (0, [0, 0], 0x01, overlay(0)),
        (0, [0, 1], 0x01, overlay(1)),
        (1, [0, 1], 0x01, overlay(1)),
        (0, [1, 0], 0x01, overlay(2)),
        (1, [1, 0], 0x01, overlay(2)),
        (0, [1, 1], 0x01, overlay(3)),
        (1, [1, 1], 0x01, overlay(3)),
    ];
    rows.into_iter()
        .map(|(cr6, ol, pixel, colour)| {
            let rest = if cr6 == 1 { ENTRY_00 } else { overlay(0) };
            selection_chip("table 5", 0x03 + 0x40 * cr6, &[]).shows(pixel, ol, colour, rest)
        })
        .collect()
}

fn table_6() -> Vec<Example> {
    [(0, false), (1, true), (2, false), (3, true)]
        .into_iter()
        .map(|(levels, data)| {
            let codes = if data { ENTRY_01 } else { [0; 3] };
            let answer = [&[0, 5, levels][..], &[codes; 5].concat()].concat();
            selection_chip("table 6", 0xC3, &[])
                .event(tick([1, 1, 1, 1, 1, 0, 0, levels]), &answer)
                .ends_after(codes)
        })
        .collect()
}

fn table_7() -> Vec<Example> {
    let mut rows = multiplexing();
    rows.extend(blink_rates());
    rows.extend(overlay_enables());
    rows
}

/// CR7: four or five pixels; E is ignored in a tick of four.
fn multiplexing() -> Vec<Example> {
    let operand = [0x00, 0x01, 0xFF, 0x01, 0x00, 0b11010, 0b11100, 1];
    let four = [ENTRY_00, overlay(1), overlay(2), overlay(3)].concat();
    let five = [&four[..], &overlay(3)].concat();
    vec![
        selection_chip("CR7 0", 0x43, &[])
            .event(tick(operand), &[&[0, 4, 1][..], &four].concat())
            .ends_after(overlay(3)),
        selection_chip("CR7 1", 0xC3, &[])
            .event(tick(operand), &[&[0, 5, 1][..], &five].concat())
            .ends_after(overlay(3)),
    ]
}

/// CR5 and CR4: lengths of the on and off parts over 128 vertical periods.
fn blink_rates() -> Vec<Example> {
    let rates: [(u8, &[usize]); 4] = [
        (0b00, &[16, 48, 16, 48]),
        (0b01, &[16, 16, 16, 16, 16, 16, 16, 16]),
        (0b10, &[32, 32, 32, 32]),
        (0b11, &[64, 64]),
    ];
    let mut rows = Vec::new();
    for (cr54, parts) in rates {
        // Plane 0 blinks, so 01h shows entry 01h when on and 00h when off.
        let mut row = selection_chip("blink rate", 0x40 + 0x10 * cr54, &[(785, 1)]);
        for (part, &length) in parts.iter().enumerate() {
            let codes = if part % 2 == 0 { ENTRY_01 } else { ENTRY_00 };
            for _ in 0..length {
                row = row
                    .shows(1, [0, 0], codes, ENTRY_00)
                    .event(vertical(), NOTHING);
            }
        }
        rows.push(row);
    }
    rows
}

/// CR3 to CR0 with OL1 and OL0 both high: overlay with blink on, and off.
fn overlay_enables() -> Vec<Example> {
    let table = [
        (0b0000, 0, 0),
        (0b0001, 1, 1),
        (0b0010, 2, 2),
        (0b0011, 3, 3),
        (0b0100, 0, 0),
        (0b0101, 1, 0),
        (0b0110, 2, 2),
        (0b0111, 3, 2),
        (0b1000, 0, 0),
        (0b1001, 1, 1),
        (0b1010, 2, 0),
        (0b1011, 3, 1),
        (0b1100, 0, 0),
        (0b1101, 1, 0),
        (0b1110, 2, 0),
        (0b1111, 3, 0),
    ];
    let colour = |k| if k == 0 { ENTRY_01 } else { overlay(k) };
    let mut rows = Vec::new();
    for (cr3210, on, off) in table {
        for (count, k) in [(0, on), (15, on), (16, off), (63, off), (64, on)] {
            rows.push(
                selection_chip("CR3 to CR0", 0x40 + cr3210, &[(788, count)])
                    .shows(1, [1, 1], colour(k), ENTRY_00)
                    .event(save(), NOTHING)
                    .shows(1, [0, 0], ENTRY_01, ENTRY_00),
            );
        }
    }
    rows
}

/// Entry n is n, 1, 2 for every n.
fn numbered_chip(chip: u8, more: &[(u16, u8)]) -> Example {
    let mut start = Vec::new();
    for entry in 0..256u16 {
        let (red, green) = match chip {
            1 => (entry as u8, 1),
            // 6 bits: two components together tell entries apart.
            2 => (entry as u8 >> 4, entry as u8 & 15),
            _ => panic!("chip {chip} has no numbered entries"),
        };
        start.extend([(3 * entry, red), (3 * entry + 1, green), (3 * entry + 2, 2)]);
    }
    start.extend(more);
    start.retain(|&(_, value)| value != 0);
    example("numbered entries", chip, &start)
}

fn masks() -> Vec<Example> {
    // Read mask, blink mask, pixel, entry with blink on, entry with blink off.
    let mut table = vec![(0x3C, 0x84, 0xF5, 0x34, 0x30), (0xFF, 0xFF, 0xFF, 0xFF, 0)];
    for plane in 0..8 {
        let without = !(1u8 << plane);
        table.push((without, 0, 0xFF, without, without));
        table.push((0xFF, 1 << plane, 0xFF, 0xFF, without));
    }
    let mut rows = Vec::new();
    for (read_mask, blink_mask, pixel, on, off) in table {
        for (count, entry) in [(0, on), (16, off)] {
            let more = [
                (784, read_mask),
                (785, blink_mask),
                (786, 0x40),
                (788, count),
            ];
            let row = numbered_chip(1, &more);
            rows.push(row.shows(pixel, [0, 0], [entry, 1, 2], [0, 1, 2]));
        }
    }
    rows
}

/// Address 10h, position green, every register with a value of its own.
fn middle_of_a_triple(direction: u8) -> Example {
    let mut start = vec![
        (45, 0x0D),
        (46, 0x0E),
        (47, 0x0C),
        (48, 0x1D),
        (49, 0x1E),
        (50, 0x1C),
    ];
    start.extend([
        (768, 0x10),
        (769, 1),
        (770, direction),
        (771, 0x31),
        (772, 0x32),
    ]);
    start.push((773, 0xC5));
    start.retain(|&(_, value)| value != 0);
    example("middle of a triple", 2, &start)
}

fn hd_table_2() -> Vec<Example> {
    let mut rows = vec![
        middle_of_a_triple(0)
            .writes(1, &[0x2A])
            .ends(&[(769, 2), (772, 0x2A)]),
        middle_of_a_triple(1).event(write(1, 0x2A), &[3]),
        middle_of_a_triple(1).reads(1, &[0x0E]).ends(&[(769, 2)]),
        middle_of_a_triple(0).event(read(1), &[3]),
    ];
    for direction in [0, 1] {
        let row = || middle_of_a_triple(direction);
        rows.push(
            row()
                .writes(0, &[0x2A])
                .ends(&[(768, 0x2A), (769, 0), (770, 0)]),
        );
        rows.push(
            row()
                .writes(3, &[0x2A])
                .ends(&[(768, 0x2B), (769, 0), (770, 1)]),
        );
        rows.push(row().paints(2, 0x2A, 260).ends(&[(773, 0x2A)]));
        rows.push(row().reads(0, &[0x10]));
        rows.push(row().reads(3, &[0x10]));
        rows.push(row().reads(2, &[0xC5]));
        rows.push(row().event(vertical(), &[5]));
    }
    rows
}

/// Mask 1010 1101: planes 6, 4 and 1 are shut off.
fn hd_table_3() -> Vec<Example> {
    let mut row = numbered_chip(2, &[]).paints(2, 0b1010_1101, 260);
    for pixel in 0..=255u8 {
        let mut address = 0;
        for (plane, weight) in [(7, 128), (5, 32), (3, 8), (2, 4), (0, 1)] {
            address += (pixel >> plane & 1) * weight;
        }
        let answer = [0, 1, 1, address >> 4, address & 15, 2];
        row = row.event(tick([pixel, 0, 0, 0, 0, 0, 0, 1]), &answer);
    }
    vec![row.ends(&[(773, 0b1010_1101)])]
}

fn hd_modes() -> Vec<Example> {
    let colours = [(0, 7), (1, 8), (2, 9), (762, 1), (763, 2), (764, 3)];
    let colours = [&colours[..], &[(765, 4), (766, 5), (767, 6)]].concat();
    let blanked = tick([0, 0, 0, 0, 0, 0, 0, 0]);
    vec![
        example("write mode", 2, &[])
            .writes(0, &[0xFE])
            .writes(1, &[1, 2])
            .paints(1, 3, 254)
            .writes(1, &[4, 5])
            .paints(1, 6, 255)
            .writes(1, &[7, 8])
            .paints(1, 9, 0)
            .reads(0, &[1])
            .ends(&colours)
            .ends(&[(768, 1), (771, 7), (772, 8)]),
        example("read mode", 2, &colours)
            .writes(3, &[0xFE])
            .reads(3, &[0xFF])
            .reads(1, &[1, 2, 3])
            .reads(0, &[0])
            .reads(1, &[4, 5, 6])
            .reads(0, &[1])
            .reads(1, &[7, 8, 9])
            .ends(&[(768, 2), (770, 1)]),
        example("6 bits", 2, &[])
            .writes(1, &[0xFF, 0x40])
            .paints(1, 0xC5, 0)
            .writes(3, &[0])
            .reads(1, &[0x3F, 0, 5])
            .ends(&[(0, 0x3F), (2, 5), (768, 2), (770, 1), (771, 0x3F)]),
        example("BLANK low", 2, &colours)
            .event(blanked, &[0, 1, 0])
            .event(tick([0, 0, 0, 0, 0, 0, 0, 1]), &[0, 1, 1, 7, 8, 9])
            .event(tick([0, 0, 0, 0, 0, 0, 0, 2]), &[4]),
    ]
}

/// Every address, at every position: the write that ends a triple paints its
/// entry or its overlay, one of 04h, 05h or 06h its register, and no other
/// write paints. The byte is there already, or it isn't.
fn painted_on_chip_1() -> Vec<Example> {
    let mut rows = Vec::new();
    for address in 0..=255u8 {
        for position in 0..=2 {
            let mut start = vec![(780, address), (781, position)];
            start.retain(|&(_, value)| value != 0);
            let row = || example("what a write painted", 1, &start);
            let moved = match position {
                2 => vec![(780, address.wrapping_add(1)), (781, 0)],
                _ => vec![(781, position + 1)],
            };
            let palette = match position {
                2 => row().paints(1, 0, u16::from(address)),
                _ => row().writes(1, &[0]),
            };
            rows.push(palette.ends(&moved));
            rows.push(match address {
                0..=3 if position == 2 => row().paints(3, 0, 256 + u16::from(address)).ends(&moved),
                0..=3 => row().writes(3, &[0]).ends(&moved),
                _ => row().event(write(3, 0), &[2]),
            });
            rows.push(match address {
                4 => row()
                    .paints(2, 0, 260)
                    .paints(2, 0x5A, 260)
                    .ends(&[(784, 0x5A)]),
                5 => row()
                    .paints(2, 0, 261)
                    .paints(2, 0x5A, 261)
                    .ends(&[(785, 0x5A)]),
                6 => row()
                    .paints(2, 0, 262)
                    .paints(2, 0x5A, 262)
                    .ends(&[(786, 0x5A)]),
                7 => row().writes(2, &[0, 0x5A]).ends(&[(787, 0x5A)]),
                _ => row().event(write(2, 0x5A), &[2]),
            });
            rows.push(row().event(write(4, 0), &[1]));
            rows.push(row().writes(0, &[0x5A]).ends(&[(780, 0x5A), (781, 0)]));
        }
    }
    rows
}

/// Every address, at every position and in each direction: the write that ends
/// a triple paints its entry, a mask write the mask, and no other write paints.
fn painted_on_chip_2() -> Vec<Example> {
    let mut rows = Vec::new();
    for address in 0..=255u8 {
        for (position, direction) in [(0, 0), (1, 0), (2, 0), (0, 1), (1, 1), (2, 1)] {
            let mut start = vec![(768, address), (769, position), (770, direction)];
            start.retain(|&(_, value)| value != 0);
            let row = || example("what a write painted", 2, &start);
            rows.push(match (direction, position) {
                (1, _) => row().event(write(1, 0), &[3]),
                (_, 2) => row()
                    .paints(1, 0, u16::from(address))
                    .ends(&[(768, address.wrapping_add(1)), (769, 0)]),
                _ => row().writes(1, &[0]).ends(&[(769, position + 1)]),
            });
            rows.push(
                row()
                    .paints(2, 0, 260)
                    .paints(2, 0x5A, 260)
                    .ends(&[(773, 0x5A)]),
            );
            rows.push(row().event(write(4, 0), &[1]));
            for (selector, set) in [(0, 0x5A), (3, 0x5B)] {
                let ends = [(768, set), (769, 0), (770, u8::from(selector == 3))];
                rows.push(row().writes(selector, &[0x5A]).ends(&ends));
            }
        }
    }
    rows
}
