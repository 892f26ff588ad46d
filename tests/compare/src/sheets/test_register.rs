//! The TLC34058's Table 8, and document 02's Note 7: the codes of the last pixel
//! shown, which the test register reads.

use super::{example, Example, NOTHING};
use kit::{load, read, save, tick, vertical, write};

/// Table 8's rows: TR3 to TR0, and what is read with them of a last pixel 12h 34h
/// 56h.
const ROWS: [(u8, u8); 6] = [
    // 4 MSBs of the blue, the green and the red data input.
    (0b0100, 0x54),
    (0b0010, 0x32),
    (0b0001, 0x11),
    // 4 LSBs.
    (0b1100, 0x6C),
    (0b1010, 0x4A),
    (0b1001, 0x29),
];

/// What the table has no row for: no colour selected, or more than one.
const NO_ROW: [u8; 10] = [
    0b0000, 0b0011, 0b0101, 0b0110, 0b0111, 0b1000, 0b1011, 0b1101, 0b1110, 0b1111,
];

/// Levels of a tick: SYNC low, BLK high or low.
const SHOWN: u8 = 1;
const BLANKED: u8 = 0;

/// The codes of the last pixel in the first examples.
const LAST: [u8; 3] = [0x12, 0x34, 0x56];

/// The colour of entry n, 1 to 5, in the others.
fn colour(n: u8) -> [u8; 3] {
    [0xA0 + n, 0x70 + n, 0xC0 + n]
}

/// At 07h, whatever the position, after a last pixel of these codes.
fn at_07h(name: &str, position: u8, codes: [u8; 3]) -> Example {
    let [red, green, blue] = codes;
    let mut start = vec![(780, 7), (781, position)];
    start.extend([(789, red), (790, green), (791, blue)]);
    start.retain(|&(_, value)| value != 0);
    example(name, 1, &start)
}

/// Every byte written that has a row's bits, and every one that has no row's.
pub fn table_8() -> Vec<Example> {
    let none = NO_ROW.map(|bits| (bits, bits));
    let mut rows = Vec::new();
    for (bits, byte) in [&ROWS[..], &none].concat() {
        for upper in 0..16u8 {
            let written = 16 * upper + bits;
            rows.push(
                at_07h("table 8", upper % 3, LAST)
                    .writes(2, &[written])
                    .reads(2, &[byte, byte])
                    .ends(&[(787, written)]),
            );
        }
    }
    rows.push(every_row_after_a_tick());
    rows
}

/// As the data sheet says: load the four bits, then read while the same pixel is
/// presented.
fn every_row_after_a_tick() -> Example {
    let [red, green, blue] = LAST;
    let start = [(3, red), (4, green), (5, blue), (784, 0xFF), (786, 0xC0)];
    let same = tick([1, 1, 1, 1, 1, 0, 0, SHOWN]);
    let answer = [&[0, 5, 1][..], &[LAST; 5].concat()].concat();
    let mut row = example("table 8 after ticks", 1, &start).writes(0, &[7]);
    for (bits, byte) in ROWS {
        row = row.event(same, &answer).writes(2, &[bits]);
        row = row.reads(2, &[byte]).event(same, &answer).reads(2, &[byte]);
    }
    row.ends(&[(780, 7), (787, 0b1001)]).ends_after(LAST)
}

/// At 07h, entries 1 to 5 with their colours, every plane read, and a last pixel
/// of 99h 88h 77h.
fn with_entries(name: &str, command: u8) -> Example {
    let mut start = Vec::new();
    for (n, place) in (1..=5).zip((3u16..).step_by(3)) {
        start.extend((place..).zip(colour(n)));
    }
    start.extend([(780, 7), (784, 0xFF), (786, command)]);
    start.extend([(789, 0x99), (790, 0x88), (791, 0x77)]);
    example(name, 1, &start)
}

impl Example {
    /// Pixels A to E are 1 to 5, of which this many are shown.
    fn shows_entries(self, count: u8) -> Example {
        let codes: Vec<u8> = (1..=count).flat_map(colour).collect();
        let answer = [&[0, count, SHOWN][..], &codes].concat();
        self.event(tick([1, 2, 3, 4, 5, 0, 0, SHOWN]), &answer)
    }

    /// Both halves of each code, red first, by writes at 07h; the register ends
    /// with the last of them.
    fn reads_codes(mut self, codes: [u8; 3]) -> Example {
        for (select, code) in [1, 2, 4].into_iter().zip(codes) {
            let high = code - code % 16 + select;
            let low = code % 16 * 16 + 8 + select;
            self = self.writes(2, &[select]).reads(2, &[high]);
            self = self.writes(2, &[8 + select]).reads(2, &[low]);
        }
        self.ends(&[(787, 0x0C)])
    }
}

/// Which codes stay, and what leaves them.
pub fn last_pixel() -> Vec<Example> {
    let mut rows = vec![
        with_entries("CR7 0: D", 0x40)
            .shows_entries(4)
            .reads_codes(colour(4))
            .ends_after(colour(4)),
        with_entries("CR7 1: E", 0xC0)
            .shows_entries(5)
            .reads_codes(colour(5))
            .ends_after(colour(5)),
        with_entries("CR7 changed after the tick", 0x40)
            .shows_entries(4)
            .writes(0, &[6])
            .paints(2, 0xC0, 262)
            .writes(0, &[7])
            .reads_codes(colour(4))
            .ends(&[(786, 0xC0)])
            .ends_after(colour(4)),
        with_entries("entry painted after the tick", 0x40)
            .shows_entries(4)
            .writes(0, &[4])
            .writes(1, &[1, 2])
            .paints(1, 3, 4)
            .writes(0, &[7])
            .reads_codes(colour(4))
            .ends(&[(12, 1), (13, 2), (14, 3), (782, 1), (783, 2)])
            .ends_after(colour(4)),
        with_entries("the last of two ticks", 0xC0)
            .shows_entries(5)
            .event(
                tick([5, 5, 5, 5, 2, 0, 0, 3]),
                &[
                    &[0, 5, 3][..],
                    &[[colour(5); 4].concat(), colour(2).to_vec()].concat(),
                ]
                .concat(),
            )
            .reads_codes(colour(2))
            .ends_after(colour(2)),
        with_entries("what leaves the codes", 0xC0)
            .shows_entries(5)
            .event(vertical(), NOTHING)
            .event(save(), NOTHING)
            .event(load(1, 2), &[5])
            .event(read(4), &[1])
            .event(write(3, 9), &[2])
            .reads(1, &[0])
            .reads_codes(colour(5))
            .event(save(), NOTHING)
            .reads(2, &[0x5C])
            .ends(&[(781, 1), (788, 1)])
            .ends_after(colour(5)),
        // Places up to 788 are all that an older snapshot has.
        example("a snapshot with no last pixel", 1, &[(780, 7), (787, 0xF1)])
            .reads(2, &[0x01])
            .reads_codes([0; 3]),
        example("a fresh chip", 1, &[])
            .writes(0, &[7])
            .reads(2, &[0x00])
            .reads_codes([0; 3])
            .ends(&[(780, 7)]),
    ];
    for (command, count) in [(0x40, 4), (0xC0, 5)] {
        for levels in [BLANKED, 2] {
            rows.push(
                with_entries("a blanked tick leaves black", command)
                    .shows_entries(count)
                    .event(tick([1, 2, 3, 4, 5, 0, 0, levels]), &[0, count, levels])
                    .reads_codes([0; 3])
                    .ends_after([0; 3]),
            );
        }
        // Undefined bits of OL0, OL1 and the levels, with BLK high and low.
        for (ol0, ol1, levels) in [(32, 0, 1), (0, 128, 1), (0, 0, 5), (0, 0, 128), (64, 32, 2)] {
            rows.push(
                with_entries("a refused tick keeps the codes", command)
                    .event(tick([1, 2, 3, 4, 5, ol0, ol1, levels]), &[4])
                    .reads_codes([0x99, 0x88, 0x77]),
            );
        }
    }
    rows
}
