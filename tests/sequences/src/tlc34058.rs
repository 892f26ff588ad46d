//! Sequences after the TLC34058's Tables 1 to 8. Each ends with reads or ticks
//! that show what came of it.

use crate::sequence::Sequence;
use crate::sequence::Step::{self, Raw, Read, Save, Tick, Vertical, Write};
use kit::c;
use model::kind;

/// Entries 00h, 01h and FFh, overlays 0 to 3, all read mask bits; the address
/// is left at the command register.
const COLOURS: &[Step] = &[
    Write(c::ADDRESS, &[0xFF]),
    Write(c::PALETTE, &[0x1F, 0x2F, 0x3F]),
    Write(c::PALETTE, &[0x10, 0x20, 0x30, 0x11, 0x21, 0x31]),
    Write(c::ADDRESS, &[0x00]),
    Write(c::OVERLAY, &[0x40, 0x50, 0x60, 0x41, 0x51, 0x61]),
    Write(c::OVERLAY, &[0x42, 0x52, 0x62, 0x43, 0x53, 0x63]),
    Write(c::CONTROL, &[0xFF]),
    Write(c::ADDRESS, &[0x06]),
];

/// Pixels 00h, 01h, FFh, 01h, 00h and no overlay.
const PALETTE_TICK: Step = Tick([0x00, 0x01, 0xFF, 0x01, 0x00, 0, 0, 3]);

/// Pixel 01h five times: no overlay, OL0, OL1, both, both.
const OVERLAY_TICK: Step = Tick([0x01, 0x01, 0x01, 0x01, 0x01, 0b11010, 0b11100, 3]);

/// Entries 00h and 01h, all read mask bits, plane 0 blinks; the address is
/// left at the command register.
const BLINKING: &[Step] = &[
    Write(c::PALETTE, &[0x10, 0x20, 0x30, 0x11, 0x21, 0x31]),
    Write(c::ADDRESS, &[0x04]),
    Write(c::CONTROL, &[0xFF]),
    Write(c::ADDRESS, &[0x05]),
    Write(c::CONTROL, &[0x01]),
    Write(c::ADDRESS, &[0x06]),
];

/// Pixel 01h, which is shown as 00h while blink is off.
const BLINK_TICK: Step = Tick([0x01, 0x01, 0x00, 0x01, 0x00, 0, 0, 1]);

/// The four blink rates at this count.
const RATES: &[Step] = &[
    Write(c::CONTROL, &[0x40]),
    BLINK_TICK,
    Write(c::CONTROL, &[0x50]),
    BLINK_TICK,
    Write(c::CONTROL, &[0x60]),
    BLINK_TICK,
    Write(c::CONTROL, &[0x70]),
    BLINK_TICK,
];

/// Entries 01h and 02h with halves that are all different, all read mask bits; the
/// address is left at the command register.
const DAC_INPUTS: &[Step] = &[
    Write(c::ADDRESS, &[0x01]),
    Write(c::PALETTE, &[0x9D, 0xAB, 0x48, 0xC7, 0x5E, 0x32]),
    Write(c::ADDRESS, &[0x04]),
    Write(c::CONTROL, &[0xFF]),
    Write(c::ADDRESS, &[0x06]),
];

/// Pixel D is 02h, pixel E 01h.
const INPUT_TICK: Step = Tick([0x01, 0x01, 0x01, 0x02, 0x01, 0, 0, 1]);

/// Table 8's rows: blue, green and red, the MSBs first.
const ROWS: &[Step] = &[
    Write(c::ADDRESS, &[0x07]),
    Write(c::CONTROL, &[0b0100]),
    Read(c::CONTROL, 1),
    Write(c::CONTROL, &[0b0010]),
    Read(c::CONTROL, 1),
    Write(c::CONTROL, &[0b0001]),
    Read(c::CONTROL, 1),
    Write(c::CONTROL, &[0b1100]),
    Read(c::CONTROL, 1),
    Write(c::CONTROL, &[0b1010]),
    Read(c::CONTROL, 1),
    Write(c::CONTROL, &[0b1001]),
    Read(c::CONTROL, 1),
];

/// CR3 to CR0 in all sixteen ways at this count.
const ENABLES: &[Step] = &[
    Write(c::CONTROL, &[0x40]),
    OVERLAY_TICK,
    Write(c::CONTROL, &[0x41]),
    OVERLAY_TICK,
    Write(c::CONTROL, &[0x42]),
    OVERLAY_TICK,
    Write(c::CONTROL, &[0x43]),
    OVERLAY_TICK,
    Write(c::CONTROL, &[0x44]),
    OVERLAY_TICK,
    Write(c::CONTROL, &[0x45]),
    OVERLAY_TICK,
    Write(c::CONTROL, &[0x46]),
    OVERLAY_TICK,
    Write(c::CONTROL, &[0x47]),
    OVERLAY_TICK,
    Write(c::CONTROL, &[0x48]),
    OVERLAY_TICK,
    Write(c::CONTROL, &[0x49]),
    OVERLAY_TICK,
    Write(c::CONTROL, &[0x4A]),
    OVERLAY_TICK,
    Write(c::CONTROL, &[0x4B]),
    OVERLAY_TICK,
    Write(c::CONTROL, &[0x4C]),
    OVERLAY_TICK,
    Write(c::CONTROL, &[0x4D]),
    OVERLAY_TICK,
    Write(c::CONTROL, &[0x4E]),
    OVERLAY_TICK,
    Write(c::CONTROL, &[0x4F]),
    OVERLAY_TICK,
];

/// Entry 00h and the eight entries of one plane each; command register 40h.
const PLANES: &[Step] = &[
    Write(c::PALETTE, &[0x00, 0xA0, 0xB0]),
    Write(c::PALETTE, &[0x01, 0xA1, 0xB1, 0x02, 0xA2, 0xB2]),
    Write(c::ADDRESS, &[0x04]),
    Write(c::PALETTE, &[0x04, 0xA3, 0xB3]),
    Write(c::ADDRESS, &[0x08]),
    Write(c::PALETTE, &[0x08, 0xA4, 0xB4]),
    Write(c::ADDRESS, &[0x10]),
    Write(c::PALETTE, &[0x10, 0xA5, 0xB5]),
    Write(c::ADDRESS, &[0x20]),
    Write(c::PALETTE, &[0x20, 0xA6, 0xB6]),
    Write(c::ADDRESS, &[0x40]),
    Write(c::PALETTE, &[0x40, 0xA7, 0xB7]),
    Write(c::ADDRESS, &[0x80]),
    Write(c::PALETTE, &[0x80, 0xA8, 0xB8]),
    Write(c::ADDRESS, &[0x06]),
    Write(c::CONTROL, &[0x40]),
];

const LOW_PLANES: Step = Tick([0x01, 0x02, 0x04, 0x08, 0x00, 0, 0, 1]);
const HIGH_PLANES: Step = Tick([0x10, 0x20, 0x40, 0x80, 0x00, 0, 0, 1]);
const ALL_ONES: Step = Tick([0xFF, 0xFF, 0xFF, 0xFF, 0xFF, 0, 0, 1]);

pub const SEQUENCES: &[Sequence] = &[
    // ---- Table 1
    Sequence {
        name: "TLC34058 Table 1: a colour written and read back",
        chip: 1,
        parts: &[&[
            Write(c::ADDRESS, &[0x5A]),
            Write(c::PALETTE, &[0x12, 0x34, 0x56]),
            Read(c::ADDRESS, 1),
            Write(c::ADDRESS, &[0x5A]),
            Read(c::PALETTE, 3),
            Read(c::ADDRESS, 1),
        ]],
    },
    Sequence {
        name: "TLC34058 Table 1: two colours across FFh to 00h",
        chip: 1,
        parts: &[&[
            Write(c::ADDRESS, &[0xFF]),
            Write(c::PALETTE, &[1, 2, 3, 4, 5, 6]),
            Read(c::ADDRESS, 1),
            Write(c::ADDRESS, &[0xFF]),
            Read(c::PALETTE, 9),
            Read(c::ADDRESS, 1),
        ]],
    },
    Sequence {
        name: "TLC34058 Table 1: the RAM is written in the blue cycle",
        chip: 1,
        parts: &[
            COLOURS,
            &[
                Write(c::CONTROL, &[0x40]),
                Write(c::ADDRESS, &[0x01]),
                Write(c::PALETTE, &[0x71]),
                PALETTE_TICK,
                Write(c::PALETTE, &[0x72]),
                PALETTE_TICK,
                Write(c::PALETTE, &[0x73]),
                PALETTE_TICK,
            ],
        ],
    },
    Sequence {
        name: "TLC34058 Table 1: writing ADDR0-7 sets ADDRa,b to 0",
        chip: 1,
        parts: &[&[
            Write(c::ADDRESS, &[0x20]),
            Write(c::PALETTE, &[1, 2]),
            Write(c::ADDRESS, &[0x20]),
            Write(c::PALETTE, &[3, 4, 5]),
            Write(c::ADDRESS, &[0x20]),
            Read(c::PALETTE, 6),
        ]],
    },
    Sequence {
        name: "TLC34058 Table 1: reading ADDR0-7 sets ADDRa,b to 0",
        chip: 1,
        parts: &[&[
            Write(c::ADDRESS, &[0x20]),
            Write(c::PALETTE, &[1, 2, 3]),
            Write(c::ADDRESS, &[0x20]),
            Read(c::PALETTE, 1),
            Read(c::ADDRESS, 1),
            Read(c::PALETTE, 2),
            Read(c::ADDRESS, 1),
            Read(c::PALETTE, 3),
            Read(c::ADDRESS, 1),
        ]],
    },
    Sequence {
        name: "TLC34058 Table 1: reads and writes share the counters, RREG and GREG stay",
        chip: 1,
        parts: &[&[
            Write(c::ADDRESS, &[0x30]),
            Write(c::PALETTE, &[0x11, 0x22, 0x33]),
            Read(c::PALETTE, 2),
            Write(c::PALETTE, &[0x44]),
            Read(c::ADDRESS, 1),
            Write(c::ADDRESS, &[0x30]),
            Read(c::PALETTE, 6),
        ]],
    },
    Sequence {
        name: "TLC34058 Table 1: a save inside a triple leaves the counters, RREG and GREG",
        chip: 1,
        parts: &[&[
            Write(c::ADDRESS, &[0x81]),
            Write(c::PALETTE, &[0x61]),
            Save,
            Write(c::PALETTE, &[0x62]),
            Save,
            Write(c::PALETTE, &[0x63]),
            Save,
            Write(c::ADDRESS, &[0x81]),
            Read(c::PALETTE, 3),
        ]],
    },
    // ---- Table 2
    Sequence {
        name: "TLC34058 Table 2: overlays 0 to 3 written and read back, 03h to 04h",
        chip: 1,
        parts: &[&[
            Write(c::OVERLAY, &[1, 2, 3, 4, 5, 6, 7, 8, 9, 10, 11, 12]),
            Write(c::OVERLAY, &[13]),
            Read(c::OVERLAY, 1),
            Read(c::ADDRESS, 1),
            Write(c::ADDRESS, &[0x00]),
            Read(c::OVERLAY, 13),
            Read(c::ADDRESS, 1),
        ]],
    },
    Sequence {
        name: "TLC34058 Table 2: reading ADDR0-7 sets ADDRa,b to 0",
        chip: 1,
        parts: &[&[
            Write(c::ADDRESS, &[0x02]),
            Write(c::OVERLAY, &[0x21, 0x22]),
            Read(c::ADDRESS, 1),
            Write(c::OVERLAY, &[0x31, 0x32, 0x33]),
            Write(c::ADDRESS, &[0x02]),
            Read(c::OVERLAY, 3),
        ]],
    },
    Sequence {
        name: "TLC34058 Tables 1 and 2: one RREG, one GREG, one pair of counters",
        chip: 1,
        parts: &[&[
            Write(c::ADDRESS, &[0x01]),
            Write(c::PALETTE, &[0x51, 0x52]),
            Write(c::OVERLAY, &[0x53]),
            Read(c::ADDRESS, 1),
            Write(c::OVERLAY, &[0x61]),
            Write(c::PALETTE, &[0x62, 0x63]),
            Write(c::ADDRESS, &[0x01]),
            Read(c::OVERLAY, 6),
            Write(c::ADDRESS, &[0x01]),
            Read(c::PALETTE, 6),
        ]],
    },
    // ---- Table 3
    Sequence {
        name: "TLC34058 Table 3: each register written, read and written again",
        chip: 1,
        parts: &[&[
            Write(c::ADDRESS, &[0x04]),
            Write(c::CONTROL, &[0xA5]),
            Read(c::CONTROL, 2),
            Write(c::CONTROL, &[0x5A]),
            Read(c::CONTROL, 1),
            Write(c::ADDRESS, &[0x05]),
            Write(c::CONTROL, &[0xC3]),
            Read(c::CONTROL, 2),
            Write(c::ADDRESS, &[0x06]),
            Write(c::CONTROL, &[0x81]),
            Read(c::CONTROL, 2),
            Write(c::ADDRESS, &[0x07]),
            Write(c::CONTROL, &[0xF9]),
            Read(c::CONTROL, 2),
            Read(c::ADDRESS, 1),
            Write(c::ADDRESS, &[0x04]),
            Read(c::CONTROL, 1),
        ]],
    },
    Sequence {
        name: "TLC34058 Table 3: a control access inside a triple moves no counter",
        chip: 1,
        parts: &[&[
            Write(c::ADDRESS, &[0x07]),
            Write(c::PALETTE, &[0x11]),
            Write(c::CONTROL, &[0x77]),
            Write(c::PALETTE, &[0x12]),
            Read(c::CONTROL, 1),
            Write(c::PALETTE, &[0x13]),
            Read(c::CONTROL, 1),
            Write(c::ADDRESS, &[0x07]),
            Read(c::PALETTE, 3),
        ]],
    },
    // ---- Table 4
    Sequence {
        name: "TLC34058 Table 4: what each address reaches",
        chip: 1,
        parts: &[&[
            Write(c::ADDRESS, &[0x03]),
            Write(c::CONTROL, &[0x01]),
            Read(c::CONTROL, 1),
            Write(c::OVERLAY, &[0x31, 0x32, 0x33]),
            Write(c::OVERLAY, &[0x34]),
            Write(c::CONTROL, &[0x44]),
            Read(c::CONTROL, 1),
            Write(c::PALETTE, &[0x41, 0x42, 0x43]),
            Write(c::ADDRESS, &[0x07]),
            Read(c::OVERLAY, 1),
            Write(c::CONTROL, &[0x47]),
            Read(c::CONTROL, 1),
            Write(c::ADDRESS, &[0x08]),
            Write(c::CONTROL, &[0x48]),
            Read(c::CONTROL, 1),
            Read(c::OVERLAY, 1),
            Write(c::ADDRESS, &[0xFF]),
            Write(c::CONTROL, &[0x4F]),
            Write(c::OVERLAY, &[0x4F]),
            Write(c::PALETTE, &[0xF1, 0xF2, 0xF3]),
            Write(c::ADDRESS, &[0x03]),
            Read(c::OVERLAY, 3),
            Read(c::PALETTE, 3),
            Write(c::ADDRESS, &[0xFF]),
            Read(c::PALETTE, 3),
        ]],
    },
    Sequence {
        name: "TLC34058 Table 4: no selector over 3, no kind over 5, no unused byte",
        chip: 1,
        parts: &[&[
            Write(c::ADDRESS, &[0x10]),
            Write(c::PALETTE, &[0x01]),
            Write(4, &[0x22]),
            Read(4, 1),
            Write(0xFF, &[0x22]),
            Raw(6, [0; 8]),
            Raw(0xFF, [1; 8]),
            Raw(kind::WRITE, [0, 0x33, 1, 0, 0, 0, 0, 0]),
            Raw(kind::READ, [0, 1, 0, 0, 0, 0, 0, 0]),
            Raw(kind::VERTICAL, [1, 0, 0, 0, 0, 0, 0, 0]),
            Raw(kind::SAVE, [0, 0, 0, 0, 0, 0, 0, 1]),
            Write(c::PALETTE, &[0x02, 0x03]),
            Write(c::ADDRESS, &[0x10]),
            Read(c::PALETTE, 3),
        ]],
    },
    // ---- Table 5
    Sequence {
        name: "TLC34058 Table 5: CR6 high, entries 00h, 01h and FFh",
        chip: 1,
        parts: &[COLOURS, &[Write(c::CONTROL, &[0xC0]), PALETTE_TICK]],
    },
    Sequence {
        name: "TLC34058 Table 5: CR6 low, overlay register 0",
        chip: 1,
        parts: &[COLOURS, &[Write(c::CONTROL, &[0x80]), PALETTE_TICK]],
    },
    Sequence {
        name: "TLC34058 Table 5: overlay registers 1, 2 and 3, CR6 high and low",
        chip: 1,
        parts: &[
            COLOURS,
            &[
                Write(c::CONTROL, &[0xC3]),
                OVERLAY_TICK,
                Write(c::CONTROL, &[0x83]),
                OVERLAY_TICK,
            ],
        ],
    },
    // ---- Table 6, its levels
    Sequence {
        name: "TLC34058 Table 6: BLK low blanks, SYNC doesn't; no other level or overlay bit",
        chip: 1,
        parts: &[
            COLOURS,
            &[
                Write(c::CONTROL, &[0xC3]),
                Tick([0x00, 0x01, 0xFF, 0x01, 0x00, 0b11000, 0b10000, 0]),
                Tick([0x00, 0x01, 0xFF, 0x01, 0x00, 0b11000, 0b10000, 1]),
                Tick([0x00, 0x01, 0xFF, 0x01, 0x00, 0b11000, 0b10000, 2]),
                Tick([0x00, 0x01, 0xFF, 0x01, 0x00, 0b11000, 0b10000, 3]),
                Tick([0x00, 0x01, 0xFF, 0x01, 0x00, 0, 0, 4]),
                Tick([0x00, 0x01, 0xFF, 0x01, 0x00, 0, 0, 0x81]),
                Tick([0x00, 0x01, 0xFF, 0x01, 0x00, 0x20, 0, 3]),
                Tick([0x00, 0x01, 0xFF, 0x01, 0x00, 0, 0x80, 3]),
            ],
        ],
    },
    // ---- Table 7
    Sequence {
        name: "TLC34058 Table 7: CR7, four pixels or five",
        chip: 1,
        parts: &[
            COLOURS,
            &[
                Write(c::CONTROL, &[0x43]),
                PALETTE_TICK,
                OVERLAY_TICK,
                Write(c::CONTROL, &[0xC3]),
                PALETTE_TICK,
                OVERLAY_TICK,
            ],
        ],
    },
    // Each rate on both sides of each count at which one of them turns.
    Sequence {
        name: "TLC34058 Table 7: CR5 and CR4, the four blink rates over 128 vertical periods",
        chip: 1,
        parts: &[
            BLINKING,
            RATES,
            &[Vertical(15)],
            RATES,
            &[Vertical(1)],
            RATES,
            &[Vertical(15)],
            RATES,
            &[Vertical(1)],
            RATES,
            &[Vertical(16)],
            RATES,
            &[Vertical(15)],
            RATES,
            &[Vertical(1)],
            RATES,
            &[Vertical(15)],
            RATES,
            &[Vertical(1)],
            RATES,
            &[Vertical(16)],
            RATES,
            &[Vertical(31)],
            RATES,
            &[Vertical(1)],
            RATES,
        ],
    },
    Sequence {
        name: "TLC34058 Table 7: CR3 to CR0 with blink on, then off",
        chip: 1,
        parts: &[COLOURS, ENABLES, &[Vertical(16)], ENABLES],
    },
    // ---- Table 8
    Sequence {
        name: "TLC34058 Table 8: each row after a tick of four pixels, and of five",
        chip: 1,
        parts: &[
            DAC_INPUTS,
            &[Write(c::CONTROL, &[0x40]), INPUT_TICK],
            ROWS,
            &[
                Write(c::ADDRESS, &[0x06]),
                Write(c::CONTROL, &[0xC0]),
                Write(c::ADDRESS, &[0x07]),
                Read(c::CONTROL, 1),
                INPUT_TICK,
            ],
            ROWS,
        ],
    },
    Sequence {
        name: "TLC34058 Table 8: no row for no colour and for several; bits 4 to 7 written",
        chip: 1,
        parts: &[
            DAC_INPUTS,
            &[
                Write(c::CONTROL, &[0x40]),
                INPUT_TICK,
                Write(c::ADDRESS, &[0x07]),
                Read(c::CONTROL, 1),
                Write(c::CONTROL, &[0x08]),
                Read(c::CONTROL, 1),
                Write(c::CONTROL, &[0x03]),
                Read(c::CONTROL, 1),
                Write(c::CONTROL, &[0x05]),
                Read(c::CONTROL, 1),
                Write(c::CONTROL, &[0x06]),
                Read(c::CONTROL, 1),
                Write(c::CONTROL, &[0x07]),
                Read(c::CONTROL, 1),
                Write(c::CONTROL, &[0x0B]),
                Read(c::CONTROL, 1),
                Write(c::CONTROL, &[0x0D]),
                Read(c::CONTROL, 1),
                Write(c::CONTROL, &[0x0E]),
                Read(c::CONTROL, 1),
                Write(c::CONTROL, &[0x0F]),
                Read(c::CONTROL, 1),
                Write(c::CONTROL, &[0xF0]),
                Read(c::CONTROL, 1),
                Write(c::CONTROL, &[0xF2]),
                Read(c::CONTROL, 2),
                Read(c::ADDRESS, 1),
            ],
        ],
    },
    Sequence {
        name: "TLC34058 Table 8: black before a tick and after a blanked one",
        chip: 1,
        parts: &[
            ROWS,
            DAC_INPUTS,
            &[
                Write(c::CONTROL, &[0x40]),
                INPUT_TICK,
                Tick([0x01, 0x02, 0x01, 0x02, 0x01, 0, 0, 0]),
            ],
            ROWS,
            &[
                INPUT_TICK,
                Tick([0x01, 0x02, 0x01, 0x02, 0x01, 0, 0, 2]),
                Read(c::CONTROL, 1),
            ],
        ],
    },
    Sequence {
        name: "TLC34058 Table 8: refused ticks and other events leave the inputs",
        chip: 1,
        parts: &[
            DAC_INPUTS,
            &[
                Write(c::CONTROL, &[0x40]),
                INPUT_TICK,
                Tick([0x01, 0x01, 0x01, 0x01, 0x01, 0x20, 0, 1]),
                Tick([0x01, 0x01, 0x01, 0x01, 0x01, 0, 0x20, 0]),
                Tick([0x01, 0x01, 0x01, 0x01, 0x01, 0, 0, 4]),
                Vertical(1),
                Save,
                Raw(kind::LOAD, [1, 2, 0, 0, 0, 0, 0, 0]),
                Write(c::ADDRESS, &[0x02]),
                Write(c::PALETTE, &[0x01, 0x02, 0x03]),
                Write(c::ADDRESS, &[0x02]),
                Read(c::PALETTE, 1),
            ],
            ROWS,
            &[Save, Read(c::CONTROL, 1), INPUT_TICK, Read(c::CONTROL, 1)],
        ],
    },
    // ---- the masks
    Sequence {
        name: "TLC34058 read mask register: each plane alone",
        chip: 1,
        parts: &[
            PLANES,
            &[
                Write(c::ADDRESS, &[0x04]),
                ALL_ONES,
                Write(c::CONTROL, &[0x01]),
                ALL_ONES,
                Write(c::CONTROL, &[0x02]),
                ALL_ONES,
                Write(c::CONTROL, &[0x04]),
                ALL_ONES,
                Write(c::CONTROL, &[0x08]),
                ALL_ONES,
                Write(c::CONTROL, &[0x10]),
                ALL_ONES,
                Write(c::CONTROL, &[0x20]),
                ALL_ONES,
                Write(c::CONTROL, &[0x40]),
                ALL_ONES,
                Write(c::CONTROL, &[0x80]),
                ALL_ONES,
            ],
        ],
    },
    Sequence {
        name: "TLC34058 blink mask register: each plane alone, blink off",
        chip: 1,
        parts: &[
            PLANES,
            &[
                Write(c::ADDRESS, &[0x04]),
                Write(c::CONTROL, &[0xFF]),
                Write(c::ADDRESS, &[0x05]),
                Write(c::CONTROL, &[0xFF]),
                LOW_PLANES,
                HIGH_PLANES,
                Vertical(16),
                LOW_PLANES,
                HIGH_PLANES,
                Write(c::CONTROL, &[0x01]),
                LOW_PLANES,
                Write(c::CONTROL, &[0x02]),
                LOW_PLANES,
                Write(c::CONTROL, &[0x04]),
                LOW_PLANES,
                Write(c::CONTROL, &[0x08]),
                LOW_PLANES,
                Write(c::CONTROL, &[0x10]),
                HIGH_PLANES,
                Write(c::CONTROL, &[0x20]),
                HIGH_PLANES,
                Write(c::CONTROL, &[0x40]),
                HIGH_PLANES,
                Write(c::CONTROL, &[0x80]),
                HIGH_PLANES,
                Write(c::CONTROL, &[0x00]),
                LOW_PLANES,
                HIGH_PLANES,
            ],
        ],
    },
    Sequence {
        name: "TLC34058 read mask and blink mask together",
        chip: 1,
        parts: &[
            PLANES,
            &[
                Write(c::ADDRESS, &[0x04]),
                Write(c::CONTROL, &[0x26]),
                Write(c::ADDRESS, &[0x05]),
                Write(c::CONTROL, &[0x24]),
                LOW_PLANES,
                HIGH_PLANES,
                Vertical(16),
                LOW_PLANES,
                HIGH_PLANES,
                Tick([0xFF, 0x07, 0x23, 0xDB, 0x00, 0, 0, 1]),
            ],
        ],
    },
];
