//! M1 to M10 of document 01, each with reads or ticks that show its end.

use crate::sequence::Sequence;
use crate::sequence::Step::{Read, Tick, Vertical, Write};
use kit::{c, rs};

pub const SEQUENCES: &[Sequence] = &[
    Sequence {
        name: "M1: a palette triple at FFh",
        chip: 1,
        parts: &[&[
            Write(c::ADDRESS, &[0xFF]),
            Write(c::PALETTE, &[0x10, 0x20, 0x30]),
            Read(c::ADDRESS, 1),
            Write(c::ADDRESS, &[0xFF]),
            Read(c::PALETTE, 3),
        ]],
    },
    Sequence {
        name: "M2: an overlay triple at 3",
        chip: 1,
        parts: &[&[
            Write(c::ADDRESS, &[3]),
            Write(c::OVERLAY, &[0x10, 0x20, 0x30]),
            Write(c::OVERLAY, &[0x40]),
            Read(c::ADDRESS, 1),
            Write(c::ADDRESS, &[3]),
            Read(c::OVERLAY, 3),
        ]],
    },
    // The two reads bring the position to 2, and the write shows held red.
    Sequence {
        name: "M3: an address read starts the triple again",
        chip: 1,
        parts: &[&[
            Write(c::PALETTE, &[0x11]),
            Read(c::ADDRESS, 1),
            Write(c::PALETTE, &[0x22]),
            Read(c::ADDRESS, 1),
            Read(c::PALETTE, 3),
            Write(c::ADDRESS, &[0]),
            Read(c::PALETTE, 2),
            Write(c::PALETTE, &[0x33]),
            Write(c::ADDRESS, &[0]),
            Read(c::PALETTE, 3),
        ]],
    },
    Sequence {
        name: "M4: reads move the position for a write",
        chip: 1,
        parts: &[&[
            Read(c::PALETTE, 2),
            Write(c::PALETTE, &[7]),
            Write(c::ADDRESS, &[0]),
            Read(c::PALETTE, 3),
        ]],
    },
    Sequence {
        name: "M5: control reads at 8 and at 7",
        chip: 1,
        parts: &[&[
            Write(c::ADDRESS, &[8]),
            Read(c::CONTROL, 1),
            Write(c::ADDRESS, &[7]),
            Read(c::CONTROL, 1),
        ]],
    },
    // Rate 11 is on below 64, and plane 0 blinks: entry 0 at 127, entry 1 at 0.
    Sequence {
        name: "M6: the blink count goes to 127 and then to 0",
        chip: 1,
        parts: &[&[
            Write(c::PALETTE, &[0x10, 0x20, 0x30, 0x11, 0x21, 0x31]),
            Write(c::ADDRESS, &[4]),
            Write(c::CONTROL, &[0xFF]),
            Write(c::ADDRESS, &[5]),
            Write(c::CONTROL, &[0x01]),
            Write(c::ADDRESS, &[6]),
            Write(c::CONTROL, &[0x70]),
            Vertical(127),
            Tick([1, 1, 1, 1, 1, 0, 0, 1]),
            Vertical(1),
            Tick([1, 1, 1, 1, 1, 0, 0, 1]),
        ]],
    },
    Sequence {
        name: "M7: read mode at FFh",
        chip: 2,
        parts: &[&[
            Write(rs::WRITE_MODE, &[0xFF]),
            Write(rs::CLT, &[0x15, 0x26, 0x37]),
            Write(rs::READ_MODE, &[0xFF]),
            Read(rs::READ_MODE, 1),
            Read(rs::CLT, 1),
        ]],
    },
    Sequence {
        name: "M8: a colour byte FFh is held as 3Fh",
        chip: 2,
        parts: &[&[
            Write(rs::CLT, &[0xFF, 0, 0]),
            Write(rs::READ_MODE, &[0]),
            Read(rs::CLT, 3),
        ]],
    },
    Sequence {
        name: "M9: a colour read of a fresh chip 2",
        chip: 2,
        parts: &[&[Read(rs::CLT, 1)]],
    },
    Sequence {
        name: "M10: an address read inside a triple leaves the position",
        chip: 2,
        parts: &[&[
            Write(rs::CLT, &[1]),
            Read(rs::WRITE_MODE, 1),
            Write(rs::CLT, &[2]),
            Read(rs::READ_MODE, 1),
            Write(rs::CLT, &[3]),
            Write(rs::READ_MODE, &[0]),
            Read(rs::CLT, 3),
        ]],
    },
];
