//! Sequences after the TMS34070's paragraphs on its registers, on REP and on
//! EXT, and two with the other chips. Each ends with ticks or reads that show
//! what came of it.

use crate::sequence::Sequence;
use crate::sequence::Step::{self, Chip, Load, Raw, Read, Save, Tick, Vertical, Write};
use kit::{c, rs};
use model::kind;

/// EXT and REP in DB of a register's first load.
const EXT: u8 = 1;
const REP: u8 = 2;

/// Pixels DA and DB with DATEN high.
const fn shown(da: u8, db: u8) -> Step {
    Tick([da, db, 0, 0, 0, 0, 0, 1])
}

/// Pixels DA and DB with DATEN low.
const fn blanked(da: u8, db: u8) -> Step {
    Tick([da, db, 0, 0, 0, 0, 0, 0])
}

/// All sixteen registers with a colour of their own, EXT in the odd ones.
const COLOURS: &[Step] = &[
    Load(&[(0, 0), (15, 8), (1, EXT), (14, 9)]),
    Load(&[(2, 0), (13, 10), (3, EXT), (12, 11)]),
    Load(&[(4, 0), (11, 12), (5, EXT), (10, 13)]),
    Load(&[(6, 0), (9, 14), (7, EXT), (8, 15)]),
    Load(&[(8, 0), (7, 0), (9, EXT), (6, 1)]),
    Load(&[(10, 0), (5, 2), (11, EXT), (4, 3)]),
    Load(&[(12, 0), (3, 4), (13, EXT), (2, 5)]),
    Load(&[(14, 0), (1, 6), (15, EXT), (0, 7)]),
];

/// Every register, two in each tick.
const ALL_SHOWN: &[Step] = &[
    shown(0, 1),
    shown(2, 3),
    shown(4, 5),
    shown(6, 7),
    shown(8, 9),
    shown(10, 11),
    shown(12, 13),
    shown(14, 15),
];

/// Registers 0 and 1 have colours, 2 and 3 have colours and REP, 3 EXT besides.
const REPEATING: &[Step] = &[
    Load(&[(15, 0), (0, 0)]),
    Load(&[(0, 0), (15, 0)]),
    Load(&[(1, REP), (1, 1)]),
    Load(&[(2, REP + EXT), (2, 2)]),
];

pub const SEQUENCES: &[Sequence] = &[
    // ---- registers
    Sequence {
        name: "TMS34070 registers: loaded in the order 0 to 15",
        chip: 3,
        parts: &[ALL_SHOWN, COLOURS, ALL_SHOWN],
    },
    Sequence {
        name: "TMS34070 registers: the loads start over behind register 15",
        chip: 3,
        parts: &[
            COLOURS,
            &[Load(&[(9, 0), (9, 9), (10, 0), (10, 10)])],
            ALL_SHOWN,
            COLOURS,
            ALL_SHOWN,
        ],
    },
    Sequence {
        name: "TMS34070 registers: the left half first, stored with the right half",
        chip: 3,
        parts: &[&[
            shown(0, 1),
            Load(&[(7, EXT)]),
            shown(0, 1),
            Load(&[(8, 9)]),
            shown(0, 1),
            Load(&[(10, 0)]),
            shown(0, 1),
            Load(&[(11, 12)]),
            shown(0, 1),
            shown(1, 0),
        ]],
    },
    Sequence {
        name: "TMS34070 registers: a new load between DA's and DB's halves",
        chip: 3,
        parts: &[
            COLOURS,
            &[
                Load(&[(9, EXT)]),
                shown(0, 1),
                Load(&[(8, 7)]),
                shown(0, 1),
                Load(&[(6, 0)]),
                shown(0, 1),
                Load(&[(5, 4)]),
                shown(0, 1),
            ],
        ],
    },
    Sequence {
        name: "TMS34070 registers: red, EXT and REP by DA and DB, whose bits 2 and 3 are ignored",
        chip: 3,
        parts: &[&[
            Load(&[(1, 12), (1, 1), (2, 13), (2, 2)]),
            Load(&[(3, 14), (3, 3), (4, 15), (4, 4)]),
            Load(&[(5, 4), (5, 5), (6, 9), (6, 6)]),
            shown(0, 1),
            shown(2, 3),
            shown(4, 5),
        ]],
    },
    Sequence {
        name: "TMS34070 registers: a save inside a register's two loads leaves both halves",
        chip: 3,
        parts: &[&[
            Save,
            Load(&[(7, EXT)]),
            Save,
            Save,
            Load(&[(8, 9)]),
            Save,
            shown(0, 0),
            Load(&[(1, REP)]),
            Save,
            Load(&[(2, 3)]),
            shown(1, 1),
            Save,
            shown(1, 0),
        ]],
    },
    // ---- EXT
    Sequence {
        name: "TMS34070 EXT: by the selected register, in either pixel",
        chip: 3,
        parts: &[
            COLOURS,
            &[
                shown(0, 0),
                shown(1, 0),
                shown(0, 1),
                shown(1, 1),
                shown(15, 14),
                shown(14, 15),
                blanked(1, 1),
            ],
        ],
    },
    Sequence {
        name: "TMS34070 EXT: a repeated colour comes without it",
        chip: 3,
        parts: &[&[
            Load(&[(1, EXT), (2, 3)]),
            Load(&[(4, REP), (5, 6)]),
            Load(&[(7, REP + EXT), (8, 9)]),
            shown(0, 1),
            shown(1, 2),
            shown(2, 1),
        ]],
    },
    // ---- REP
    Sequence {
        name: "TMS34070 REP: the colour of the preceding pixel, in either pixel",
        chip: 3,
        parts: &[
            REPEATING,
            &[
                shown(0, 1),
                shown(0, 2),
                shown(1, 3),
                shown(2, 0),
                shown(3, 1),
                shown(2, 3),
            ],
        ],
    },
    Sequence {
        name: "TMS34070 REP: chains over several ticks, past loads and saves",
        chip: 3,
        parts: &[
            REPEATING,
            &[
                shown(2, 3),
                shown(1, 0),
                shown(2, 3),
                shown(3, 3),
                Save,
                shown(2, 2),
                Load(&[(4, 0), (5, 6)]),
                shown(3, 2),
                shown(2, 4),
                shown(3, 2),
                shown(3, 1),
            ],
        ],
    },
    Sequence {
        name: "TMS34070 REP: a register loaded anew leaves the colour that was shown",
        chip: 3,
        parts: &[
            COLOURS,
            &[
                shown(1, 0),
                Load(&[(9, 0), (9, 9), (3, REP), (3, 3)]),
                shown(1, 1),
                shown(0, 1),
                Load(&[(4, 0), (4, 4)]),
                shown(1, 2),
            ],
        ],
    },
    Sequence {
        name: "TMS34070 REP: black after DATEN was low",
        chip: 3,
        parts: &[
            REPEATING,
            &[
                shown(1, 0),
                blanked(0, 1),
                shown(2, 3),
                shown(3, 0),
                blanked(3, 3),
                blanked(0, 0),
                shown(3, 2),
                shown(1, 2),
            ],
        ],
    },
    // ---- refusals
    Sequence {
        name: "TMS34070: DA and DB of 15 and 16, no other level bit",
        chip: 3,
        parts: &[
            COLOURS,
            &[
                shown(15, 15),
                shown(16, 15),
                shown(15, 16),
                blanked(16, 0),
                Tick([0, 0, 0, 0, 0, 0, 0, 2]),
                Tick([0, 0, 0, 0, 0, 0, 0, 0x81]),
                Load(&[(16, 0), (0, 16), (15, 15)]),
                Load(&[(0x80, 0), (0, 0xFF), (15, 15)]),
                shown(0, 0),
                shown(0, 15),
            ],
        ],
    },
    Sequence {
        name: "TMS34070: no writes, reads or vertical periods, no unused byte",
        chip: 3,
        parts: &[&[
            Load(&[(1, 0)]),
            Write(0, &[0x01]),
            Write(4, &[0x01]),
            Read(1, 1),
            Read(0xFF, 1),
            Vertical(1),
            Raw(6, [0; 8]),
            Raw(0xFF, [1; 8]),
            Raw(kind::WRITE, [4, 0, 1, 0, 0, 0, 0, 0]),
            Raw(kind::READ, [4, 1, 0, 0, 0, 0, 0, 0]),
            Raw(kind::VERTICAL, [1, 0, 0, 0, 0, 0, 0, 0]),
            Raw(kind::LOAD, [2, 2, 1, 0, 0, 0, 0, 0]),
            Raw(kind::LOAD, [16, 2, 0, 0, 0, 0, 0, 1]),
            Raw(kind::TICK, [0, 0, 1, 0, 0, 0, 0, 1]),
            Raw(kind::TICK, [16, 0, 0, 0, 0, 0, 1, 2]),
            Raw(kind::SAVE, [0, 0, 0, 0, 0, 0, 0, 1]),
            Load(&[(2, 3)]),
            shown(0, 0),
        ]],
    },
    // ---- the other chips
    Sequence {
        name: "TLC34058 and HD153129: a load is refused inside a triple",
        chip: 1,
        parts: &[&[
            Write(c::ADDRESS, &[0x10]),
            Write(c::PALETTE, &[0x01]),
            Load(&[(1, 2), (16, 0xFF)]),
            Raw(kind::LOAD, [1, 2, 1, 0, 0, 0, 0, 0]),
            Write(c::PALETTE, &[0x02, 0x03]),
            Write(c::ADDRESS, &[0x10]),
            Read(c::PALETTE, 3),
            Chip(2),
            Write(rs::WRITE_MODE, &[0x10]),
            Write(rs::CLT, &[0x01]),
            Load(&[(1, 2), (16, 0xFF)]),
            Raw(kind::LOAD, [1, 2, 0, 0, 0, 0, 0, 1]),
            Write(rs::CLT, &[0x02, 0x03]),
            Write(rs::READ_MODE, &[0x10]),
            Read(rs::CLT, 3),
        ]],
    },
    Sequence {
        name: "three chips: each has a state of its own",
        chip: 1,
        parts: &[&[
            Write(c::ADDRESS, &[0x10]),
            Chip(2),
            Write(rs::WRITE_MODE, &[0x20]),
            Chip(3),
            Load(&[(1, EXT)]),
            Chip(1),
            Write(c::PALETTE, &[0xC1]),
            Chip(2),
            Write(rs::CLT, &[0xC2]),
            Chip(3),
            Load(&[(2, 3)]),
            shown(0, 1),
            Chip(1),
            Write(c::PALETTE, &[0xC3, 0xC4]),
            Chip(2),
            Write(rs::CLT, &[0xC5, 0xC6]),
            Chip(3),
            Load(&[(4, REP), (5, 6)]),
            shown(0, 1),
            Chip(1),
            Read(c::ADDRESS, 1),
            Write(c::ADDRESS, &[0x10]),
            Read(c::PALETTE, 3),
            Chip(2),
            Read(rs::WRITE_MODE, 1),
            Write(rs::READ_MODE, &[0x20]),
            Read(rs::CLT, 3),
            Chip(3),
            Save,
            shown(1, 0),
        ]],
    },
];
