//! The built chips: selectors, places, which bytes and bits of an operand they
//! use, which of them has currents, and which plans. Copied from documents 01 and
//! 02.
//!
//! Each table names every chip that it is for. A chip that isn't built has no
//! row, and asking for it is a fault of the test.

use model::kind;
use std::ops::Range;

/// The chip bytes of the chips that are built.
pub const CHIPS: [u8; 3] = [1, 2, 3];

/// The chip whose ticks have output currents.
pub const CURRENTS_CHIP: u8 = 1;

/// The chip that a plan of writes is made for.
pub const PLAN_CHIP: u8 = 2;

/// A chip byte that no chip has, where one example is wanted.
pub const NOT_BUILT: u8 = 9;

/// Chip 1 selectors, 2 x C1 + C0.
pub mod c {
    pub const ADDRESS: u8 = 0;
    pub const PALETTE: u8 = 1;
    pub const CONTROL: u8 = 2;
    pub const OVERLAY: u8 = 3;
}

/// Chip 2 selectors, 2 x RS1 + RS0.
pub mod rs {
    pub const WRITE_MODE: u8 = 0;
    pub const CLT: u8 = 1;
    pub const PIXEL_MASK: u8 = 2;
    pub const READ_MODE: u8 = 3;
}

/// Place numbers of chip 1.
pub mod p1 {
    pub const OVERLAY_0: usize = 768;
    pub const ADDRESS: usize = 780;
    pub const POSITION: usize = 781;
    pub const HELD_RED: usize = 782;
    pub const HELD_GREEN: usize = 783;
    pub const READ_MASK: usize = 784;
    pub const BLINK_MASK: usize = 785;
    pub const COMMAND: usize = 786;
    pub const TEST: usize = 787;
    pub const BLINK_COUNT: usize = 788;
    /// The last pixel's codes.
    pub const LAST_RED: usize = 789;
    pub const LAST_GREEN: usize = 790;
    pub const LAST_BLUE: usize = 791;
    pub const COUNT: usize = 792;
    /// The count before document 02's Note 7.
    pub const OLDER_COUNT: usize = LAST_RED;
}

/// Place numbers of chip 2.
pub mod p2 {
    pub const ADDRESS: usize = 768;
    pub const POSITION: usize = 769;
    pub const DIRECTION: usize = 770;
    pub const HELD_RED: usize = 771;
    pub const HELD_GREEN: usize = 772;
    pub const MASK: usize = 773;
    pub const COUNT: usize = 774;
}

/// Place numbers of chip 3. Register n has the places from
/// `REGISTER_PLACES` x n on: red, green, blue, EXT, REP.
pub mod p3 {
    pub const REGISTERS: usize = 16;
    pub const REGISTER_PLACES: usize = 5;
    /// Behind a register's first place.
    pub const EXT: usize = 3;
    /// Behind a register's first place.
    pub const REP: usize = 4;
    pub const LOAD_POSITION: usize = 80;
    pub const HELD_RED: usize = 81;
    /// EXT + 2 x REP.
    pub const HELD_ATTRIBUTES: usize = 82;
    /// Red; green and blue follow.
    pub const COLOUR_BEFORE: usize = 83;
    pub const COUNT: usize = 86;
}

/// The chip bytes that no chip has.
pub fn not_built() -> impl Iterator<Item = u8> {
    (0..=255).filter(|chip| !CHIPS.contains(chip))
}

/// The built chips in turn, one for each round of a test.
pub fn chip_of_round(round: usize) -> u8 {
    CHIPS[round % CHIPS.len()]
}

/// The built chips but this one.
pub fn other_chips(chip: u8) -> Vec<u8> {
    CHIPS.into_iter().filter(|&other| other != chip).collect()
}

/// How many places a chip has.
pub fn place_count(chip: u8) -> usize {
    match chip {
        1 => p1::COUNT,
        2 => p2::COUNT,
        3 => p3::COUNT,
        _ => no_such_chip(chip),
    }
}

/// How many places the chip's table of colours has: they are the first ones.
pub fn table_places(chip: u8) -> usize {
    match chip {
        1 => p1::ADDRESS,
        2 => p2::ADDRESS,
        3 => p3::LOAD_POSITION,
        _ => no_such_chip(chip),
    }
}

/// The places that say which colour or register the next access is for, and
/// which part of it: address and position, or the load position.
pub fn counter_places(chip: u8) -> &'static [usize] {
    match chip {
        1 => &[p1::ADDRESS, p1::POSITION],
        2 => &[p2::ADDRESS, p2::POSITION],
        3 => &[p3::LOAD_POSITION],
        _ => no_such_chip(chip),
    }
}

/// How many places an entry of the table has: red, green, blue and, on chip 3,
/// EXT and REP.
pub fn entry_places(chip: u8) -> usize {
    match chip {
        1 | 2 => 3,
        3 => p3::REGISTER_PLACES,
        _ => no_such_chip(chip),
    }
}

/// The places that a tick moves.
pub fn places_that_ticks_move(chip: u8) -> Range<usize> {
    match chip {
        1 => p1::LAST_RED..p1::COUNT,
        2 => 0..0,
        3 => p3::COLOUR_BEFORE..p3::COUNT,
        _ => no_such_chip(chip),
    }
}

/// The largest value of a place.
pub fn largest(chip: u8, place: usize) -> u8 {
    assert!(
        place < place_count(chip),
        "chip {chip} has no place {place}"
    );
    match (chip, place) {
        (1, p1::POSITION) => 2,
        (1, p1::BLINK_COUNT) => 127,
        (1, _) => 255,
        (2, 0..=767 | p2::HELD_RED | p2::HELD_GREEN) => 63,
        (2, p2::POSITION) => 2,
        (2, p2::DIRECTION) => 1,
        (2, _) => 255,
        (3, 0..=79) if place % p3::REGISTER_PLACES >= p3::EXT => 1,
        (3, p3::LOAD_POSITION) => 31,
        (3, p3::HELD_ATTRIBUTES) => 3,
        (3, _) => 15,
        _ => no_such_chip(chip),
    }
}

/// The highest kind byte that a chip's events have.
pub fn highest_kind(chip: u8) -> u8 {
    match chip {
        1..=3 => kind::LOAD,
        _ => no_such_chip(chip),
    }
}

/// The kinds of events that a log of this chip may hold and that the chip refuses
/// whatever their operand (5).
pub fn kinds_not_on(chip: u8) -> &'static [u8] {
    match chip {
        1 => &[kind::LOAD],
        2 => &[kind::VERTICAL, kind::LOAD],
        3 => &[kind::WRITE, kind::READ, kind::VERTICAL],
        _ => no_such_chip(chip),
    }
}

/// The operand bytes that an event of this kind uses, whether or not the chip
/// then refuses the kind.
pub fn used_bytes(chip: u8, kind: u8) -> &'static [usize] {
    match (chip, kind) {
        (1..=3, kind::WRITE | kind::LOAD) => &[0, 1],
        (1..=3, kind::READ) => &[0],
        (1, kind::TICK) => &[0, 1, 2, 3, 4, 5, 6, 7],
        (2, kind::TICK) => &[0, 7],
        (3, kind::TICK) => &[0, 1, 7],
        (1..=3, kind::VERTICAL | kind::SAVE) => &[],
        (1..=3, _) => panic!("chip {chip} has no events of kind {kind}"),
        _ => no_such_chip(chip),
    }
}

/// The bytes of a tick's operand that have undefined bits, and those bits.
pub fn undefined_tick_bits(chip: u8) -> &'static [(usize, u8)] {
    match chip {
        1 => &[(5, 0xE0), (6, 0xE0), (7, 0xFC)],
        2 => &[(7, 0xFE)],
        3 => &[(0, 0xF0), (1, 0xF0), (7, 0xFE)],
        _ => no_such_chip(chip),
    }
}

/// The same of chip 3's loads: DA and DB have 4 bits.
pub const UNDEFINED_LOAD_BITS: [(usize, u8); 2] = [(0, 0xF0), (1, 0xF0)];

pub(crate) fn no_such_chip(chip: u8) -> ! {
    panic!("chip {chip} isn't built")
}
