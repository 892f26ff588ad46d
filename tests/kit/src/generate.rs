//! Accepted states, snapshots and events, at random.

use crate::bytes::{nonzero, snapshot_bytes};
use crate::chips::{c, not_built, other_chips, p1, p2, p3, rs, CHIPS, UNDEFINED_LOAD_BITS};
use crate::chips::{counter_places, largest, no_such_chip, place_count, undefined_tick_bits};
use crate::events::{load, read, save, tick, vertical, write};
use crate::random::Random;
use crate::shuffle::riffle;
use model::{Event, State};

/// Loads that fill all registers of the TMS34070.
const TABLE_LOADS: usize = 2 * p3::REGISTERS;

/// Registers of the TLC34058 that the display looks at, and its test register.
const CONTROL_ADDRESSES: [u8; 4] = [4, 5, 6, TEST_ADDRESS];

/// The TLC34058's test register.
const TEST_ADDRESS: u8 = 7;

/// What it shows halves of codes with: red, green, blue, the high halves first.
const TEST_SELECTIONS: [u8; 6] = [0x01, 0x02, 0x04, 0x09, 0x0A, 0x0C];

impl Random {
    /// A built chip.
    pub fn chip(&mut self) -> u8 {
        self.pick(&CHIPS)
    }

    /// Another built chip.
    pub fn other_chip(&mut self, chip: u8) -> u8 {
        self.pick(&other_chips(chip))
    }

    /// A chip byte that no chip has: the first, the last or any of them, often
    /// the one that follows the built chips.
    pub fn chip_not_built(&mut self) -> u8 {
        let bytes: Vec<u8> = not_built().collect();
        let follows = bytes.iter().position(|&byte| byte > CHIPS[CHIPS.len() - 1]);
        match follows {
            Some(index) if self.one_in(4) => bytes[index],
            _ => bytes[self.index(bytes.len())],
        }
    }

    /// An accepted state's places: empty, thin or full, lively registers.
    pub fn places(&mut self, chip: u8) -> Vec<u8> {
        let fill = self.pick(&[0, 3, 50, 100]);
        let mut places: Vec<u8> = (0..place_count(chip))
            .map(|place| self.value(chip, place, fill))
            .collect();
        for &place in counter_places(chip) {
            places[place] = self.counter(largest(chip, place));
        }
        self.lively_registers(chip, &mut places);
        places
    }

    /// A counter's value. A counter of a whole byte is an address.
    fn counter(&mut self, most: u8) -> u8 {
        if most == 255 {
            self.address()
        } else {
            self.index(usize::from(most) + 1) as u8
        }
    }

    /// An accepted state's places, none of them 0; some are largest.
    pub fn full_places(&mut self, chip: u8) -> Vec<u8> {
        (0..place_count(chip))
            .map(|place| {
                let most = largest(chip, place);
                let between = 1 + self.up_to(most - 1);
                self.pick(&[1, most, between])
            })
            .collect()
    }

    fn value(&mut self, chip: u8, place: usize, fill: usize) -> u8 {
        if self.below(100) < fill {
            self.up_to(largest(chip, place))
        } else {
            0
        }
    }

    /// Often, registers with which ticks show colours, counts at the edges of the
    /// blink parts, and a last pixel.
    fn lively_registers(&mut self, chip: u8, places: &mut [u8]) {
        let lively = self.one_in(2);
        match chip {
            1 => {
                if lively {
                    places[p1::READ_MASK] = self.pick(&[255, 255, 0x3C]);
                    places[p1::BLINK_MASK] = self.byte();
                    places[p1::COMMAND] = self.pick(&[0x40, 0xC3, 0x47, 0xFF, 0x7F, 0xDF]);
                }
                if self.one_in(3) {
                    self.last_pixel(places);
                }
                if self.one_in(2) {
                    let edges = [0, 15, 16, 31, 32, 47, 48, 63, 64, 126, 127];
                    places[p1::BLINK_COUNT] = self.pick(&edges);
                }
            }
            2 => {
                if lively {
                    places[p2::DIRECTION] = self.up_to(1);
                    places[p2::MASK] = self.pick(&[255, 255, 0xAD, 0x0F]);
                }
            }
            3 => {
                if lively {
                    self.repeating_registers(places);
                }
            }
            _ => no_such_chip(chip),
        }
    }

    /// Chip 1: codes of a last pixel, and a test register that may show one.
    fn last_pixel(&mut self, places: &mut [u8]) {
        places[p1::TEST] = self.test_byte();
        for code in &mut places[p1::LAST_RED..p1::COUNT] {
            *code = self.byte();
        }
    }

    /// A byte for chip 1's test register, most often one that shows a code.
    fn test_byte(&mut self) -> u8 {
        if self.one_in(4) {
            self.byte()
        } else {
            self.byte() & 0xF0 | self.pick(&TEST_SELECTIONS)
        }
    }

    /// Chip 3: colours that tell registers apart, a colour before that isn't
    /// black, and from no register with REP 1 to all of them.
    fn repeating_registers(&mut self, places: &mut [u8]) {
        let repeating = self.pick(&[0, 25, 75, 90, 100]);
        let (registers, others) = places.split_at_mut(p3::LOAD_POSITION);
        for register in registers.chunks_exact_mut(p3::REGISTER_PLACES) {
            for colour in &mut register[..p3::EXT] {
                *colour = self.up_to(15);
            }
            register[p3::EXT] = self.up_to(1);
            register[p3::REP] = u8::from(self.below(100) < repeating);
        }
        for colour in &mut others[p3::COLOUR_BEFORE - p3::LOAD_POSITION..] {
            *colour = 1 + self.up_to(14);
        }
    }

    pub fn state(&mut self, chip: u8) -> State {
        let places = self.places(chip);
        State::from_places(chip, &places).expect("a built chip and its places")
    }

    pub fn snapshot(&mut self, chip: u8) -> Vec<u8> {
        let places = self.places(chip);
        snapshot_bytes(chip, &nonzero(&places))
    }

    /// Addresses near the edges come often.
    pub fn address(&mut self) -> u8 {
        if self.one_in(4) {
            self.byte()
        } else {
            self.pick(&[0, 1, 2, 3, 4, 5, 6, 7, 8, 254, 255])
        }
    }

    fn selector(&mut self) -> u8 {
        match self.below(10) {
            0 => self.pick(&[4, 5, 6, 7, 128, 255]),
            1 | 2 => 0,
            3..=5 => 1,
            6 | 7 => 2,
            _ => 3,
        }
    }

    /// An access that a log of this chip may hold, now and then of a kind that
    /// the chip refuses.
    pub fn access_on(&mut self, chip: u8) -> Event {
        match chip {
            1 | 2 if self.one_in(30) => self.load(),
            1 | 2 => self.access(),
            3 if self.one_in(10) => self.access(),
            3 if self.one_in(12) => self.odd_load(),
            3 => self.load(),
            _ => no_such_chip(chip),
        }
    }

    /// A load with no undefined bit.
    pub fn load(&mut self) -> Event {
        load(self.pins(), self.pins())
    }

    /// A load that gives its register REP if it is the first of the two.
    pub fn repeating_load(&mut self) -> Event {
        load(self.pins(), self.pins() | 2)
    }

    /// A load with an undefined bit set.
    pub fn odd_load(&mut self) -> Event {
        let mut load = self.load();
        let (byte, bits) = self.pick(&UNDEFINED_LOAD_BITS);
        load.operand[byte] |= self.bit_of(bits);
        load
    }

    /// What DA or DB may have: 4 bits, often all of them 1.
    fn pins(&mut self) -> u8 {
        if self.one_in(6) {
            15
        } else {
            self.up_to(15)
        }
    }

    /// A write or a read.
    pub fn access(&mut self) -> Event {
        let selector = self.selector();
        if self.one_in(3) {
            read(selector)
        } else if selector == 0 || selector == 3 {
            write(selector, self.address())
        } else {
            write(selector, self.byte())
        }
    }

    /// One access, or some that belong together: a whole colour, read or
    /// written, a register that the display looks at, the test register, or loads.
    pub fn burst(&mut self, chip: u8) -> Vec<Event> {
        match chip {
            1 | 2 => self.port_burst(chip),
            3 => self.load_burst(),
            _ => no_such_chip(chip),
        }
    }

    /// One access; a register's two loads, sometimes with another access between
    /// them that is refused; or as many loads as fill the table, sometimes with
    /// REP in every register.
    fn load_burst(&mut self) -> Vec<Event> {
        match self.below(80) {
            0 => (0..TABLE_LOADS).map(|_| self.load()).collect(),
            1 => (0..TABLE_LOADS).map(|_| self.repeating_load()).collect(),
            2..=20 => vec![self.load(), self.load()],
            21..=30 => vec![self.repeating_load(), self.load()],
            31..=34 => vec![self.load(), self.odd_load(), self.load()],
            35..=36 => vec![self.load(), self.access(), self.load()],
            _ => vec![self.access_on(3)],
        }
    }

    fn port_burst(&mut self, chip: u8) -> Vec<Event> {
        match self.below(9) {
            0 | 1 => {
                let triple = self.colour_write(chip);
                self.interrupted(triple)
            }
            2 => {
                let triple = self.colour_read(chip);
                self.interrupted(triple)
            }
            3 | 4 => self.register_write(chip),
            _ => vec![self.access_on(chip)],
        }
    }

    /// Sometimes with another access in the middle that sets no address.
    fn interrupted(&mut self, mut burst: Vec<Event>) -> Vec<Event> {
        if self.one_in(3) {
            let between = match self.below(5) {
                0 => write(2, self.byte()),
                _ => read(self.up_to(3)),
            };
            let at = 1 + self.below(burst.len() - 1);
            burst.insert(at, between);
        }
        burst
    }

    /// An address of a colour, often one that a tick shows and that both
    /// palette and overlay have.
    fn colour_address(&mut self) -> u8 {
        if self.one_in(3) {
            self.address()
        } else {
            self.pick(&[0, 1, 2, 3, 255])
        }
    }

    fn colour_write(&mut self, chip: u8) -> Vec<Event> {
        let (address, colour) = match chip {
            1 => (c::ADDRESS, self.pick(&[c::PALETTE, c::OVERLAY])),
            2 => (rs::WRITE_MODE, rs::CLT),
            _ => no_such_chip(chip),
        };
        let mut burst = vec![write(address, self.colour_address())];
        burst.extend((0..3).map(|_| write(colour, self.byte())));
        burst
    }

    fn colour_read(&mut self, chip: u8) -> Vec<Event> {
        let (address, colour) = match chip {
            1 => (c::ADDRESS, self.pick(&[c::PALETTE, c::OVERLAY])),
            2 => (rs::READ_MODE, rs::CLT),
            _ => no_such_chip(chip),
        };
        let mut burst = vec![write(address, self.colour_address())];
        burst.extend((0..=self.below(3)).map(|_| read(colour)));
        burst
    }

    fn register_write(&mut self, chip: u8) -> Vec<Event> {
        match chip {
            1 => match self.pick(&CONTROL_ADDRESSES) {
                TEST_ADDRESS => self.test_register_use(),
                address => {
                    let byte = self.pick(&[0x00, 0x40, 0xC3, 0x0F, 0xFF, 0x70]);
                    vec![write(c::ADDRESS, address), write(c::CONTROL, byte)]
                }
            },
            2 => vec![write(rs::PIXEL_MASK, self.byte())],
            _ => no_such_chip(chip),
        }
    }

    /// A write at 07h and reads there.
    fn test_register_use(&mut self) -> Vec<Event> {
        let byte = self.test_byte();
        let mut burst = vec![write(c::ADDRESS, TEST_ADDRESS), write(c::CONTROL, byte)];
        burst.extend((0..=self.below(3)).map(|_| read(c::CONTROL)));
        burst
    }

    /// A tick with no undefined bit.
    pub fn tick(&mut self, chip: u8) -> Event {
        let mut operand = [0; 8];
        match chip {
            1 => {
                for pixel in &mut operand[..5] {
                    *pixel = self.address();
                }
                operand[5] = self.byte() & 31;
                operand[6] = self.byte() & 31;
                operand[7] = self.pick(&[1, 3, 1, 3, 0, 2]);
            }
            2 => {
                operand[0] = self.address();
                operand[7] = self.pick(&[1, 1, 1, 0]);
            }
            3 => {
                operand[0] = self.pins();
                operand[1] = self.pins();
                operand[7] = self.pick(&[1, 1, 1, 1, 1, 0]);
            }
            _ => no_such_chip(chip),
        }
        tick(operand)
    }

    /// A tick with an undefined bit set.
    pub fn odd_tick(&mut self, chip: u8) -> Event {
        let mut tick = self.tick(chip);
        let (byte, bits) = self.pick(undefined_tick_bits(chip));
        tick.operand[byte] |= self.bit_of(bits);
        tick
    }

    /// A tick or a vertical period; some ticks have an undefined bit set.
    pub fn display(&mut self, chip: u8) -> Event {
        if self.one_in(vertical_periods(chip)) {
            vertical()
        } else if self.one_in(12) {
            self.odd_tick(chip)
        } else {
            self.tick(chip)
        }
    }

    /// Any event that a log of this chip may hold.
    pub fn event(&mut self, chip: u8) -> Event {
        match self.below(10) {
            0..=5 => self.access_on(chip),
            6..=8 => self.display(chip),
            _ => save(),
        }
    }

    /// `count` events of every kind that a log of this chip may hold, some of
    /// which belong together.
    pub fn events(&mut self, chip: u8, count: usize) -> Vec<Event> {
        let mut events = Vec::new();
        while events.len() < count {
            match self.below(10) {
                0..=5 => events.extend(self.burst(chip)),
                6..=8 => events.push(self.display(chip)),
                _ => events.push(save()),
            }
        }
        events.truncate(count);
        events
    }

    /// `count` accesses and display events, two accesses to each display
    /// event, in a random order.
    pub fn events_without_saves(&mut self, chip: u8, count: usize) -> Vec<Event> {
        let mut accesses = Vec::new();
        while 3 * accesses.len() < 2 * count {
            accesses.extend(self.burst(chip));
        }
        accesses.truncate(2 * count / 3);
        let displays: Vec<Event> = (accesses.len()..count)
            .map(|_| self.display(chip))
            .collect();
        riffle(self, &accesses, &displays)
    }
}

/// One display event in this many is a vertical period. Chip 3 refuses them, and
/// its ticks are worth more.
fn vertical_periods(chip: u8) -> usize {
    match chip {
        1 | 2 => 4,
        3 => 10,
        _ => no_such_chip(chip),
    }
}
