//! Chip 3, the TMS34070: the registers of its colour lookup table, how they are
//! loaded, and the attribute bits REP and EXT.

use crate::event::{Answer, Operand, ANSWER_BYTES};
use crate::painting::Painted;
use crate::refusal::Refusal;

/// Registers of the colour lookup table.
const REGISTERS: usize = 16;
/// Places of a register: red, green, blue, EXT, REP.
const REGISTER_PLACES: usize = 5;
/// Loads of a register: its left half, then its right half.
const HALVES: u8 = 2;
/// Loads that fill the whole table.
const LOADS: u8 = 32;
/// Places of chip 3.
pub(crate) const PLACES: usize = 86;

const PLACE_LOAD_POSITION: usize = 80;
const PLACE_HELD_RED: usize = 81;
const PLACE_HELD_ATTRIBUTES: usize = 82;
const PLACE_COLOUR_BEFORE: usize = 83;

/// DA3-DA0 and DB3-DB0 have 4 bits each, and so have the DACs.
const FOUR_BITS: u8 = 15;
/// EXT and REP where they share a byte.
const ATTRIBUTES: u8 = 3;
/// The pixels of a tick.
const PIXELS: u8 = 2;
/// What the DACs get while DATEN is low.
const BLACK: [u8; 3] = [0; 3];

/// One register of the colour lookup table.
#[derive(Clone, Copy, Debug, PartialEq, Eq)]
pub struct Register {
    /// Red, green, blue, 4 bits each.
    pub colour: [u8; 3],
    /// EXT, the external pixel attribute.
    pub ext: u8,
    /// REP, the repeat colour command.
    pub rep: u8,
}

/// The state of a TMS34070.
#[derive(Clone, Debug, PartialEq, Eq)]
pub struct Chip3 {
    /// The colour lookup table.
    pub registers: [Register; REGISTERS],
    /// Which of the 32 loads comes next: 2 x register, and 1 more for its
    /// second.
    pub load_position: u8,
    /// Red of the register whose second load is to come.
    pub held_red: u8,
    /// EXT + 2 x REP of that register.
    pub held_attributes: u8,
    /// The colour of the pixel shown before: what the latches at the DAC inputs
    /// have.
    pub colour_before: [u8; 3],
}

impl Chip3 {
    /// A fresh chip: 0 in every place.
    pub fn fresh() -> Chip3 {
        let empty = Register {
            colour: BLACK,
            ext: 0,
            rep: 0,
        };
        Chip3 {
            registers: [empty; REGISTERS],
            load_position: 0,
            held_red: 0,
            held_attributes: 0,
            colour_before: BLACK,
        }
    }

    /// One load: what DA3-DA0 and DB3-DB0 have in one CLKOUT period.
    pub(crate) fn load(&mut self, da: u8, db: u8) -> Result<(), Refusal> {
        check_pins(da, db)?;
        if self.at_second_load() {
            self.store(da, db);
        } else {
            self.held_red = da;
            self.held_attributes = db & ATTRIBUTES;
        }
        self.load_position = (self.load_position + 1) % LOADS;
        Ok(())
    }

    fn at_second_load(&self) -> bool {
        self.load_position % HALVES == 1
    }

    /// The second load stores the whole register. The held values stay.
    fn store(&mut self, green: u8, blue: u8) {
        let register = usize::from(self.load_position / HALVES);
        self.registers[register] = Register {
            colour: [self.held_red, green, blue],
            ext: self.held_attributes & 1,
            rep: self.held_attributes >> 1,
        };
    }

    /// Two pixels, DA and then DB. The colour of DB stays as the colour before.
    pub(crate) fn tick(&mut self, operand: &Operand) -> Result<Answer, Refusal> {
        let (da, db, daten) = (operand[0], operand[1], operand[7]);
        check_pins(da, db)?;
        if daten > 1 {
            return Err(Refusal::UndefinedBits);
        }
        let mut answer = [0; ANSWER_BYTES];
        answer[1] = PIXELS;
        if daten == 0 {
            self.colour_before = BLACK;
            return Ok(answer);
        }
        answer[2] = daten | self.ext_of(da) << 1 | self.ext_of(db) << 2;
        answer[3..6].copy_from_slice(&self.show(da));
        answer[6..9].copy_from_slice(&self.show(db));
        Ok(answer)
    }

    /// XAT has the selected register's own EXT, whatever its REP.
    fn ext_of(&self, pixel: u8) -> u8 {
        self.registers[usize::from(pixel)].ext
    }

    /// The DAC inputs for one pixel: REP 0 latches the register's colour, REP 1
    /// leaves the latches as they are.
    fn show(&mut self, pixel: u8) -> [u8; 3] {
        let register = self.registers[usize::from(pixel)];
        if register.rep == 0 {
            self.colour_before = register.colour;
        }
        self.colour_before
    }

    /// What a load paints if it isn't refused: a register changes with its second
    /// load.
    pub(crate) fn painted_by_load(&self) -> Painted {
        if self.at_second_load() {
            Painted::Unnumbered
        } else {
            Painted::Nothing
        }
    }

    /// The list of places.
    pub(crate) fn places(&self) -> Vec<u8> {
        let mut places = Vec::new();
        for register in &self.registers {
            places.extend(register.colour);
            places.extend([register.ext, register.rep]);
        }
        places.extend([self.load_position, self.held_red, self.held_attributes]);
        places.extend(self.colour_before);
        places
    }

    /// The chip with these places. There must be 86 of them.
    pub(crate) fn from_places(places: &[u8]) -> Chip3 {
        let mut chip = Chip3::fresh();
        let parts = places.chunks_exact(REGISTER_PLACES);
        for (register, part) in chip.registers.iter_mut().zip(parts) {
            register.colour.copy_from_slice(&part[..3]);
            register.ext = part[3];
            register.rep = part[4];
        }
        chip.load_position = places[PLACE_LOAD_POSITION];
        chip.held_red = places[PLACE_HELD_RED];
        chip.held_attributes = places[PLACE_HELD_ATTRIBUTES];
        chip.colour_before
            .copy_from_slice(&places[PLACE_COLOUR_BEFORE..]);
        chip
    }
}

/// Refusal 4 for more than the pins can have, in a load or a tick.
fn check_pins(da: u8, db: u8) -> Result<(), Refusal> {
    if da > FOUR_BITS || db > FOUR_BITS {
        return Err(Refusal::UndefinedBits);
    }
    Ok(())
}

/// The largest value of one of chip 3's places.
pub(crate) fn largest(place: usize) -> u8 {
    match place {
        PLACE_LOAD_POSITION => LOADS - 1,
        PLACE_HELD_ATTRIBUTES => ATTRIBUTES,
        // EXT and REP of a register.
        _ if place < PLACE_LOAD_POSITION && place % REGISTER_PLACES > 2 => 1,
        // Colours of the registers, held red, the colour before.
        _ => FOUR_BITS,
    }
}
