//! Chip 2, the HD153129: register selection (Table 2), the CLT's write and
//! read modes, the pixel mask register (Table 3) and its one pixel.

use crate::event::{Answer, Operand, ANSWER_BYTES};
use crate::painting::Painted;
use crate::refusal::Refusal;

/// Entries of the CLT.
pub(crate) const ENTRIES: usize = 256;
/// Places of chip 2.
pub(crate) const PLACES: usize = 774;

const PLACE_ADDRESS: usize = 768;
const PLACE_POSITION: usize = 769;
const PLACE_DIRECTION: usize = 770;
const PLACE_HELD_RED: usize = 771;
const PLACE_HELD_GREEN: usize = 772;
const PLACE_PIXEL_MASK: usize = 773;

/// Colours come through D5 to D0.
pub(crate) const COLOUR_BITS: u8 = 0x3F;
/// The third of R, G, B.
const BLUE: u8 = 2;
/// Direction after an address write with RS1, RS0 = 0, 0.
const DIRECTION_WRITE: u8 = 0;
/// Direction after an address write with RS1, RS0 = 1, 1.
const DIRECTION_READ: u8 = 1;

/// The state of an HD153129.
#[derive(Clone, Debug, PartialEq, Eq)]
pub struct Chip2 {
    /// Red, green, blue of the 256 CLT entries, 6 bits each.
    pub clt: [[u8; 3]; ENTRIES],
    /// The address register.
    pub address: u8,
    /// Which of R, G, B comes next: 0 red, 1 green, 2 blue.
    pub position: u8,
    /// 0: the address register is in write mode. 1: in read mode.
    pub direction: u8,
    /// The red byte in the RGB register for writing.
    pub held_red: u8,
    /// The green byte in the RGB register for writing.
    pub held_green: u8,
    /// The pixel mask register.
    pub pixel_mask: u8,
}

impl Chip2 {
    /// A fresh chip: 0 in every place.
    pub fn fresh() -> Chip2 {
        Chip2 {
            clt: [[0; 3]; ENTRIES],
            address: 0,
            position: 0,
            direction: DIRECTION_WRITE,
            held_red: 0,
            held_green: 0,
            pixel_mask: 0,
        }
    }

    /// A write with the selector 2 x RS1 + RS0.
    pub(crate) fn write(&mut self, selector: u8, data: u8) -> Result<(), Refusal> {
        match selector {
            0 => self.set_address(data, DIRECTION_WRITE),
            1 => self.write_colour(data)?,
            2 => self.pixel_mask = data,
            // In read mode the register is already one ahead of the entry
            // that the RGB register for reading was filled from.
            3 => self.set_address(data.wrapping_add(1), DIRECTION_READ),
            _ => return Err(Refusal::Selector),
        }
        Ok(())
    }

    /// A read with the selector 2 x RS1 + RS0.
    pub(crate) fn read(&mut self, selector: u8) -> Result<u8, Refusal> {
        match selector {
            0 | 3 => Ok(self.address),
            1 => self.read_colour(),
            2 => Ok(self.pixel_mask),
            _ => Err(Refusal::Selector),
        }
    }

    fn set_address(&mut self, address: u8, direction: u8) {
        self.address = address;
        self.position = 0;
        self.direction = direction;
    }

    fn write_colour(&mut self, data: u8) -> Result<(), Refusal> {
        if self.direction != DIRECTION_WRITE {
            return Err(Refusal::Direction);
        }
        let data = data & COLOUR_BITS;
        match self.position {
            0 => self.held_red = data,
            1 => self.held_green = data,
            _ => self.clt[usize::from(self.address)] = [self.held_red, self.held_green, data],
        }
        self.next_component();
        Ok(())
    }

    fn read_colour(&mut self) -> Result<u8, Refusal> {
        if self.direction != DIRECTION_READ {
            return Err(Refusal::Direction);
        }
        let entry = self.address.wrapping_sub(1);
        let data = self.clt[usize::from(entry)][usize::from(self.position)];
        self.next_component();
        Ok(data)
    }

    fn next_component(&mut self) {
        if self.position == BLUE {
            self.position = 0;
            self.address = self.address.wrapping_add(1);
        } else {
            self.position += 1;
        }
    }

    /// One pixel. The state doesn't change.
    pub(crate) fn tick(&self, operand: &Operand) -> Result<Answer, Refusal> {
        let (pixel, level) = (operand[0], operand[7]);
        if level > 1 {
            return Err(Refusal::UndefinedBits);
        }
        let mut answer = [0; ANSWER_BYTES];
        answer[1] = 1;
        answer[2] = level;
        if level == 1 {
            let entry = pixel & self.pixel_mask;
            answer[3..6].copy_from_slice(&self.clt[usize::from(entry)]);
        }
        Ok(answer)
    }

    /// What a write paints if it isn't refused: the blue byte of a colour its
    /// entry, a mask write the pixel mask register, which is numbered as chip 1's
    /// read mask is.
    pub(crate) fn painted_by_write(&self, selector: u8) -> Painted {
        match selector {
            1 if self.position == BLUE => Painted::Numbered(u16::from(self.address)),
            2 => Painted::Numbered(260),
            _ => Painted::Nothing,
        }
    }

    /// The list of places.
    pub(crate) fn places(&self) -> Vec<u8> {
        let mut places = self.clt.concat();
        places.extend([self.address, self.position, self.direction]);
        places.extend([self.held_red, self.held_green, self.pixel_mask]);
        places
    }

    /// The chip with these places. There must be 774 of them.
    pub(crate) fn from_places(places: &[u8]) -> Chip2 {
        let mut chip = Chip2::fresh();
        for (entry, colour) in chip.clt.iter_mut().enumerate() {
            colour.copy_from_slice(&places[3 * entry..3 * entry + 3]);
        }
        chip.address = places[PLACE_ADDRESS];
        chip.position = places[PLACE_POSITION];
        chip.direction = places[PLACE_DIRECTION];
        chip.held_red = places[PLACE_HELD_RED];
        chip.held_green = places[PLACE_HELD_GREEN];
        chip.pixel_mask = places[PLACE_PIXEL_MASK];
        chip
    }
}

/// The largest value of one of chip 2's places.
pub(crate) fn largest(place: usize) -> u8 {
    match place {
        PLACE_ADDRESS | PLACE_PIXEL_MASK => 255,
        PLACE_POSITION => 2,
        PLACE_DIRECTION => 1,
        // CLT entries and held bytes.
        _ => COLOUR_BITS,
    }
}
