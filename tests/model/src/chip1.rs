//! Chip 1, the TLC34058: its MPU port (Tables 1 to 4), colour selection
//! (Table 5), command register (Table 7) and test register (Table 8).

use crate::event::{Answer, Operand, ANSWER_BYTES};
use crate::painting::Painted;
use crate::refusal::Refusal;

/// Palette RAM words, 00 to FF.
const PALETTE_ENTRIES: usize = 256;
/// Palette RAM words and the four overlay registers behind them.
const ENTRIES: usize = PALETTE_ENTRIES + 4;
/// Places of chip 1.
pub(crate) const PLACES: usize = PLACE_LAST_CODES + 3;

const PLACE_ADDR: usize = 780;
const PLACE_ADDR_AB: usize = 781;
const PLACE_RREG: usize = 782;
const PLACE_GREG: usize = 783;
const PLACE_READ_MASK: usize = 784;
const PLACE_BLINK_MASK: usize = 785;
const PLACE_COMMAND: usize = 786;
const PLACE_TEST: usize = 787;
const PLACE_BLINK_COUNT: usize = 788;
const PLACE_LAST_CODES: usize = 789;

/// ADDRa,b counts modulo 3: red, green, blue.
const BLUE: u8 = 2;
/// Vertical periods after which every blink rate has come round.
const BLINK_PERIODS: u8 = 128;
/// The DAC inputs while BLK is low.
const BLACK: [u8; 3] = [0; 3];

/// TR0-TR2: one for each DAC input.
const TEST_INPUTS: u8 = 0b0111;
/// TR3: high for the four LSBs of an input, low for its four MSBs.
const TEST_LSBS: u8 = 0b1000;

/// The state of a TLC34058.
#[derive(Clone, Debug, PartialEq, Eq)]
pub struct Chip1 {
    /// Red, green, blue of the 256 palette RAM words, then of the overlay
    /// registers 0 to 3.
    pub colours: [[u8; 3]; ENTRIES],
    /// ADDR0-7, the internal address register.
    pub addr: u8,
    /// ADDRa,b: 0 red, 1 green, 2 blue.
    pub addr_ab: u8,
    /// RREG, the held red byte of a colour write.
    pub rreg: u8,
    /// GREG, the held green byte of a colour write.
    pub greg: u8,
    /// Control register 04h.
    pub read_mask: u8,
    /// Control register 05h.
    pub blink_mask: u8,
    /// Control register 06h, CR0 in bit 0.
    pub command: u8,
    /// Control register 07h, all bits as written.
    pub test: u8,
    /// Vertical periods counted so far, 0 to 127.
    pub blink_count: u8,
    /// Red, green, blue of the last pixel shown: what the DAC inputs have.
    pub last_codes: [u8; 3],
}

/// What C1, C0 and ADDR0-7 together select (Table 4).
enum Selected {
    Address,
    /// A palette word or an overlay register.
    Colour(usize),
    Control(ControlRegister),
}

enum ControlRegister {
    ReadMask,
    BlinkMask,
    Command,
    Test,
}

impl ControlRegister {
    /// The display looks at every control register but the test register. Their
    /// numbers follow the entries'.
    fn painted(&self) -> Painted {
        match self {
            ControlRegister::ReadMask => Painted::Numbered(260),
            ControlRegister::BlinkMask => Painted::Numbered(261),
            ControlRegister::Command => Painted::Numbered(262),
            ControlRegister::Test => Painted::Nothing,
        }
    }
}

/// One pixel's inputs: P0-P7, OL0 and OL1.
struct PixelInput {
    p: u8,
    ol0: bool,
    ol1: bool,
}

impl Chip1 {
    /// A fresh chip: 0 in every place.
    pub fn fresh() -> Chip1 {
        Chip1 {
            colours: [[0; 3]; ENTRIES],
            addr: 0,
            addr_ab: 0,
            rreg: 0,
            greg: 0,
            read_mask: 0,
            blink_mask: 0,
            command: 0,
            test: 0,
            blink_count: 0,
            last_codes: BLACK,
        }
    }

    /// An MPU write: R/W low, selector 2 x C1 + C0.
    pub(crate) fn write(&mut self, selector: u8, data: u8) -> Result<(), Refusal> {
        match self.select(selector)? {
            Selected::Address => {
                self.addr = data;
                self.addr_ab = 0;
            }
            Selected::Colour(entry) => {
                self.write_colour(entry, data);
                self.next_component();
            }
            Selected::Control(register) => *self.control(register) = data,
        }
        Ok(())
    }

    /// An MPU read: R/W high, selector 2 x C1 + C0.
    pub(crate) fn read(&mut self, selector: u8) -> Result<u8, Refusal> {
        match self.select(selector)? {
            Selected::Address => {
                self.addr_ab = 0;
                Ok(self.addr)
            }
            Selected::Colour(entry) => {
                let data = self.colours[entry][usize::from(self.addr_ab)];
                self.next_component();
                Ok(data)
            }
            Selected::Control(ControlRegister::Test) => Ok(self.read_test()),
            Selected::Control(register) => Ok(*self.control(register)),
        }
    }

    /// Table 4. A selector over 3 is looked for before the address.
    fn select(&self, selector: u8) -> Result<Selected, Refusal> {
        match selector {
            0 => Ok(Selected::Address),
            1 => Ok(Selected::Colour(usize::from(self.addr))),
            2 => self.select_control(),
            3 => self.select_overlay(),
            _ => Err(Refusal::Selector),
        }
    }

    fn select_overlay(&self) -> Result<Selected, Refusal> {
        if self.addr > 3 {
            return Err(Refusal::Address);
        }
        Ok(Selected::Colour(PALETTE_ENTRIES + usize::from(self.addr)))
    }

    fn select_control(&self) -> Result<Selected, Refusal> {
        match self.addr {
            4 => Ok(Selected::Control(ControlRegister::ReadMask)),
            5 => Ok(Selected::Control(ControlRegister::BlinkMask)),
            6 => Ok(Selected::Control(ControlRegister::Command)),
            7 => Ok(Selected::Control(ControlRegister::Test)),
            _ => Err(Refusal::Address),
        }
    }

    fn control(&mut self, register: ControlRegister) -> &mut u8 {
        match register {
            ControlRegister::ReadMask => &mut self.read_mask,
            ControlRegister::BlinkMask => &mut self.blink_mask,
            ControlRegister::Command => &mut self.command,
            ControlRegister::Test => &mut self.test,
        }
    }

    /// Table 8: D0-D3 give TR0-TR3, D4-D7 half of a DAC input.
    fn read_test(&self) -> u8 {
        self.test & (TEST_INPUTS | TEST_LSBS) | self.half_of_input() << 4
    }

    /// The half that TR3 tells of the input that TR0, TR1 or TR2 alone selects; 0
    /// if none of them does, or more than one.
    fn half_of_input(&self) -> u8 {
        let [red, green, blue] = self.last_codes;
        let input = match self.test & TEST_INPUTS {
            0b001 => red,
            0b010 => green,
            0b100 => blue,
            _ => return 0,
        };
        if self.test & TEST_LSBS != 0 {
            input & 0x0F
        } else {
            input >> 4
        }
    }

    /// Red and green wait in RREG and GREG; the blue write cycle adjoins the
    /// three bytes and writes the whole word.
    fn write_colour(&mut self, entry: usize, data: u8) {
        match self.addr_ab {
            0 => self.rreg = data,
            1 => self.greg = data,
            _ => self.colours[entry] = [self.rreg, self.greg, data],
        }
    }

    /// After each colour cycle ADDRa,b moves on; after blue ADDR0-7 too, FFh
    /// to 00h. (An overlay access at 03h leads to 04h by the same step.)
    fn next_component(&mut self) {
        if self.addr_ab == BLUE {
            self.addr_ab = 0;
            self.addr = self.addr.wrapping_add(1);
        } else {
            self.addr_ab += 1;
        }
    }

    /// One vertical period.
    pub(crate) fn vertical_period(&mut self) {
        self.blink_count = (self.blink_count + 1) % BLINK_PERIODS;
    }

    /// One load of four or five pixels, A first. The last one's codes stay at the
    /// DAC inputs.
    pub(crate) fn tick(&mut self, operand: &Operand) -> Result<Answer, Refusal> {
        let [_, _, _, _, _, ol0, ol1, levels] = *operand;
        if ol0 >> 5 != 0 || ol1 >> 5 != 0 || levels >> 2 != 0 {
            return Err(Refusal::UndefinedBits);
        }
        let count = if self.cr(7) { 5 } else { 4 };
        let blk_high = levels & 1 != 0;

        let mut answer = [0; ANSWER_BYTES];
        answer[1] = count;
        answer[2] = levels;
        for i in 0..usize::from(count) {
            let input = PixelInput {
                p: operand[i],
                ol0: ol0 >> i & 1 != 0,
                ol1: ol1 >> i & 1 != 0,
            };
            let codes = self.dac_inputs(&input, blk_high);
            answer[3 + 3 * i..6 + 3 * i].copy_from_slice(&codes);
            self.last_codes = codes;
        }
        Ok(answer)
    }

    /// With BLK low the pixel and overlay inputs are ignored.
    fn dac_inputs(&self, input: &PixelInput, blk_high: bool) -> [u8; 3] {
        if blk_high {
            self.colours[self.colour_selection(input)]
        } else {
            BLACK
        }
    }

    /// Masks, overlay enables and blinking, then Table 5.
    fn colour_selection(&self, input: &PixelInput) -> usize {
        let blink_on = self.blink_on();
        let mut p = input.p & self.read_mask;
        if !blink_on {
            p &= !self.blink_mask;
        }
        let ol0 = input.ol0 && self.cr(0) && (blink_on || !self.cr(2));
        let ol1 = input.ol1 && self.cr(1) && (blink_on || !self.cr(3));

        let overlay = 2 * usize::from(ol1) + usize::from(ol0);
        if overlay == 0 && self.cr(6) {
            usize::from(p)
        } else {
            PALETTE_ENTRIES + overlay
        }
    }

    /// Table 7, CR5 and CR4: the on part comes first in each cycle.
    fn blink_on(&self) -> bool {
        let n = self.blink_count;
        match (self.cr(5), self.cr(4)) {
            (false, false) => n % 64 < 16,
            (false, true) => n % 32 < 16,
            (true, false) => n % 64 < 32,
            (true, true) => n < 64,
        }
    }

    /// Bit n of the command register.
    fn cr(&self, n: u32) -> bool {
        self.command >> n & 1 != 0
    }

    /// What a write paints: a colour write in the blue cycle its entry, a
    /// control write its register. A refused one selects nothing.
    pub(crate) fn painted_by_write(&self, selector: u8) -> Painted {
        match self.select(selector) {
            Ok(Selected::Colour(entry)) if self.addr_ab == BLUE => Painted::Numbered(entry as u16),
            Ok(Selected::Control(register)) => register.painted(),
            Ok(Selected::Colour(_) | Selected::Address) | Err(_) => Painted::Nothing,
        }
    }

    /// Whether a read is of the test register. A refused one selects nothing.
    pub(crate) fn reads_test(&self, selector: u8) -> bool {
        matches!(
            self.select(selector),
            Ok(Selected::Control(ControlRegister::Test))
        )
    }

    /// The list of places.
    pub(crate) fn places(&self) -> Vec<u8> {
        let mut places = self.colours.concat();
        places.extend([self.addr, self.addr_ab, self.rreg, self.greg]);
        places.extend([self.read_mask, self.blink_mask, self.command, self.test]);
        places.push(self.blink_count);
        places.extend(self.last_codes);
        places
    }

    /// The chip with these places. There must be [`PLACES`] of them.
    pub(crate) fn from_places(places: &[u8]) -> Chip1 {
        let mut chip = Chip1::fresh();
        for (entry, colour) in chip.colours.iter_mut().enumerate() {
            colour.copy_from_slice(&places[3 * entry..3 * entry + 3]);
        }
        chip.addr = places[PLACE_ADDR];
        chip.addr_ab = places[PLACE_ADDR_AB];
        chip.rreg = places[PLACE_RREG];
        chip.greg = places[PLACE_GREG];
        chip.read_mask = places[PLACE_READ_MASK];
        chip.blink_mask = places[PLACE_BLINK_MASK];
        chip.command = places[PLACE_COMMAND];
        chip.test = places[PLACE_TEST];
        chip.blink_count = places[PLACE_BLINK_COUNT];
        chip.last_codes.copy_from_slice(&places[PLACE_LAST_CODES..]);
        chip
    }
}

/// The largest value of one of chip 1's places.
pub(crate) fn largest(place: usize) -> u8 {
    match place {
        PLACE_ADDR_AB => 2,
        PLACE_BLINK_COUNT => 127,
        _ => 255,
    }
}
