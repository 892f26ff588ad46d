//! Which chips are built. Every choice between chips goes by [`Built`], so
//! that no chip passes for another.

use crate::chip1;
use crate::chip2;
use crate::chip3;

/// A chip that is built.
#[derive(Clone, Copy, Debug, PartialEq, Eq)]
pub(crate) enum Built {
    /// The TLC34058.
    Chip1,
    /// The HD153129.
    Chip2,
    /// The TMS34070.
    Chip3,
}

/// The chip byte of a chip that isn't built, never one of a built chip.
#[derive(Clone, Copy, Debug, PartialEq, Eq)]
pub struct NotBuilt {
    chip: u8,
}

/// The chip that a chip byte names.
pub(crate) fn named(chip: u8) -> Result<Built, NotBuilt> {
    match chip {
        1 => Ok(Built::Chip1),
        2 => Ok(Built::Chip2),
        3 => Ok(Built::Chip3),
        _ => Err(NotBuilt { chip }),
    }
}

impl Built {
    /// How many places the chip has.
    pub(crate) fn place_count(self) -> usize {
        match self {
            Built::Chip1 => chip1::PLACES,
            Built::Chip2 => chip2::PLACES,
            Built::Chip3 => chip3::PLACES,
        }
    }

    /// The largest value of one of the chip's places.
    pub(crate) fn largest(self, place: usize) -> u8 {
        match self {
            Built::Chip1 => chip1::largest(place),
            Built::Chip2 => chip2::largest(place),
            Built::Chip3 => chip3::largest(place),
        }
    }
}

impl NotBuilt {
    /// The chip byte.
    pub fn chip(self) -> u8 {
        self.chip
    }
}
