//! The state of any chip, and its list of places.

use crate::built::{named, Built, NotBuilt};
use crate::chip1::Chip1;
use crate::chip2::Chip2;
use crate::chip3::Chip3;
use crate::refusal::Refusal;

/// A chip's state. It can name a chip that isn't built, and calls on a state
/// look for that first (21). Its values are plain bytes, so a value above its
/// place's largest is possible, and they look for it next (25).
#[derive(Clone, Debug, PartialEq, Eq)]
pub enum State {
    /// A TLC34058.
    Chip1(Chip1),
    /// An HD153129.
    Chip2(Chip2),
    /// A TMS34070.
    Chip3(Chip3),
    /// A chip that isn't built: its chip byte and no places.
    NotBuilt(NotBuilt),
}

impl State {
    /// A fresh chip, or nothing if the chip isn't built.
    pub fn fresh(chip: u8) -> Option<State> {
        match named(chip).ok()? {
            Built::Chip1 => Some(State::Chip1(Chip1::fresh())),
            Built::Chip2 => Some(State::Chip2(Chip2::fresh())),
            Built::Chip3 => Some(State::Chip3(Chip3::fresh())),
        }
    }

    /// The chip byte.
    pub fn chip(&self) -> u8 {
        match self {
            State::Chip1(_) => 1,
            State::Chip2(_) => 2,
            State::Chip3(_) => 3,
            State::NotBuilt(other) => other.chip(),
        }
    }

    /// The values of all places, in the order of their numbers; none for a
    /// chip that isn't built.
    pub fn places(&self) -> Vec<u8> {
        match self {
            State::Chip1(chip) => chip.places(),
            State::Chip2(chip) => chip.places(),
            State::Chip3(chip) => chip.places(),
            State::NotBuilt(_) => Vec::new(),
        }
    }

    /// The state with this chip byte and these places, whatever their values;
    /// nothing if the number of places isn't the chip's. A chip that isn't
    /// built has 0 places.
    pub fn from_places(chip: u8, places: &[u8]) -> Option<State> {
        if State::place_count(chip).unwrap_or(0) != places.len() {
            return None;
        }
        Some(match named(chip) {
            Ok(Built::Chip1) => State::Chip1(Chip1::from_places(places)),
            Ok(Built::Chip2) => State::Chip2(Chip2::from_places(places)),
            Ok(Built::Chip3) => State::Chip3(Chip3::from_places(places)),
            Err(other) => State::NotBuilt(other),
        })
    }

    /// How many places a chip has, or nothing if the chip isn't built.
    pub fn place_count(chip: u8) -> Option<usize> {
        Some(named(chip).ok()?.place_count())
    }

    /// The chip, or refusal 21 if it isn't built.
    pub(crate) fn built(&self) -> Result<Built, Refusal> {
        match self {
            State::Chip1(_) => Ok(Built::Chip1),
            State::Chip2(_) => Ok(Built::Chip2),
            State::Chip3(_) => Ok(Built::Chip3),
            State::NotBuilt(_) => Err(Refusal::SnapshotChip),
        }
    }

    /// What every call on a state looks for first: refusal 21 if the chip
    /// isn't built, then 25 if a value is above its place's largest. Gives the
    /// chip.
    pub(crate) fn check(&self) -> Result<Built, Refusal> {
        let chip = self.built()?;
        let mut places = self.places().into_iter().enumerate();
        if places.any(|(place, value)| value > chip.largest(place)) {
            return Err(Refusal::Value);
        }
        Ok(chip)
    }
}
