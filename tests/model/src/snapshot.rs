//! Snapshots: save, save into a lent buffer, restore.

use crate::built::{named, Built};
use crate::chip1;
use crate::refusal::Refusal;
use crate::state::State;

/// The longest snapshot (chip 1 with no place 0). Every buffer for a snapshot
/// must have this size, whatever it will hold (31).
pub const END_BUFFER_BYTES: usize = 3 + 3 * chip1::PLACES;

/// What a restore gives, as a call of its own.
#[derive(Clone, Debug, PartialEq, Eq)]
pub struct Restored {
    /// The refusal, if any.
    pub refusal: Option<Refusal>,
    /// The state; a fresh chip 1 if refused.
    pub state: State,
}

/// What saving into a lent buffer gives, as a call of its own.
#[derive(Clone, Copy, Debug, PartialEq, Eq)]
pub struct Saved {
    /// The refusal, if any.
    pub refusal: Option<Refusal>,
    /// The snapshot's length; 0 if refused.
    pub length: usize,
}

/// The snapshot of a state; or 21, then 25.
pub fn save(state: &State) -> Result<Vec<u8>, Refusal> {
    state.check()?;
    Ok(snapshot_bytes(state.chip(), &state.places()))
}

/// Exactly the places that aren't 0 are written.
fn snapshot_bytes(chip: u8, places: &[u8]) -> Vec<u8> {
    let mut numbers = Vec::new();
    let mut values = Vec::new();
    for (place, &value) in (0u16..).zip(places) {
        if value != 0 {
            numbers.extend(place.to_le_bytes());
            values.push(value);
        }
    }
    let mut bytes = vec![chip];
    bytes.extend((values.len() as u16).to_le_bytes());
    bytes.extend(numbers);
    bytes.extend(values);
    bytes
}

/// Writes the snapshot at the buffer's start. Looks for 21, 25, then 31; a
/// refused call changes no byte, and bytes past the snapshot never change.
pub fn save_into(state: &State, buffer: &mut [u8]) -> Saved {
    match try_save_into(state, buffer) {
        Ok(length) => Saved {
            refusal: None,
            length,
        },
        Err(refusal) => Saved {
            refusal: Some(refusal),
            length: 0,
        },
    }
}

fn try_save_into(state: &State, buffer: &mut [u8]) -> Result<usize, Refusal> {
    let bytes = save(state)?;
    if buffer.len() < END_BUFFER_BYTES {
        return Err(Refusal::EndBuffer);
    }
    buffer[..bytes.len()].copy_from_slice(&bytes);
    Ok(bytes.len())
}

/// The state that a snapshot gives. A refused one gives a fresh chip 1 beside
/// its refusal.
pub fn restore(bytes: &[u8]) -> Restored {
    match try_restore(bytes) {
        Ok(state) => Restored {
            refusal: None,
            state,
        },
        Err(refusal) => Restored {
            refusal: Some(refusal),
            state: State::Chip1(crate::Chip1::fresh()),
        },
    }
}

/// Refusals 20 to 25.
pub(crate) fn try_restore(bytes: &[u8]) -> Result<State, Refusal> {
    let &[chip, count_low, count_high, ref rest @ ..] = bytes else {
        return Err(Refusal::SnapshotShort);
    };
    let built = named(chip).map_err(|_| Refusal::SnapshotChip)?;
    let count = usize::from(u16::from_le_bytes([count_low, count_high]));
    if count > built.place_count() {
        return Err(Refusal::SnapshotCount);
    }
    if rest.len() != 3 * count {
        return Err(Refusal::SnapshotLength);
    }
    let (numbers, values) = rest.split_at(2 * count);
    let places = restored_places(built, numbers, values)?;
    State::from_places(chip, &places).ok_or(Refusal::SnapshotChip)
}

/// 24 and 25 are looked for together: index by index, 24 first at each.
fn restored_places(chip: Built, numbers: &[u8], values: &[u8]) -> Result<Vec<u8>, Refusal> {
    let mut places = vec![0; chip.place_count()];
    // The first place number that the next one may have.
    let mut lowest = 0;
    for (number, &value) in numbers.chunks_exact(2).zip(values) {
        let place = usize::from(u16::from_le_bytes([number[0], number[1]]));
        if place < lowest || place >= chip.place_count() {
            return Err(Refusal::Place);
        }
        if value == 0 || value > chip.largest(place) {
            return Err(Refusal::Value);
        }
        places[place] = value;
        lowest = place + 1;
    }
    Ok(places)
}
