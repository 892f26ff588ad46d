//! Logs and snapshots as bytes, put together by document 01's rules and not by
//! the model.

use model::Event;

/// A log, right or wrong.
pub fn log_bytes(chip: u8, events: &[Event]) -> Vec<u8> {
    let mut bytes = vec![chip];
    bytes.extend((events.len() as u32).to_le_bytes());
    bytes.extend(events.iter().map(|event| event.kind));
    bytes.extend(events.iter().flat_map(|event| event.operand));
    bytes
}

/// A snapshot of these places and their values, right or wrong.
pub fn snapshot_bytes(chip: u8, pairs: &[(u16, u8)]) -> Vec<u8> {
    let mut bytes = vec![chip];
    bytes.extend((pairs.len() as u16).to_le_bytes());
    bytes.extend(pairs.iter().flat_map(|&(place, _)| place.to_le_bytes()));
    bytes.extend(pairs.iter().map(|&(_, value)| value));
    bytes
}

/// The places of a snapshot and their values, as far as it has them.
pub fn place_values(snapshot: &[u8]) -> Vec<(u16, u8)> {
    let behind = snapshot.get(3..).unwrap_or_default();
    let (numbers, values) = behind.split_at(behind.len() / 3 * 2);
    let numbers = numbers.chunks_exact(2);
    let places = numbers.map(|number| u16::from_le_bytes([number[0], number[1]]));
    places.zip(values.iter().copied()).collect()
}

/// The places that aren't 0.
pub fn nonzero(places: &[u8]) -> Vec<(u16, u8)> {
    let numbered = (0u16..).zip(places.iter().copied());
    numbered.filter(|&(_, value)| value != 0).collect()
}

/// Lowercase digits, two for each byte.
pub fn hexadecimal(bytes: &[u8]) -> String {
    const DIGITS: &[u8; 16] = b"0123456789abcdef";
    let mut text = String::with_capacity(2 * bytes.len());
    for &byte in bytes {
        text.push(DIGITS[usize::from(byte >> 4)].into());
        text.push(DIGITS[usize::from(byte & 15)].into());
    }
    text
}
