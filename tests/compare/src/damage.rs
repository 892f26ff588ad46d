//! Damage: one fault of each refusal number put into bytes that were accepted.
//! Later damage may hide earlier damage, so the model says what is refused.

use crate::case::Case;
use kit::{highest_kind, largest, log_bytes, nonzero, place_count, save, snapshot_bytes};
use kit::{used_bytes, Random, CHIPS};
use model::{Event, Refusal, MOST_EVENTS};

/// Headers of a snapshot and of a log.
const SNAPSHOT_HEADER: usize = 3;
const LOG_HEADER: usize = 5;

/// The faults that a snapshot can have.
pub const SNAPSHOT_FAULTS: [Refusal; 6] = [
    Refusal::SnapshotShort,
    Refusal::SnapshotChip,
    Refusal::SnapshotCount,
    Refusal::SnapshotLength,
    Refusal::Place,
    Refusal::Value,
];

/// The faults that a log can have.
pub const LOG_FAULTS: [Refusal; 6] = [
    Refusal::LogShort,
    Refusal::LogChip,
    Refusal::LogCount,
    Refusal::LogLength,
    Refusal::Kind,
    Refusal::UnusedByte,
];

/// A snapshot with one of the `SNAPSHOT_FAULTS`.
pub fn damaged_snapshot(random: &mut Random, chip: u8, fault: Refusal) -> Vec<u8> {
    let places = random.places(chip);
    let mut pairs = nonzero(&places);
    if pairs.is_empty() {
        pairs.push((7, 1));
    }
    match fault {
        Refusal::Place => damage_place(random, chip, &mut pairs),
        Refusal::Value => damage_value(random, chip, &mut pairs),
        _ => {}
    }
    let mut bytes = snapshot_bytes(chip, &pairs);
    match fault {
        Refusal::SnapshotShort => bytes.truncate(random.below(SNAPSHOT_HEADER)),
        Refusal::SnapshotChip => bytes[0] = random.chip_not_built(),
        Refusal::SnapshotCount => damage_snapshot_count(random, chip, &mut bytes),
        Refusal::SnapshotLength => damage_length(random, &mut bytes, SNAPSHOT_HEADER),
        Refusal::Place | Refusal::Value => {}
        _ => panic!("{fault:?} is no fault of a snapshot"),
    }
    bytes
}

/// A count over the places of the chip, or of every chip, its length right or
/// not.
fn damage_snapshot_count(random: &mut Random, chip: u8, bytes: &mut Vec<u8>) {
    let places = place_count(chip) as u16;
    let most = CHIPS.into_iter().map(place_count).max().unwrap_or(0) as u16;
    let count = random.pick(&[places + 1, places + 2, most + 1, most.max(1023) + 1, 0xFFFF]);
    bytes[1..SNAPSHOT_HEADER].copy_from_slice(&count.to_le_bytes());
    if count < u16::MAX && random.one_in(2) {
        bytes.resize(SNAPSHOT_HEADER + 3 * usize::from(count), 1);
    }
}

/// Bytes cut off or added behind a header of this many bytes.
pub fn damage_length(random: &mut Random, bytes: &mut Vec<u8>, header: usize) {
    let longer = bytes.len() + random.pick(&[1, 2, 3, 8, 9]);
    if random.one_in(2) || bytes.len() == header {
        bytes.resize(longer, random.pick(&[0, 1]));
    } else {
        let fewest = header.max(bytes.len().saturating_sub(9));
        let cut = random.pick(&[bytes.len() - 1, fewest]);
        bytes.truncate(cut);
    }
}

/// A place outside the chip, the one before again, or a falling one.
fn damage_place(random: &mut Random, chip: u8, pairs: &mut [(u16, u8)]) {
    let index = random.index(pairs.len());
    let outside = place_count(chip) as u16;
    if index > 0 && random.one_in(2) {
        let before = pairs[index - 1].0;
        pairs[index].0 = before - random.below(usize::from(before).min(2) + 1) as u16;
    } else {
        pairs[index].0 = random.pick(&[outside, outside + 1, outside.max(0x0400), 0xFFFF]);
    }
}

/// A value 0, or the first above the largest.
fn damage_value(random: &mut Random, chip: u8, pairs: &mut [(u16, u8)]) {
    let index = random.index(pairs.len());
    let most = largest(chip, usize::from(pairs[index].0));
    let too_large = if most < 255 { most + 1 } else { 0 };
    pairs[index].1 = random.pick(&[0, too_large, too_large]);
    if most < 255 && random.one_in(4) {
        pairs[index].1 = 255;
    }
}

/// A log with one of the `LOG_FAULTS`.
pub fn damaged_log(random: &mut Random, chip: u8, fault: Refusal) -> Vec<u8> {
    let count = 1 + random.below(12);
    let mut events = random.events(chip, count);
    match fault {
        Refusal::Kind => damage_kind(random, chip, &mut events),
        Refusal::UnusedByte => damage_operand(random, chip, &mut events),
        _ => {}
    }
    let mut bytes = log_bytes(chip, &events);
    match fault {
        Refusal::LogShort => bytes.truncate(random.below(LOG_HEADER)),
        Refusal::LogChip => bytes[0] = random.chip_not_built(),
        Refusal::LogCount => damage_log_count(random, &mut bytes),
        Refusal::LogLength => damage_length(random, &mut bytes, LOG_HEADER),
        Refusal::Kind | Refusal::UnusedByte => {}
        _ => panic!("{fault:?} is no fault of a log"),
    }
    bytes
}

/// A count over the limit, its length right or not.
fn damage_log_count(random: &mut Random, bytes: &mut Vec<u8>) {
    let most = MOST_EVENTS as u32;
    // The low half of each larger one but the last would be accepted by itself.
    let large = [0x1_0001, 0x0100_0001, 0x1_0000 + most, u32::MAX];
    let near = [most + 1, most + 2, 0x2000];
    let is_near = random.one_in(2);
    let count = random.pick(if is_near { &near } else { &large });
    bytes[1..LOG_HEADER].copy_from_slice(&count.to_le_bytes());
    if is_near && random.one_in(4) {
        bytes.resize(LOG_HEADER + 9 * count as usize, 0);
    }
}

/// A kind that the chip doesn't have.
pub fn damage_kind(random: &mut Random, chip: u8, events: &mut [Event]) {
    let index = random.index(events.len());
    let highest = highest_kind(chip);
    events[index].kind = random.pick(&[highest + 1, highest + 2, highest + 3, 128, 255]);
}

/// One bit set in an operand byte that the event doesn't use. One that uses
/// all its bytes becomes a save.
pub fn damage_operand(random: &mut Random, chip: u8, events: &mut [Event]) {
    let index = random.index(events.len());
    let unused = |event: &Event| -> Vec<usize> {
        let used = used_bytes(chip, event.kind);
        (0..8).filter(|byte| !used.contains(byte)).collect()
    };
    if unused(&events[index]).is_empty() {
        events[index] = save();
    }
    let byte = random.pick(&unused(&events[index]));
    events[index].operand[byte] |= 1 << random.below(8);
}

/// Several faults at once, in the snapshot, the log, their chips and buffers.
pub fn several_faults(random: &mut Random) -> Case {
    let chip = random.chip();
    let log_chip = if random.one_in(3) {
        random.other_chip(chip)
    } else {
        chip
    };
    let snapshot = if random.one_in(3) {
        let fault = random.pick(&SNAPSHOT_FAULTS);
        damaged_snapshot(random, chip, fault)
    } else {
        random.snapshot(chip)
    };
    let log = if random.one_in(2) {
        let fault = random.pick(&LOG_FAULTS);
        damaged_log(random, log_chip, fault)
    } else {
        let count = 1 + random.below(6);
        log_bytes(log_chip, &random.events(log_chip, count))
    };
    let mut case = Case::exact(snapshot, log, random);
    if random.one_in(2) {
        case.answers_len = case.answers_len.saturating_sub(1);
    }
    if random.one_in(2) {
        case.end_len -= 1;
    }
    case
}

/// Two faults that are looked for together, 24 and 25 or 14 and 15, at the
/// first, the last or any index, sometimes at one index.
pub fn two_indexed_faults(random: &mut Random) -> Case {
    let chip = random.chip();
    if random.one_in(2) {
        let snapshot = snapshot_with_two_faults(random, chip);
        return Case::exact(snapshot, log_bytes(chip, &[]), random);
    }
    let count = 1 + random.below(8);
    let mut events = random.events(chip, count);
    damage_operand(random, chip, &mut events);
    if !random.one_in(4) {
        damage_kind(random, chip, &mut events);
    }
    let snapshot = random.snapshot(chip);
    Case::exact(snapshot, log_bytes(chip, &events), random)
}

/// A value and, mostly, a place at fault, each at the first, the last or any
/// index, sometimes at one index.
pub fn snapshot_with_two_faults(random: &mut Random, chip: u8) -> Vec<u8> {
    let places = random.places(chip);
    let mut pairs = nonzero(&places);
    pairs.splice(0..0, first_places(&pairs));
    damage_value(random, chip, &mut pairs);
    if !random.one_in(4) {
        damage_place(random, chip, &mut pairs);
    }
    snapshot_bytes(chip, &pairs)
}

/// Each fault of a snapshot and each that is looked for behind it, in this order:
/// by itself, and with each that is looked for behind it.
pub fn one_and_two(behind: &[Refusal]) -> Vec<Vec<Refusal>> {
    let mut faults = Vec::new();
    let starts = SNAPSHOT_FAULTS.map(|fault| (fault, 0));
    let later = behind.iter().copied().zip(1..);
    for (first, later) in starts.into_iter().chain(later) {
        faults.push(vec![first]);
        let next = behind.iter().skip(later);
        faults.extend(next.map(|&next| vec![first, next]));
    }
    faults
}

/// Any of the faults, in a snapshot and behind it, in their order.
pub fn some_faults(random: &mut Random, behind: &[Refusal]) -> Vec<Refusal> {
    let mut faults = Vec::new();
    if random.one_in(3) {
        faults.push(random.pick(&SNAPSHOT_FAULTS));
    }
    faults.extend(behind.iter().filter(|_| random.one_in(2)));
    faults
}

/// A length under the least that is accepted, among others one that would hold
/// a part.
pub fn too_short(random: &mut Random, least: usize, part: usize) -> usize {
    let any = random.below(least);
    random.pick(&[0, 1, part, least - 1, any])
}

/// The chip that a snapshot names, or each that is built if it names none.
pub fn chips_named(snapshot: &[u8]) -> Vec<u8> {
    let named = |chip: &u8| snapshot.first() == Some(chip);
    let any = CHIPS.iter().any(named);
    let chips = CHIPS.into_iter();
    chips.filter(|chip| named(chip) || !any).collect()
}

/// Some places before the first one there is, so that there are always a few.
fn first_places(pairs: &[(u16, u8)]) -> Vec<(u16, u8)> {
    let stop = pairs.first().map_or(3, |&(place, _)| place.min(3));
    (0..stop).map(|place| (place, 1)).collect()
}
