//! Runs of the TLC34058's test register, and of the last pixel's codes, which it
//! reads.

use crate::case::Case;
use kit::{c, log_bytes, nonzero, p1, place_count, read, riffle, save, snapshot_bytes, tick};
use kit::{undefined_tick_bits, write, Random, CHIPS};
use kit::{END_BYTES, OLDER_END_BYTES};
use model::Event;

const TEST_ADDRESS: u8 = 7;
/// Writes of the low four bits that show a half: of red, green and blue, high and
/// low.
const SELECTIONS: [u8; 6] = [0x01, 0x02, 0x04, 0x09, 0x0A, 0x0C];
/// Four or five pixels, of the palette or of overlays too.
const COMMANDS: [u8; 6] = [0x40, 0xC0, 0x43, 0xC3, 0x47, 0x80];

/// Most often one that shows a half.
pub fn test_byte(random: &mut Random) -> u8 {
    match random.below(4) {
        0 => random.byte(),
        _ => random.byte() & 0xF0 | random.pick(&SELECTIONS),
    }
}

/// At 07h, colours and a last pixel that are nowhere 0, and registers with which
/// ticks show them.
pub fn places_at_07h(random: &mut Random) -> Vec<u8> {
    let mut places = random.full_places(1);
    places[p1::ADDRESS] = TEST_ADDRESS;
    places[p1::READ_MASK] |= 0x8F;
    places[p1::COMMAND] = random.pick(&COMMANDS);
    places[p1::TEST] = test_byte(random);
    places
}

/// Reads at 07h with one selection and another, and between them accesses that
/// paint what ticks show. Most start at 07h and end there.
fn accesses(random: &mut Random, count: usize) -> Vec<Event> {
    let mut accesses = Vec::new();
    while accesses.len() < count {
        let burst = match random.below(9) {
            0..=2 => vec![read(c::CONTROL)],
            3..=5 => vec![write(c::CONTROL, test_byte(random)), read(c::CONTROL)],
            6 => painted_colour(random),
            7 => {
                let command = random.pick(&COMMANDS);
                let (address, byte) = random.pick(&[(4, 0xFF), (4, 0x0F), (5, 1), (6, command)]);
                vec![write(c::ADDRESS, address), write(c::CONTROL, byte)]
            }
            _ => vec![random.access_on(1)],
        };
        let away = burst.iter().any(|event| event.operand[0] != c::CONTROL);
        let back = [write(c::ADDRESS, TEST_ADDRESS)];
        accesses.extend(burst);
        accesses.extend(back.into_iter().filter(|_| away));
    }
    accesses.truncate(count);
    accesses
}

/// A whole colour of an entry that ticks often show.
fn painted_colour(random: &mut Random) -> Vec<Event> {
    let mut burst = vec![write(c::ADDRESS, random.pick(&[0, 1, 2, 3, 255]))];
    let selector = random.pick(&[c::PALETTE, c::OVERLAY]);
    burst.extend((0..3).map(|_| write(selector, random.byte())));
    burst
}

/// Two such accesses to each display event, in any order.
pub fn diagnostics(random: &mut Random, count: usize) -> Vec<Event> {
    let accesses = accesses(random, 2 * count / 3);
    let displays: Vec<Event> = (accesses.len()..count).map(|_| random.display(1)).collect();
    riffle(random, &accesses, &displays)
}

/// With saves, too.
pub fn reads_between(random: &mut Random) -> Case {
    let places = places_at_07h(random);
    let count = random.pick(&[3, 12, 40, 90]);
    let mut events = diagnostics(random, count);
    for _ in 0..random.below(4) {
        events.insert(random.below(events.len() + 1), save());
    }
    let snapshot = snapshot_bytes(1, &nonzero(&places));
    Case::exact(snapshot, log_bytes(1, &events), random)
}

/// A snapshot as older libraries made it, its last pixel's codes not among its
/// places: reads at 07h before the first tick and behind it.
pub fn no_last_pixel(random: &mut Random) -> Case {
    let mut places = match random.below(3) {
        0 => random.places(1),
        _ => places_at_07h(random),
    };
    places[p1::OLDER_COUNT..].fill(0);
    let mut events = vec![read(c::CONTROL), save(), read(c::CONTROL)];
    events.extend(diagnostics(random, 18));
    let snapshot = snapshot_bytes(1, &nonzero(&places));
    Case::exact(snapshot, log_bytes(1, &events), random)
}

/// What becomes of the codes at a tick.
#[derive(Clone, Copy, PartialEq, Eq)]
enum Tick {
    Shown,
    Blanked,
    Refused,
}

/// Every byte written at 07h and read, after a tick of four or five pixels that is
/// shown, blanked or refused. Where it is shown, each pixel has every code; in the
/// others the pixel before has codes with every half.
pub fn every_test_byte(random: &mut Random) -> Vec<Case> {
    let mut cases = Vec::new();
    for (sort, apart) in [(Tick::Shown, 1), (Tick::Blanked, 5), (Tick::Refused, 5)] {
        for command in [0x40, 0xC0] {
            let firsts = (0..=255).step_by(apart);
            cases.extend(firsts.map(|first| all_test_bytes(random, first, command, sort)));
        }
    }
    cases
}

/// The codes of pixels A to E and of the one before are all different.
fn all_test_bytes(random: &mut Random, first: u8, command: u8, sort: Tick) -> Case {
    const APART: u8 = 13;
    let mut places = vec![0; place_count(1)];
    let codes = (0..).map(|number: u8| first.wrapping_add(APART.wrapping_mul(number)));
    let of_codes = (0..15).chain(p1::LAST_RED..p1::COUNT);
    for (place, code) in of_codes.zip(codes) {
        places[place] = code;
    }
    places[p1::ADDRESS] = TEST_ADDRESS;
    places[p1::READ_MASK] = 0xFF;
    places[p1::COMMAND] = command;
    let mut operand = [0, 1, 2, 3, 4, 0, 0, random.pick(&[0, 2])];
    if sort != Tick::Blanked {
        operand[7] += 1;
    }
    if sort == Tick::Refused {
        let (byte, bits) = random.pick(undefined_tick_bits(1));
        operand[byte] |= random.bit_of(bits);
    }
    let mut events = vec![tick(operand)];
    for byte in 0..=255 {
        events.extend([write(c::CONTROL, byte), read(c::CONTROL)]);
    }
    let snapshot = snapshot_bytes(1, &nonzero(&places));
    Case::exact(snapshot, log_bytes(1, &events), random)
}

/// End buffers about what older programs lend and about what is needed, for
/// snapshots as long as they can be, as they could be, of any length and empty.
pub fn end_buffers(random: &mut Random) -> Vec<Case> {
    let mut cases = Vec::new();
    for chip in CHIPS {
        let full = random.full_places(chip);
        let mut older = full.clone();
        if chip == 1 {
            older[p1::OLDER_COUNT..].fill(0);
        }
        let fresh = vec![0; place_count(chip)];
        for places in [full, older, random.places(chip), fresh] {
            for least in [OLDER_END_BYTES, END_BYTES] {
                for end_len in [least - 1, least, least + 1, least + 40] {
                    for events in [vec![], vec![random.tick(chip)]] {
                        let snapshot = snapshot_bytes(chip, &nonzero(&places));
                        cases.push(Case {
                            end_len,
                            ..Case::exact(snapshot, log_bytes(chip, &events), random)
                        });
                    }
                }
            }
        }
    }
    cases
}

#[cfg(test)]
mod tests {
    //! What the classes come to, by the model alone.

    use super::{end_buffers, every_test_byte, no_last_pixel, reads_between};
    use crate::case::Case;
    use crate::compared::Compared;
    use kit::{is_tick, p1, place_values, Random, ANSWER_BYTES};
    use model::{read_log, test_register_reads};
    use std::collections::BTreeSet;

    /// The bytes that the 07h reads of a case give, with the index of each.
    fn bytes_read(case: &Case) -> Vec<(usize, u8)> {
        let outcome = case.run_model();
        let reads = test_register_reads(&case.snapshot, &case.log).unwrap();
        let byte = |index: usize| outcome.answers()[ANSWER_BYTES * index + 1];
        reads
            .into_iter()
            .map(|index| (index, byte(index)))
            .collect()
    }

    /// Both halves of each code: every value, with four and five pixels, after a
    /// shown and after a refused tick; after a blanked one 0 alone.
    #[test]
    fn every_test_byte_reads_every_half() {
        let mut cases = &every_test_byte(&mut Random::seeded(1))[..];
        // 16 halves with each of 6 selections, and 10 selections that show none.
        let all = 16 * 6 + 10;
        for (count, bytes) in [(256, all), (52, 16), (52, all)] {
            for _four_and_five in 0..2 {
                let (these, others) = cases.split_at(count);
                let read: Vec<_> = these.iter().flat_map(bytes_read).collect();
                assert_eq!(read.len(), 256 * count);
                let seen: BTreeSet<u8> = read.iter().map(|&(_, byte)| byte).collect();
                assert_eq!(seen.len(), bytes);
                cases = others;
            }
        }
        assert!(cases.is_empty());
    }

    #[test]
    fn reads_between_ticks_and_painting_see_colours_change() {
        let random = &mut Random::seeded(1);
        let (mut reads, mut coloured, mut behind_ticks) = (0, 0, 0);
        for _ in 0..100 {
            let case = reads_between(random);
            let events = read_log(&case.log).unwrap().events;
            for (index, byte) in bytes_read(&case) {
                reads += 1;
                coloured += usize::from(byte > 15);
                behind_ticks += usize::from(byte > 15 && events[..index].iter().any(is_tick));
            }
        }
        assert!(reads > 600, "{reads}");
        assert!(coloured > 300, "{coloured}");
        assert!(behind_ticks > 150, "{behind_ticks}");
    }

    #[test]
    fn snapshots_with_no_last_pixel_read_black_before_a_tick() {
        let random = &mut Random::seeded(1);
        let (mut full, mut early, mut coloured) = (0, 0, 0);
        for _ in 0..100 {
            let case = no_last_pixel(random);
            let places = place_values(&case.snapshot);
            assert!(places.iter().all(|&(place, _)| place < 789));
            full += usize::from(places.len() == p1::OLDER_COUNT);
            let events = read_log(&case.log).unwrap().events;
            for (index, byte) in bytes_read(&case) {
                if events[..index].iter().any(is_tick) {
                    coloured += usize::from(byte > 15);
                } else {
                    assert!(byte < 16);
                    early += 1;
                }
            }
        }
        assert!(full > 50, "{full}");
        assert!(early > 100, "{early}");
        assert!(coloured > 40, "{coloured}");
    }

    /// 31 under 2,379 bytes, whatever the chip and its end snapshot.
    #[test]
    fn end_buffers_of_older_programs_are_31() {
        let (mut refused, mut older) = (0, 0);
        for case in end_buffers(&mut Random::seeded(1)) {
            let refusal = case.run_model().result >> 16;
            assert_eq!(refusal, if case.end_len < 2379 { 31 } else { 0 });
            refused += usize::from(refusal == 31);
            older += usize::from(case.end_len == 2370);
        }
        assert_eq!((refused, older), (3 * 4 * 2 * 4, 3 * 4 * 2));
    }
}
