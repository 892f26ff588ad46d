//! Boundary values: addresses 3, 4, 7, 8 and FFh, position 2, load positions 0, 1,
//! 30 and 31, DA and DB 15 and 16, count 0, the limit and the older limit, each
//! byte of the count, lengths one off.

use crate::common::{assert_refused, play, run_with, Bench};
use kit::{c, load, log_bytes, p1, p2, p3, read, rs, vertical, write};
use kit::{ANSWER_BYTES, END_BYTES, EVENT_BYTES, LOG_HEADER_BYTES};
use kit::{MOST_EVENTS, MOST_LOG_BYTES, OLDER_MOST_EVENTS};
use model::{read_log, run};
use std::cmp::Ordering;

/// A log's refusal, or 0.
fn log_refusal(log: &[u8]) -> u8 {
    read_log(log).err().map_or(0, |refusal| refusal.number())
}

#[test]
fn chip_1_triples_at_the_edge_addresses() {
    // Address before, selector, refusal of each of its three writes, address
    // and entry (if any) after.
    let cases = [
        (0x03, c::PALETTE, 0, 0x04, Some(0x03)),
        (0x04, c::PALETTE, 0, 0x05, Some(0x04)),
        (0x07, c::PALETTE, 0, 0x08, Some(0x07)),
        (0x08, c::PALETTE, 0, 0x09, Some(0x08)),
        (0xFF, c::PALETTE, 0, 0x00, Some(0xFF)),
        (0x02, c::OVERLAY, 0, 0x03, Some(258)),
        (0x03, c::OVERLAY, 0, 0x04, Some(259)),
        (0x04, c::OVERLAY, 2, 0x04, None),
        (0x07, c::OVERLAY, 2, 0x07, None),
        (0x08, c::OVERLAY, 2, 0x08, None),
        (0xFF, c::OVERLAY, 2, 0xFF, None),
    ];
    for (address, selector, refusal, address_after, entry) in cases {
        let mut chip = Bench::with_places(1, &[(p1::ADDRESS, address)]);
        let mut expected = chip.state.places();
        for byte in [0x61, 0x62, 0x63] {
            assert_eq!(chip.write(selector, byte), refusal);
        }
        expected[p1::ADDRESS] = address_after;
        if let Some(entry) = entry {
            expected[3 * entry..3 * entry + 3].copy_from_slice(&[0x61, 0x62, 0x63]);
            expected[p1::HELD_RED] = 0x61;
            expected[p1::HELD_GREEN] = 0x62;
        }
        assert_eq!(chip.state.places(), expected);
    }
}

#[test]
fn chip_1_control_accesses_at_the_edge_addresses() {
    // Address, refusal, place written with 99h, byte read then. The test register
    // gives its low four bits, and half of black.
    let cases = [
        (0x03, 2, None, 0),
        (0x04, 0, Some(p1::READ_MASK), 0x99),
        (0x06, 0, Some(p1::COMMAND), 0x99),
        (0x07, 0, Some(p1::TEST), 0x09),
        (0x08, 2, None, 0),
        (0xFF, 2, None, 0),
    ];
    for (address, refusal, place, byte) in cases {
        for position in 0..=2 {
            let mut chip =
                Bench::with_places(1, &[(p1::ADDRESS, address), (p1::POSITION, position)]);
            let mut expected = chip.state.places();
            assert_eq!(chip.write(c::CONTROL, 0x99), refusal);
            if let Some(place) = place {
                expected[place] = 0x99;
            }
            assert_eq!(chip.state.places(), expected);
            assert_eq!(chip.read(c::CONTROL), (refusal, byte));
            assert_eq!(chip.state.places(), expected);
        }
    }
}

#[test]
fn position_2_moves_the_address_and_0_and_1_do_not() {
    for (position, position_after, moved) in [(0, 1, 0), (1, 2, 0), (2, 0, 1)] {
        for selector in [c::PALETTE, c::OVERLAY] {
            let start = [(p1::ADDRESS, 1), (p1::POSITION, position)];
            let mut written = Bench::with_places(1, &start);
            assert_eq!(written.write(selector, 5), 0);
            let mut seen = Bench::with_places(1, &start);
            assert_eq!(seen.read(selector), (0, 0));
            for chip in [written, seen] {
                assert_eq!(chip.place(p1::ADDRESS), 1 + moved);
                assert_eq!(chip.place(p1::POSITION), position_after);
            }
        }
        for direction in [0, 1] {
            let mut chip = Bench::with_places(
                2,
                &[
                    (p2::ADDRESS, 1),
                    (p2::POSITION, position),
                    (p2::DIRECTION, direction),
                ],
            );
            if direction == 0 {
                assert_eq!(chip.write(rs::CLT, 5), 0);
            } else {
                assert_eq!(chip.read(rs::CLT), (0, 0));
            }
            assert_eq!(chip.place(p2::ADDRESS), 1 + moved);
            assert_eq!(chip.place(p2::POSITION), position_after);
        }
    }
}

#[test]
fn chip_2_addresses_at_the_edges() {
    // Byte written, address after it in write mode and in read mode.
    for (byte, write_mode, read_mode) in [
        (0x00, 0x00, 0x01),
        (0x03, 0x03, 0x04),
        (0x7F, 0x7F, 0x80),
        (0xFE, 0xFE, 0xFF),
        (0xFF, 0xFF, 0x00),
    ] {
        let mut chip = Bench::fresh(2);
        chip.write_all(rs::WRITE_MODE, &[byte]);
        assert_eq!(chip.place(p2::ADDRESS), write_mode);
        assert_eq!(chip.place(p2::DIRECTION), 0);
        chip.write_all(rs::READ_MODE, &[byte]);
        assert_eq!(chip.place(p2::ADDRESS), read_mode);
        assert_eq!(chip.place(p2::DIRECTION), 1);
    }
}

#[test]
fn chip_2_address_wraps_after_a_triple_at_ff() {
    let mut writing = Bench::with_places(2, &[(p2::ADDRESS, 0xFF), (p2::POSITION, 2)]);
    writing.write_all(rs::CLT, &[9]);
    assert_eq!(writing.entry(255), [0, 0, 9]);
    assert_eq!(writing.place(p2::ADDRESS), 0);

    let mut reading = Bench::with_places(
        2,
        &[(p2::ADDRESS, 0xFF), (p2::POSITION, 2), (p2::DIRECTION, 1)],
    );
    reading.set_entry(254, [1, 2, 3]);
    reading.set_entry(255, [4, 5, 6]);
    assert_eq!(reading.read(rs::CLT), (0, 3));
    assert_eq!(reading.place(p2::ADDRESS), 0);
    assert_eq!(reading.read(rs::CLT), (0, 4));
}

#[test]
fn chip_3_loads_at_the_edge_positions() {
    // Position before, position after, the register that is stored, if any.
    for (before, after, stored) in [
        (0, 1, None),
        (1, 2, Some(0)),
        (2, 3, None),
        (3, 4, Some(1)),
        (29, 30, Some(14)),
        (30, 31, None),
        (31, 0, Some(15)),
    ] {
        let start = [(p3::LOAD_POSITION, before), (p3::HELD_RED, 4)];
        let mut chip = Bench::with_places(3, &start);
        let mut expected = chip.state.places();
        expected[p3::LOAD_POSITION] = after;
        match stored {
            Some(register) => {
                expected[5 * register..5 * register + 5].copy_from_slice(&[4, 15, 2, 0, 0]);
            }
            None => (expected[p3::HELD_RED], expected[p3::HELD_ATTRIBUTES]) = (15, 2),
        }
        assert_eq!(chip.load(15, 2), 0);
        assert_eq!(chip.state.places(), expected);
    }
}

#[test]
fn chip_3_pins_of_15_and_16() {
    for position in [0, 1, 30, 31] {
        for (da, db, refusal) in [
            (15, 15, 0),
            (16, 15, 4),
            (15, 16, 4),
            (16, 16, 4),
            (0, 16, 4),
            (16, 0, 4),
        ] {
            let mut chip = Bench::with_places(3, &[(p3::LOAD_POSITION, position)]);
            let before = chip.state.clone();
            assert_eq!(chip.load(da, db), refusal);
            assert_eq!(chip.state == before, refusal == 4);
        }
    }
}

#[test]
fn the_longest_log_of_loads_goes_round_218_times() {
    // 7,000 loads are 218 x 32 + 24: the next is register 12's first.
    let loads: Vec<_> = (0..MOST_EVENTS)
        .map(|index| load((index / 32 % 16) as u8, 0))
        .collect();
    let played = play(3, &[3, 0, 0], &loads);
    assert_eq!(played.answers, [[0; ANSWER_BYTES]; MOST_EVENTS]);
    // Round 218 (10 mod 16) reached registers 0 to 11, round 217 the others.
    let mut expected = Vec::new();
    for register in 0..16 {
        let value = if register < 12 { 10 } else { 9 };
        expected.extend([(5 * register, value), (5 * register + 1, value)]);
    }
    expected.extend([(80, 24), (81, 10)]);
    assert_eq!(played.end, kit::snapshot_bytes(3, &expected));
}

#[test]
fn a_log_of_no_events_gives_the_start_snapshot_back() {
    for snapshot in [
        vec![1, 0, 0],
        vec![2, 0, 0],
        vec![2, 1, 0, 9, 0, 63],
        vec![3, 0, 0],
        vec![3, 2, 0, 80, 0, 85, 0, 31, 15],
    ] {
        let played = play(snapshot[0], &snapshot, &[]);
        assert_eq!(played.answers.len(), 0);
        assert_eq!(played.end, snapshot);
    }
}

#[test]
fn the_limit_of_7000_events_is_accepted_and_7001_is_not() {
    // 6,999 vertical periods (54 x 128 + 87) and an address write.
    let mut events = vec![vertical(); MOST_EVENTS - 1];
    events.push(write(c::ADDRESS, 6));
    let log = log_bytes(1, &events);
    assert_eq!([log.len(), MOST_LOG_BYTES], [63_005; 2]);
    assert_eq!(log[1..5], [0x58, 0x1B, 0, 0]);
    let mut answers = vec![0xEE; ANSWER_BYTES * MOST_EVENTS];
    let mut end = vec![0xEE; END_BYTES];
    assert_eq!(run(&[1, 0, 0], &log, &mut answers, &mut end), 9);
    assert_eq!(answers, vec![0; ANSWER_BYTES * MOST_EVENTS]);
    assert_eq!(end[..9], [1, 2, 0, 0x0C, 0x03, 0x14, 0x03, 6, 87]);

    events.push(write(c::ADDRESS, 7));
    let log = log_bytes(1, &events);
    assert_eq!(log[1..5], [0x59, 0x1B, 0, 0]);
    let answer_bytes = ANSWER_BYTES * (MOST_EVENTS + 1);
    assert_refused(&[1, 0, 0], &log, answer_bytes, END_BYTES, 12);
}

/// A chip 1 log of this many events: an address write, vertical periods and a
/// read of the address.
fn periods_before_a_read(count: usize) -> Vec<u8> {
    let mut events = vec![vertical(); count];
    events[0] = write(c::ADDRESS, 6);
    events[count - 1] = read(c::ADDRESS);
    log_bytes(1, &events)
}

/// Runs such a log from a fresh chip with no answer byte to spare. The last
/// answer alone isn't all zeros, and the end has this blink count.
fn assert_periods_run(count: usize, blink_count: u8) {
    let log = periods_before_a_read(count);
    let (result, answers, end) = run_with(&[1, 0, 0], &log, ANSWER_BYTES * count, END_BYTES);
    assert_eq!(result, 9);
    let (earlier, last) = answers.split_at(ANSWER_BYTES * (count - 1));
    assert_eq!(earlier, vec![0; earlier.len()]);
    assert_eq!(last[..2], [0, 6]);
    assert_eq!(last[2..], [0; ANSWER_BYTES - 2]);
    assert_eq!(end[..9], [1, 2, 0, 0x0C, 0x03, 0x14, 0x03, 6, blink_count]);
    assert_eq!(end[9..], [0x5A; END_BYTES - 9]);
}

#[test]
fn one_event_under_the_limit_is_accepted() {
    // 6,997 vertical periods: 54 x 128 + 85. The limit itself has one more.
    assert_periods_run(MOST_EVENTS - 1, 85);
    assert_periods_run(MOST_EVENTS, 86);
}

/// What a caller brings that keeps to the older limit: 54,000 answer bytes.
#[test]
fn a_log_over_the_older_limit_needs_more_answer_bytes() {
    let older = ANSWER_BYTES * OLDER_MOST_EVENTS;
    assert_eq!(older, 54_000);
    // 2,998 vertical periods: 23 x 128 + 54. One event over has one more.
    assert_periods_run(OLDER_MOST_EVENTS, 54);
    assert_periods_run(OLDER_MOST_EVENTS + 1, 55);

    let log = periods_before_a_read(OLDER_MOST_EVENTS + 1);
    assert_eq!(log[1..5], [0xB9, 0x0B, 0, 0]);
    let (result, _, _) = run_with(&[1, 0, 0], &log, 54_018, END_BYTES);
    assert_eq!(result, 9);
    assert_refused(&[1, 0, 0], &log, 54_017, END_BYTES, 30);
    assert_refused(&[1, 0, 0], &log, older, END_BYTES, 30);
    // 30 comes before 31.
    assert_refused(&[1, 0, 0], &log, older, END_BYTES - 1, 30);
}

/// The bytes of the longest log, but for one byte of its count: a smaller byte
/// makes the log too long for its count, a larger one the count too large.
#[test]
fn each_byte_of_the_count_decides() {
    let longest = log_bytes(2, &vec![read(rs::PIXEL_MASK); MOST_EVENTS]);
    for at in 1..LOG_HEADER_BYTES {
        for byte in 0..=255 {
            let mut log = longest.clone();
            log[at] = byte;
            let number = match byte.cmp(&longest[at]) {
                Ordering::Less => 13,
                Ordering::Equal => 0,
                Ordering::Greater => 12,
            };
            assert_eq!(log_refusal(&log), number, "byte {at} is {byte}");
        }
    }
}

#[test]
fn a_count_too_large_by_its_upper_bytes_alone_is_refused_whatever_follows() {
    // 65,536 + 7,000 and 16,777,216 + 1 among them.
    for count in [
        [0x58, 0x1B, 1, 0],
        [1, 0, 0, 1],
        [0, 0, 1, 0],
        [0xB9, 0x0B, 0xFF, 0],
        [0x58, 0x1B, 0, 0x80],
        [0x57, 0x1B, 0xFF, 0xFF],
    ] {
        let low = usize::from(u16::from_le_bytes([count[0], count[1]]));
        let good = log_bytes(1, &vec![vertical(); low]);
        assert_eq!(log_refusal(&good), 0);
        let events = &good[LOG_HEADER_BYTES..];
        let longer = [events, &[0]].concat();
        let odd = vec![0xFF; events.len()];
        for rest in [&[], events, &longer, &odd] {
            let log = [&[1], &count[..], rest].concat();
            assert_refused(&[1, 0, 0], &log, ANSWER_BYTES * low, END_BYTES, 12);
        }
    }
    // Every event that the count claims, and an answer buffer for all of them.
    let claimed = 65_536 + MOST_EVENTS;
    let log = log_bytes(1, &vec![vertical(); claimed]);
    assert_eq!(log[1..5], [0x58, 0x1B, 1, 0]);
    assert_refused(&[1, 0, 0], &log, ANSWER_BYTES * claimed, END_BYTES, 12);
}

#[test]
fn a_log_has_5_and_9n_bytes_and_no_other_length() {
    let small = [0usize, 1, 2, 3, 10, 255, 256];
    let older = [OLDER_MOST_EVENTS, OLDER_MOST_EVENTS + 1];
    let limit = [MOST_EVENTS - 1, MOST_EVENTS];
    for count in [&small[..], &older, &limit].concat() {
        let right = LOG_HEADER_BYTES + EVENT_BYTES * count;
        for length in [right - 1, right, right + 1, right + EVENT_BYTES] {
            let mut bytes = vec![0; length];
            bytes[0] = 2;
            let number = if length < LOG_HEADER_BYTES {
                10
            } else {
                bytes[1..5].copy_from_slice(&(count as u32).to_le_bytes());
                if length == right {
                    0
                } else {
                    13
                }
            };
            assert_eq!(log_refusal(&bytes), number);
        }
    }
}

#[test]
fn each_answer_stands_at_18_times_its_index() {
    // Address writes and reads, the longest log's too, whose answers have
    // 126,000 bytes: answer 2i + 1 holds the low byte of i.
    for (pairs, last) in [(60, 59), (MOST_EVENTS / 2, 0xAB)] {
        let events: Vec<_> = (0..pairs)
            .flat_map(|i| [write(c::ADDRESS, i as u8), read(c::ADDRESS)])
            .collect();
        let mut answers = vec![0xEE; ANSWER_BYTES * events.len()];
        let mut end = vec![0xEE; END_BYTES];
        let result = run(&[1, 0, 0], &log_bytes(1, &events), &mut answers, &mut end);
        assert_eq!(result, 6);
        assert_eq!(end[..6], [1, 1, 0, 0x0C, 0x03, last]);
        let mut expected = vec![0; ANSWER_BYTES * events.len()];
        for i in 0..pairs {
            expected[ANSWER_BYTES * (2 * i + 1) + 1] = i as u8;
        }
        assert_eq!(answers, expected);
    }
}
