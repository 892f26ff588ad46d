//! Refusals of a run: the snapshot's, the log's, 26, 30, 31, each alone, in
//! every combination of groups, and in order inside each group.

use crate::common::{assert_refused, header_over_the_limit, run_with, snapshot_with};
use kit::{chip_of_round, highest_kind, log_bytes, not_built};
use kit::{load, read, save, tick, vertical, write, Random, CHIPS, NOT_BUILT};
use kit::{ANSWER_BYTES, END_BYTES, MOST_EVENTS, OLDER_END_BYTES};
use model::{kind, read_log, Event};

fn assert_accepted(snapshot: &[u8], log: &[u8], answer_bytes: usize, end_bytes: usize) {
    let (result, _, _) = run_with(snapshot, log, answer_bytes, end_bytes);
    assert_eq!(result >> 16, 0);
    assert_ne!(result, 0);
}

/// A log that is refused with this number alone.
fn assert_log_refused(log: &[u8], number: u8) {
    assert_eq!(
        read_log(log).map_err(|refusal| refusal.number()),
        Err(number)
    );
    let answer_bytes = ANSWER_BYTES * (MOST_EVENTS + 1);
    assert_refused(&[1, 0, 0], log, answer_bytes, END_BYTES, number);
}

fn odd_kind(kind: u8) -> Event {
    Event {
        kind,
        operand: [0; 8],
    }
}

fn odd_operand(kind: u8, operand: [u8; 8]) -> Event {
    Event { kind, operand }
}

/// A log of two events with this fault, 0 for none.
fn log_with(fault: u8, chip: u8) -> Vec<u8> {
    let mut events = [write(0, 5), read(0)];
    match fault {
        10 => return vec![chip, 2, 0, 0],
        11 => return log_bytes(NOT_BUILT, &events),
        12 => return header_over_the_limit(chip),
        13 => {
            let mut bytes = log_bytes(chip, &events);
            bytes.pop();
            return bytes;
        }
        14 => events[1].kind = highest_kind(chip) + 1,
        15 => events[1].operand[7] = 1,
        _ => {}
    }
    log_bytes(chip, &events)
}

#[test]
fn every_combination_of_groups_gives_the_first_refusal() {
    let exact = 2 * ANSWER_BYTES;
    let mut tried = 0;
    for (snapshot_chip, log_chip) in pairs_of_chips() {
        let chip_fault = if snapshot_chip == log_chip { 0 } else { 26 };
        for snapshot_fault in [0, 20, 21, 22, 23, 24, 25] {
            for log_fault in [0, 10, 11, 12, 13, 14, 15] {
                let snapshot = snapshot_with(snapshot_fault, snapshot_chip);
                let log = log_with(log_fault, log_chip);
                for (answer_bytes, answer_fault) in [(exact, 0), (exact - 1, 30)] {
                    for (end_bytes, end_fault) in [(END_BYTES, 0), (END_BYTES - 1, 31)] {
                        let inputs = [snapshot_fault, log_fault, chip_fault];
                        let faults = [&inputs[..], &[answer_fault, end_fault]].concat();
                        match faults.into_iter().find(|&fault| fault != 0) {
                            Some(number) => {
                                assert_refused(&snapshot, &log, answer_bytes, end_bytes, number)
                            }
                            None => assert_accepted(&snapshot, &log, answer_bytes, end_bytes),
                        }
                        tried += 1;
                    }
                }
            }
        }
    }
    assert_eq!(tried, CHIPS.len() * CHIPS.len() * 7 * 7 * 2 * 2);
}

fn pairs_of_chips() -> impl Iterator<Item = (u8, u8)> {
    let with_each = |chip| CHIPS.into_iter().map(move |other| (chip, other));
    CHIPS.into_iter().flat_map(with_each)
}

#[test]
fn refusal_10_under_5_bytes_comes_before_11() {
    for log in [&[][..], &[1], &[1, 0, 0, 0], &[9, 9, 9, 9]] {
        assert_log_refused(log, 10);
    }
}

#[test]
fn refusal_11_chip_comes_before_12_13_and_14() {
    for chip in not_built() {
        assert_log_refused(&[chip, 0, 0, 0, 0], 11);
        assert_log_refused(&[chip, 0xFF, 0xFF, 0xFF, 0xFF], 11);
        assert_log_refused(&[chip, 1, 0, 0, 0], 11);
        assert_log_refused(&log_bytes(chip, &[odd_kind(200)]), 11);
    }
}

#[test]
fn refusal_12_count_comes_before_13_and_14() {
    assert_log_refused(&header_over_the_limit(1), 12);
    assert_log_refused(&[1, 0, 0, 1, 0], 12);
    assert_log_refused(&[1, 0, 0, 0, 1], 12);
    assert_log_refused(&[1, 0xFF, 0xFF, 0xFF, 0xFF], 12);
    // The right length for one event too many, good ones or not.
    assert_log_refused(&log_bytes(1, &vec![vertical(); MOST_EVENTS + 1]), 12);
    assert_log_refused(&log_bytes(1, &vec![odd_kind(200); MOST_EVENTS + 1]), 12);
}

#[test]
fn refusal_13_length_comes_before_14_and_15() {
    for events in [
        vec![],
        vec![vertical()],
        vec![odd_kind(200); 2],
        vec![odd_operand(kind::SAVE, [1; 8]); 3],
    ] {
        let bytes = log_bytes(1, &events);
        let mut longer = bytes.clone();
        longer.push(0);
        assert_log_refused(&longer, 13);
        if !events.is_empty() {
            assert_log_refused(&bytes[..bytes.len() - 1], 13);
        }
    }
}

#[test]
fn refusals_14_and_15_the_lowest_index_decides() {
    let good = write(0, 5);
    let bad_operand = odd_operand(kind::READ, [0, 1, 0, 0, 0, 0, 0, 0]);
    for chip in CHIPS {
        let bad_kind = odd_kind(highest_kind(chip) + 1);
        for (events, number) in [
            (vec![bad_kind], 14),
            (vec![bad_operand], 15),
            (vec![bad_operand, bad_kind], 15),
            (vec![bad_kind, bad_operand], 14),
            (vec![good, good, bad_operand, good, bad_kind], 15),
            (vec![good, bad_kind, good, bad_operand, good], 14),
            (vec![good, good, good, bad_operand], 15),
        ] {
            assert_log_refused(&log_bytes(chip, &events), number);
        }
    }
}

#[test]
fn refusals_14_and_15_at_one_index_the_smaller_number() {
    let both = odd_operand(200, [1; 8]);
    let bad_operand = odd_operand(kind::SAVE, [0, 0, 0, 0, 0, 0, 0, 1]);
    for chip in CHIPS {
        assert_log_refused(&log_bytes(chip, &[both]), 14);
        assert_log_refused(&log_bytes(chip, &[both, bad_operand]), 14);
        assert_log_refused(&log_bytes(chip, &[bad_operand, both]), 15);
    }
}

#[test]
fn refusal_15_goes_by_the_logs_chip() {
    // Byte 1 is pixel B of chip 1; chip 2 has no use for it.
    let log = |chip| log_bytes(chip, &[tick([0, 1, 0, 0, 0, 0, 0, 1])]);
    assert_accepted(&[1, 0, 0], &log(1), ANSWER_BYTES, END_BYTES);
    assert_refused(&[2, 0, 0], &log(2), ANSWER_BYTES, END_BYTES, 15);
    // The log is checked before 26, so the snapshot's chip doesn't matter.
    assert_refused(&[1, 0, 0], &log(2), ANSWER_BYTES, END_BYTES, 15);
    assert_refused(&[2, 0, 0], &log(1), ANSWER_BYTES, END_BYTES, 26);
    // Byte 1 is chip 3's DB; chips 2 and 3 have no use for byte 2.
    assert_accepted(&[3, 0, 0], &log(3), ANSWER_BYTES, END_BYTES);
    let log = |chip| log_bytes(chip, &[tick([0, 0, 1, 0, 0, 0, 0, 1])]);
    assert_accepted(&[1, 0, 0], &log(1), ANSWER_BYTES, END_BYTES);
    for chip in [2, 3] {
        for snapshot_chip in CHIPS {
            let snapshot = [snapshot_chip, 0, 0];
            assert_refused(&snapshot, &log(chip), ANSWER_BYTES, END_BYTES, 15);
        }
    }
}

#[test]
fn refusals_14_and_15_of_loads() {
    for chip in CHIPS {
        // 6 is the lowest kind that is refused.
        assert_log_refused(&log_bytes(chip, &[load(1, 2), odd_kind(6)]), 14);
        // Bytes 0 and 1 are used, whether or not the chip refuses the load.
        for unused in 2..8 {
            let mut operand = [255, 255, 0, 0, 0, 0, 0, 0];
            operand[unused] = 1;
            let events = [load(1, 2), odd_operand(kind::LOAD, operand)];
            assert_log_refused(&log_bytes(chip, &events), 15);
            let events = [odd_operand(kind::LOAD, operand), odd_kind(6)];
            assert_log_refused(&log_bytes(chip, &events), 15);
        }
        let log = log_bytes(chip, &[load(255, 255), load(0, 0)]);
        assert_accepted(&[chip, 0, 0], &log, 2 * ANSWER_BYTES, END_BYTES);
    }
}

#[test]
fn refusal_26_both_ways_round() {
    for (snapshot_chip, log_chip) in pairs_of_chips().filter(|(one, other)| one != other) {
        let start = [snapshot_chip, 0, 0];
        let log = log_bytes(log_chip, &[save()]);
        assert_refused(&start, &log, ANSWER_BYTES, END_BYTES, 26);
        // 26 comes before 30 and 31.
        assert_refused(&start, &log, ANSWER_BYTES - 1, END_BYTES, 26);
        assert_refused(&start, &log, ANSWER_BYTES, END_BYTES - 1, 26);
        assert_refused(&start, &log, 0, 0, 26);
    }
}

#[test]
fn refusal_30_one_byte_short_exact_and_longer() {
    for count in [1, 2, 7] {
        let log = log_bytes(2, &vec![read(2); count]);
        let exact = ANSWER_BYTES * count;
        assert_refused(&[2, 0, 0], &log, exact - 1, END_BYTES, 30);
        assert_refused(&[2, 0, 0], &log, 0, END_BYTES, 30);
        assert_accepted(&[2, 0, 0], &log, exact, END_BYTES);
        assert_accepted(&[2, 0, 0], &log, exact + 1, END_BYTES);
        // 30 comes before 31.
        assert_refused(&[2, 0, 0], &log, exact - 1, END_BYTES - 1, 30);
    }
    // No events need no answer buffer.
    assert_accepted(&[2, 0, 0], &log_bytes(2, &[]), 0, END_BYTES);
}

#[test]
fn refusal_31_one_byte_short_exact_and_longer() {
    for chip in CHIPS {
        let log = log_bytes(chip, &[read(0)]);
        // 2,370 were enough before Note 7.
        for size in [0, 3, 261, 2325, OLDER_END_BYTES, END_BYTES - 1] {
            assert_refused(&[chip, 0, 0], &log, ANSWER_BYTES, size, 31);
        }
        assert_accepted(&[chip, 0, 0], &log, ANSWER_BYTES, END_BYTES);
        assert_accepted(&[chip, 0, 0], &log, ANSWER_BYTES, END_BYTES + 1);
        assert_refused(&[chip, 0, 0], &log_bytes(chip, &[]), 0, END_BYTES - 1, 31);
    }
}

#[test]
fn bytes_past_the_answers_and_the_end_snapshot_do_not_change() {
    // Address 5 written and read on chip 2: document 01's printing example.
    let log = log_bytes(2, &[write(0, 5), read(0)]);
    let (result, answers, end) = run_with(&[2, 0, 0], &log, 2 * ANSWER_BYTES + 20, END_BYTES + 20);
    assert_eq!(result, 6);
    let mut expected = [0; 2 * ANSWER_BYTES];
    expected[ANSWER_BYTES + 1] = 5;
    assert_eq!(answers[..2 * ANSWER_BYTES], expected);
    assert_eq!(answers[2 * ANSWER_BYTES..], [0xA5; 20]);
    assert_eq!(end[..6], [2, 1, 0, 0, 3, 5]);
    assert_eq!(end[6..], [0x5A; END_BYTES + 20 - 6]);
}

#[test]
fn refusals_1_to_5_sit_in_their_answers_and_stop_nothing() {
    let log = log_bytes(
        1,
        &[
            write(9, 0),
            write(0, 8),
            read(2),
            tick([0, 0, 0, 0, 0, 0, 0, 4]),
            vertical(),
            read(0),
        ],
    );
    let (result, answers, end) = run_with(&[1, 0, 0], &log, 6 * ANSWER_BYTES, END_BYTES);
    let firsts: Vec<[u8; 2]> = answers
        .chunks(ANSWER_BYTES)
        .map(|answer| [answer[0], answer[1]])
        .collect();
    assert_eq!(firsts, [[1, 0], [0, 0], [2, 0], [4, 0], [0, 0], [0, 8]]);
    // Address 8 at place 780 and one vertical period at 788.
    assert_eq!(result, 9);
    assert_eq!(end[..9], [1, 2, 0, 0x0C, 0x03, 0x14, 0x03, 8, 1]);

    let log = log_bytes(2, &[read(1), vertical(), write(3, 7), write(1, 1), read(3)]);
    let (result, answers, end) = run_with(&[2, 0, 0], &log, 5 * ANSWER_BYTES, END_BYTES);
    let firsts: Vec<[u8; 2]> = answers
        .chunks(ANSWER_BYTES)
        .map(|answer| [answer[0], answer[1]])
        .collect();
    assert_eq!(firsts, [[3, 0], [5, 0], [0, 0], [3, 0], [0, 8]]);
    assert_eq!(result, 9);
    assert_eq!(end[..9], [2, 2, 0, 0x00, 0x03, 0x02, 0x03, 8, 1]);
}

#[test]
fn refusals_of_loads_and_on_chip_3_stop_nothing() {
    for chip in [1, 2] {
        let log = log_bytes(chip, &[load(1, 2), write(0, 6), load(16, 255), read(0)]);
        let (result, answers, end) = run_with(&[chip, 0, 0], &log, 4 * ANSWER_BYTES, END_BYTES);
        let firsts: Vec<[u8; 2]> = answers
            .chunks(ANSWER_BYTES)
            .map(|answer| [answer[0], answer[1]])
            .collect();
        assert_eq!(firsts, [[5, 0], [0, 0], [5, 0], [0, 6]]);
        // The address alone.
        assert_eq!(result, 6);
        let low = if chip == 1 { 0x0C } else { 0x00 };
        assert_eq!(end[..6], [chip, 1, 0, low, 0x03, 6]);
    }

    let events = [
        load(9, 1),
        load(16, 0),
        write(9, 0),
        load(10, 11),
        read(0),
        vertical(),
        tick([0, 16, 0, 0, 0, 0, 0, 1]),
        tick([1, 0, 0, 0, 0, 0, 0, 1]),
        tick([0, 0, 0, 0, 0, 0, 0, 2]),
        save(),
    ];
    let log = log_bytes(3, &events);
    let (result, answers, end) = run_with(&[3, 0, 0], &log, 10 * ANSWER_BYTES, END_BYTES);
    let mut expected = vec![0; 10 * ANSWER_BYTES];
    for (index, number) in [(1, 4), (2, 5), (4, 5), (5, 5), (6, 4), (8, 4)] {
        expected[ANSWER_BYTES * index] = number;
    }
    // Register 1 is black, register 0 has the colour 9, 10, 11 and EXT.
    expected[ANSWER_BYTES * 7..ANSWER_BYTES * 7 + 9]
        .copy_from_slice(&[0, 2, 0b101, 0, 0, 0, 9, 10, 11]);
    assert_eq!(answers, expected);
    // Places 0 to 3, load position 2, held red and EXT, and the colour before.
    assert_eq!(result, 3 + 3 * 10);
    let places = [0, 1, 2, 3, 80, 81, 82, 83, 84, 85];
    let values = [9, 10, 11, 1, 2, 9, 1, 9, 10, 11];
    assert_eq!(end[..3], [3, 10, 0]);
    assert_eq!(end[3..23], places.map(|place| [place, 0]).concat());
    assert_eq!(end[23..33], values);
}

#[test]
fn a_run_is_its_events_called_one_after_another() {
    let mut random = Random::seeded(0x5EED_0001);
    // Loads: accepted, refused with 4, refused with 5.
    let mut loads = [0; 3];
    for round in 0..300 {
        let chip = chip_of_round(round);
        let start = random.state(chip);
        let count = random.below(60);
        let events = random.events(chip, count);
        let mut state = start.clone();
        let mut expected = Vec::new();
        for event in &events {
            let (answer, next) = model::event(&state, event.kind, &event.operand);
            expected.extend(answer);
            state = next;
            if event.kind == kind::LOAD {
                let sort = [0, 4, 5].iter().position(|&number| number == answer[0]);
                loads[sort.unwrap()] += 1;
            }
        }
        let snapshot = model::save(&start).unwrap();
        let log = log_bytes(chip, &events);
        let (result, answers, end) =
            run_with(&snapshot, &log, ANSWER_BYTES * events.len(), END_BYTES);
        let end_snapshot = model::save(&state).unwrap();
        assert_eq!(result, end_snapshot.len() as u64);
        assert_eq!(answers, expected);
        assert_eq!(end[..end_snapshot.len()], end_snapshot);
    }
    assert!(loads.iter().all(|&count| count > 20), "{loads:?}");
}
