//! The TLC34058's test register (Table 8) and the last pixel's codes, which it
//! shows: document 02's Note 7. The expected values are worked out from the papers
//! by hand, or by Table 8's rows.

use crate::common::{play, run_with, Bench};
use kit::{c, is_tick, largest, log_bytes, nonzero, p1, snapshot_bytes, undefined_tick_bits};
use kit::{load, read, save as save_event, tick, vertical, write, CHIPS};
use kit::{Random, ANSWER_BYTES, CURRENTS_BYTES, END_BYTES, OLDER_END_BYTES};
use model::{event, kind, restore, save, save_into, test_register_reads, tick_currents_into};
use model::{Event, Operand, Refusal, State, END_BUFFER_BYTES};
use std::collections::BTreeSet;

/// The address of the test register.
const TEST: u8 = 7;
/// Levels of a tick.
const BLK: u8 = 1;
const SYNC: u8 = 2;
/// Command registers: the palette in use (CR6), four or five pixels (CR7).
const FOUR: u8 = 0x40;
const FIVE: u8 = 0xC0;
const BLACK: [u8; 3] = [0; 3];

/// Which half of a code D4-D7 give.
#[derive(Clone, Copy)]
enum Half {
    Msbs,
    Lsbs,
}

/// Table 8: TR3-TR0, the component (0 red, 1 green, 2 blue) and its half.
const TABLE_8: [(u8, usize, Half); 6] = [
    (0b0100, 2, Half::Msbs),
    (0b0010, 1, Half::Msbs),
    (0b0001, 0, Half::Msbs),
    (0b1100, 2, Half::Lsbs),
    (0b1010, 1, Half::Lsbs),
    (0b1001, 0, Half::Lsbs),
];

/// The byte that a 07h read gives after this one was written. A byte of no row
/// shows no half.
fn byte_read(test: u8, codes: [u8; 3]) -> u8 {
    let row = TABLE_8.iter().find(|row| row.0 == test % 16);
    let half = match row {
        Some(&(_, component, Half::Msbs)) => codes[component] / 16,
        Some(&(_, component, Half::Lsbs)) => codes[component] % 16,
        None => 0,
    };
    16 * half + test % 16
}

/// A chip at 07h. Palette entries 1 to 5 have these colours, every plane is read.
fn chip_with(colours: [[u8; 3]; 5], command: u8) -> Bench {
    let registers = [
        (p1::ADDRESS, TEST),
        (p1::READ_MASK, 0xFF),
        (p1::COMMAND, command),
    ];
    let mut chip = Bench::with_places(1, &registers);
    for (entry, colour) in (1..).zip(colours) {
        chip.set_entry(entry, colour);
    }
    chip
}

/// A chip at 07h after a pixel of these codes.
fn chip_after(codes: [u8; 3]) -> Bench {
    let [red, green, blue] = codes;
    let last_pixel = [
        (p1::LAST_RED, red),
        (p1::LAST_GREEN, green),
        (p1::LAST_BLUE, blue),
    ];
    let mut chip = Bench::with_places(1, &last_pixel);
    chip.set(p1::ADDRESS, TEST);
    chip
}

/// Pixels A to E show entries 1 to 5.
fn tick_1_to_5(levels: u8) -> Operand {
    [1, 2, 3, 4, 5, 0, 0, levels]
}

fn last_codes(chip: &Bench) -> [u8; 3] {
    chip.state.places()[p1::LAST_RED..].try_into().unwrap()
}

/// The three codes as the diagnostics read them: each half in turn.
fn codes_by_halves(chip: &mut Bench) -> [u8; 3] {
    let mut half = |selection: u8| {
        chip.write_all(c::CONTROL, &[selection]);
        let byte = chip.read_byte(c::CONTROL);
        assert_eq!(byte % 16, selection);
        byte / 16
    };
    [0b001, 0b010, 0b100].map(|colour| 16 * half(colour) + half(0b1000 + colour))
}

/// The data sheet's procedure: load the four least significant bits, then read.
#[test]
fn table_8_row_by_row() {
    let mut chip = chip_with([[0x12, 0x34, 0x56]; 5], FIVE);
    chip.event(kind::TICK, tick_1_to_5(BLK));
    for (tr, byte) in [
        (0b0100, 0x54),
        (0b0010, 0x32),
        (0b0001, 0x11),
        (0b1100, 0x6C),
        (0b1010, 0x4A),
        (0b1001, 0x29),
    ] {
        chip.write_all(c::CONTROL, &[tr]);
        assert_eq!(chip.read(c::CONTROL), (0, byte), "TR3-TR0 {tr:04b}");
        // The same pixel, presented again, gives the same byte.
        chip.event(kind::TICK, tick_1_to_5(BLK));
        assert_eq!(chip.read(c::CONTROL), (0, byte), "TR3-TR0 {tr:04b}");
    }
    assert_eq!(codes_by_halves(&mut chip), [0x12, 0x34, 0x56]);
}

#[test]
fn no_half_is_shown_unless_one_colour_alone_is_selected() {
    for low in [0x0, 0x3, 0x5, 0x6, 0x7, 0x8, 0xB, 0xD, 0xE, 0xF] {
        for high in [0x00, 0x10, 0xA0, 0xF0] {
            let mut chip = chip_after([0xFF, 0xFF, 0xFF]);
            chip.write_all(c::CONTROL, &[high + low]);
            assert_eq!(chip.read(c::CONTROL), (0, low));
        }
    }
}

/// Codes each of whose halves has every value as n goes from 0 to 15.
fn codes_of_halves(n: u8) -> [u8; 3] {
    let code = |high: u8, low: u8| 16 * (high % 16) + low % 16;
    [code(n, 15 - n), code(n + 5, n + 9), code(n + 3, 7 * n + 1)]
}

/// All test bytes with codes of every half, after four or five pixels, with each
/// level.
#[test]
fn every_test_byte_with_codes_pixels_and_levels() {
    let mut read = BTreeSet::new();
    for n in 0..16 {
        let (d, e) = (codes_of_halves(n), codes_of_halves((n + 7) % 16));
        for (command, shown) in [(FOUR, d), (FIVE, e)] {
            for levels in 0..4 {
                let codes = if levels & BLK != 0 { shown } else { BLACK };
                let others = [0x77, 0x66, 0xEE];
                let mut chip = chip_with([others, others, others, d, e], command);
                // A pixel before, which the tick must leave nothing of.
                chip.set(p1::LAST_RED, 0xCC);
                chip.set(p1::LAST_GREEN, 0xCC);
                chip.set(p1::LAST_BLUE, 0xCC);
                chip.event(kind::TICK, tick_1_to_5(levels));
                assert_eq!(last_codes(&chip), codes);
                for test in 0..=255 {
                    chip.write_all(c::CONTROL, &[test]);
                    let byte = byte_read(test, codes);
                    assert_eq!(chip.read(c::CONTROL), (0, byte), "{test:02x} {codes:02x?}");
                    read.insert(byte);
                }
            }
        }
    }
    // 16 halves with each of 6 selections, and 10 selections that show none.
    assert_eq!(read.len(), 16 * 6 + 10);
}

#[test]
fn every_code_of_every_colour_comes_through() {
    for code in 0..=255u8 {
        let codes = [code, code.wrapping_mul(3), !code];
        let mut chip = chip_after(codes);
        assert_eq!(codes_by_halves(&mut chip), codes);
        assert_eq!(last_codes(&chip), codes);
    }
}

#[test]
fn the_last_pixel_is_d_or_e_and_cr7_counts_at_the_tick() {
    let colours = [1, 2, 3, 4, 5].map(|n| [0x10 + n, 0x20 + n, 0x30 + n]);
    for (command, other, codes) in [
        (FOUR, FIVE, [0x14, 0x24, 0x34]),
        (FIVE, FOUR, [0x15, 0x25, 0x35]),
    ] {
        let mut chip = chip_with(colours, command);
        chip.event(kind::TICK, tick_1_to_5(SYNC + BLK));
        assert_eq!(last_codes(&chip), codes);
        // CR7 changed between the tick and the read.
        chip.write_all(c::ADDRESS, &[6]);
        chip.write_all(c::CONTROL, &[other]);
        chip.write_all(c::ADDRESS, &[TEST]);
        assert_eq!(codes_by_halves(&mut chip), codes);
    }
}

/// The last pixel goes through masks, blink and overlays as any other.
#[test]
fn the_codes_are_those_of_the_colour_selected() {
    let mut chip = chip_with([[1; 3], [2; 3], [3; 3], [4; 3], [5; 3]], FOUR + 0x03);
    chip.set_entry(257, [0xA1, 0xB1, 0xC1]);
    chip.event(kind::TICK, [0, 0, 0, 4, 0, 0b01000, 0, BLK]);
    assert_eq!(codes_by_halves(&mut chip), [0xA1, 0xB1, 0xC1]);
    // OL0 of pixel E, which isn't shown.
    chip.event(kind::TICK, [0, 0, 0, 4, 0, 0b10000, 0, BLK]);
    assert_eq!(codes_by_halves(&mut chip), [4, 4, 4]);
    // Read mask 06h: pixel 5 shows entry 4.
    chip.set(p1::READ_MASK, 0x06);
    chip.event(kind::TICK, [0, 0, 0, 5, 0, 0, 0, BLK]);
    assert_eq!(codes_by_halves(&mut chip), [4, 4, 4]);
    // Plane 2 blinks: pixel 6 shows entry 2 in the off part.
    chip.set(p1::BLINK_MASK, 0x04);
    chip.vertical_periods(16);
    chip.event(kind::TICK, [0, 0, 0, 6, 0, 0, 0, BLK]);
    assert_eq!(codes_by_halves(&mut chip), [2, 2, 2]);
}

#[test]
fn a_blanked_tick_leaves_black() {
    for command in [FOUR, FIVE] {
        for levels in [0, SYNC] {
            let mut chip = chip_with([[0xFF; 3]; 5], command);
            chip.event(kind::TICK, tick_1_to_5(BLK));
            assert_eq!(codes_by_halves(&mut chip), [0xFF; 3]);
            chip.event(kind::TICK, tick_1_to_5(levels));
            assert_eq!(last_codes(&chip), BLACK);
            assert_eq!(codes_by_halves(&mut chip), BLACK);
        }
    }
}

#[test]
fn a_refused_tick_keeps_the_codes() {
    let mut refused = 0;
    for command in [FOUR, FIVE] {
        for levels in 0..4 {
            for &(byte, bits) in undefined_tick_bits(1) {
                for bit in (0..8).map(|n| 1 << n).filter(|bit| bits & bit != 0) {
                    let mut chip = chip_with([[0xFF; 3]; 5], command);
                    chip.set(p1::LAST_RED, 0x9C);
                    chip.set(p1::LAST_BLUE, 0x3D);
                    let before = chip.state.clone();
                    let mut operand = tick_1_to_5(levels);
                    operand[byte] |= bit;
                    assert_eq!(chip.event(kind::TICK, operand)[0], 4);
                    assert_eq!(chip.state, before);
                    assert_eq!(codes_by_halves(&mut chip), [0x9C, 0x00, 0x3D]);
                    refused += 1;
                }
            }
        }
    }
    assert_eq!(refused, 2 * 4 * 12);
}

#[test]
fn other_events_keep_the_codes() {
    let codes = [0x9C, 0x71, 0x3D];
    let mut chip = chip_with([[0xFF; 3]; 5], FIVE);
    chip.set_entry(5, codes);
    chip.event(kind::TICK, tick_1_to_5(BLK));
    // Entry 5, which pixel E showed, is painted, and every register written.
    let mut events = vec![vertical(), save_event(), load(1, 2), read(9)];
    events.extend([write(0, 5), write(1, 1), write(1, 2), write(1, 3), read(1)]);
    for address in 4..=7 {
        events.extend([write(0, address), write(2, 0xE9), read(2), save_event()]);
    }
    for event in events {
        chip.event(event.kind, event.operand);
        assert_eq!(last_codes(&chip), codes, "{event:?}");
    }
    assert_eq!(chip.entry(5), [1, 2, 3]);
    assert_eq!(codes_by_halves(&mut chip), codes);
}

#[test]
fn place_787_keeps_the_whole_byte_and_a_read_moves_nothing() {
    for position in 0..=2 {
        for test in 0..=255 {
            let mut chip = chip_after([0x9C, 0x71, 0x3D]);
            chip.set(p1::POSITION, position);
            let mut expected = chip.state.places();
            expected[p1::TEST] = test;
            chip.write_all(c::CONTROL, &[test]);
            assert_eq!(chip.state.places(), expected);
            let byte = chip.read_byte(c::CONTROL);
            assert_eq!(byte, byte_read(test, [0x9C, 0x71, 0x3D]));
            assert_eq!(chip.state.places(), expected);
            // Written back, what was read is kept, and reads alike.
            chip.write_all(c::CONTROL, &[byte]);
            assert_eq!(chip.place(p1::TEST), byte);
            assert_eq!(chip.read_byte(c::CONTROL), byte);
        }
    }
}

/// Only a control read at 07h shows halves of codes.
#[test]
fn other_reads_do_not_show_the_codes() {
    for address in 0..=255 {
        for selector in 0..=4 {
            if (selector, address) == (c::CONTROL, TEST) {
                continue;
            }
            let mut black = chip_after(BLACK);
            let mut white = chip_after([0xFF; 3]);
            for chip in [&mut black, &mut white] {
                chip.set(p1::ADDRESS, address);
                chip.set(p1::TEST, 0x01);
            }
            assert_eq!(black.read(selector), white.read(selector));
        }
    }
}

/// On random logs: an unrefused tick leaves the codes that its answer has last and
/// no other place changed; every other event leaves the codes.
#[test]
fn the_codes_are_the_last_of_the_last_answer() {
    let mut random = Random::seeded(0x5EED_0070);
    // Ticks that were refused, that left black, and that left a colour.
    let mut ticks = [0; 3];
    for _ in 0..100 {
        let mut chip = Bench {
            state: random.state(1),
        };
        for event in random.events(1, 60) {
            let mut expected = chip.state.places();
            let answer = chip.event(event.kind, event.operand);
            if !is_tick(&event) {
                assert_eq!(last_codes(&chip), expected[p1::LAST_RED..]);
                continue;
            }
            let last = 3 * usize::from(answer[1]);
            let codes = &answer[last..last + 3];
            if answer[0] == 0 {
                expected[p1::LAST_RED..].copy_from_slice(codes);
            }
            assert_eq!(chip.state.places(), expected);
            let sort = match answer[0] {
                0 if codes == BLACK => 1,
                0 => 2,
                _ => 0,
            };
            ticks[sort] += 1;
        }
    }
    assert!(ticks.iter().all(|&count| count > 50), "{ticks:?}");
}

#[test]
fn saves_keep_the_codes_for_a_later_read() {
    let chip = chip_with([[0x12, 0x34, 0x56]; 5], FOUR);
    let snapshot = save(&chip.state).unwrap();
    let shown = tick(tick_1_to_5(BLK));
    let plain = play(1, &snapshot, &[write(2, 0xF4), shown, read(2)]);
    let saves = [save_event(); 3];
    let events = [&[write(2, 0xF4), shown], &saves[..], &[read(2)]].concat();
    let saved = play(1, &snapshot, &events);
    assert_eq!(plain.answers[2][..2], [0, 0x54]);
    assert_eq!(saved.answers[5], plain.answers[2]);
    assert_eq!(saved.end, plain.end);
    // From that end on, in another run, the byte reads alike.
    let later = play(1, &saved.end, &[read(2)]);
    assert_eq!(later.answers[0], plain.answers[2]);
    assert_eq!(later.end, plain.end);
}

#[test]
fn chip_1_has_792_places_and_the_last_three_are_whole_bytes() {
    assert_eq!(State::place_count(1), Some(792));
    assert_eq!([p1::COUNT, p1::OLDER_COUNT], [792, 789]);
    let names = [p1::LAST_RED, p1::LAST_GREEN, p1::LAST_BLUE];
    assert_eq!(names, [789, 790, 791]);
    let restored = |pairs: &[(u16, u8)]| {
        let restored = restore(&snapshot_bytes(1, pairs));
        (
            restored.refusal.map(Refusal::number),
            restored.state.places(),
        )
    };
    for place in 789..=791 {
        assert_eq!(largest(1, place), 255);
        let (refusal, places) = restored(&[(place as u16, 255)]);
        assert_eq!(refusal, None);
        assert_eq!(places[place], 255);
        assert_eq!(restored(&[(place as u16, 0)]).0, Some(25));
    }
    assert_eq!(restored(&[(791, 1), (792, 1)]).0, Some(24));
    assert_eq!(restored(&[(792, 1)]).0, Some(24));
    // 792 pairs may be there, 793 may not.
    let pairs: Vec<(u16, u8)> = (0..793).map(|place| (place, 1)).collect();
    assert_eq!(restored(&pairs[..792]).0, None);
    assert_eq!(restored(&pairs).0, Some(22));
}

/// The number that each call with an end buffer of this size gives.
fn refusals_at(size: usize) -> [u8; 3] {
    let log = log_bytes(1, &[read(0)]);
    let (result, _, _) = run_with(&[1, 0, 0], &log, ANSWER_BYTES, size);
    let mut buffer = vec![0; size];
    let saved = save_into(&State::fresh(1).unwrap(), &mut buffer);
    let mut out = [0; CURRENTS_BYTES];
    let shown = tick_currents_into(&[1, 0, 0], &tick_1_to_5(BLK), &mut out, &mut buffer);
    [
        (result >> 16) as u8,
        saved.refusal.map_or(0, Refusal::number),
        (shown >> 16) as u8,
    ]
}

#[test]
fn refusal_31_means_under_2379_bytes() {
    assert_eq!([END_BYTES, END_BUFFER_BYTES], [2379; 2]);
    assert_eq!(OLDER_END_BYTES, 2370);
    for size in [0, 3, 2369, 2370, 2371, 2378] {
        assert_eq!(refusals_at(size), [31; 3], "{size}");
    }
    for size in [2379, 2380, 5000] {
        assert_eq!(refusals_at(size), [0; 3], "{size}");
    }
}

/// A snapshot of 789 places or fewer gives what it gave, after black.
#[test]
fn older_snapshots_mean_what_they_meant() {
    let mut random = Random::seeded(0x5EED_0071);
    for round in 0..60 {
        let places = if round == 0 {
            random.full_places(1)
        } else {
            random.places(1)
        };
        let older = &places[..p1::OLDER_COUNT];
        let snapshot = snapshot_bytes(1, &nonzero(older));
        assert!(snapshot.len() <= OLDER_END_BYTES);
        assert_eq!(round == 0, snapshot.len() == OLDER_END_BYTES);
        let restored = restore(&snapshot);
        assert_eq!(restored.refusal, None);
        assert_eq!(restored.state.places()[..p1::OLDER_COUNT], *older);
        assert_eq!(restored.state.places()[p1::OLDER_COUNT..], BLACK);
        assert_eq!(save(&restored.state), Ok(snapshot.clone()));
        // A 07h read gives the low four bits, and the end has no last pixel.
        let events = [write(0, TEST), read(2), vertical(), save_event()];
        let played = play(1, &snapshot, &events);
        assert_eq!(played.answers[1][1], older[p1::TEST] % 16);
        assert_eq!(restore(&played.end).state.places()[p1::LAST_RED..], BLACK);
    }
}

/// The 07h reads of this log are exactly these indices.
fn assert_reads(bench: &Bench, events: &[Event], indices: &[usize]) {
    let snapshot = save(&bench.state).unwrap();
    let log = log_bytes(bench.state.chip(), events);
    assert_eq!(test_register_reads(&snapshot, &log), Ok(indices.to_vec()));
}

#[test]
fn control_reads_at_7_are_07h_reads() {
    for address in 0..=255 {
        for position in 0..=2 {
            let start = [(p1::ADDRESS, address), (p1::POSITION, position)];
            let bench = Bench::with_places(1, &start);
            let indices: &[usize] = if address == TEST { &[1, 3] } else { &[] };
            // Selectors over 3 are refused, 6 among them.
            let events = [write(2, 1), read(2), read(6), read(2)];
            assert_reads(&bench, &events, indices);
        }
    }
    let at_07h = Bench::with_places(1, &[(p1::ADDRESS, TEST)]);
    // Whatever the byte selects.
    for test in 0..=255 {
        assert_reads(&at_07h, &[write(2, test), read(2)], &[1]);
    }
    // Other reads and writes are not.
    assert_reads(&at_07h, &[write(2, 1), read(0), read(3), read(1)], &[]);
}

#[test]
fn the_address_of_07h_reads_is_reckoned_from_the_accesses() {
    // A triple at 6 leads to 7, and one at 7 away from it.
    let triple = [write(1, 1), write(1, 2), write(1, 3)];
    let six = Bench::with_places(1, &[(p1::ADDRESS, 6)]);
    let events = [&triple[..], &[read(2)], &triple, &[read(2)]].concat();
    assert_reads(&six, &events, &[3]);
    // Display events, saves and refused accesses are passed over.
    let events = [
        read(2),
        write(0, TEST),
        tick(tick_1_to_5(BLK)),
        read(2),
        write(3, 9),
        vertical(),
        save_event(),
        load(1, 2),
        read(2),
        tick([0, 0, 0, 0, 0, 0, 0, 255]),
        write(0, 8),
        read(2),
    ];
    assert_reads(&Bench::fresh(1), &events, &[3, 8]);
}

#[test]
fn other_chips_have_no_07h_reads() {
    for chip in CHIPS.into_iter().filter(|&chip| chip != 1) {
        let events = [write(0, TEST), read(2), read(0), load(7, 7), read(2)];
        assert_reads(&Bench::fresh(chip), &events, &[]);
    }
}

#[test]
fn refused_pairs_have_no_07h_reads_but_the_runs_refusal() {
    let log = log_bytes(1, &[read(2)]);
    let bad_value = snapshot_bytes(1, &[(1, 0)]);
    let reads = |snapshot: &[u8], log: &[u8]| test_register_reads(snapshot, log);
    assert_eq!(reads(&bad_value, &log[..4]), Err(Refusal::Value));
    assert_eq!(reads(&[2, 0, 0], &log[..4]), Err(Refusal::LogShort));
    assert_eq!(reads(&[2, 0, 0], &log), Err(Refusal::TwoChips));
}

/// On random logs, by the address of each state on the way.
#[test]
fn random_07h_reads_are_the_control_reads_made_at_7() {
    let mut random = Random::seeded(0x5EED_0072);
    let (mut reads, mut others) = (0, 0);
    for _ in 0..100 {
        let start = random.state(1);
        let events = random.events(1, 60);
        let mut state = start.clone();
        let mut expected = Vec::new();
        for (index, entry) in events.iter().enumerate() {
            let at_7 = state.places()[p1::ADDRESS] == TEST;
            if entry.kind == kind::READ && entry.operand[0] == c::CONTROL && at_7 {
                expected.push(index);
            } else {
                others += usize::from(entry.kind == kind::READ);
            }
            state = event(&state, entry.kind, &entry.operand).1;
        }
        reads += expected.len();
        assert_reads(&Bench { state: start }, &events, &expected);
    }
    assert!(reads > 100, "{reads}");
    assert!(others > 500, "{others}");
}
