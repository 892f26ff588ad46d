//! Refusals of an event called by itself: 21, 25, 14, 15, then 1 to 5, each
//! alone and with others present. A refused event hands back the state it got.

use crate::common::Bench;
use kit::{highest_kind, largest, not_built, place_count, used_bytes, ANSWER_BYTES, CHIPS};
use kit::{p1, p2, p3};
use model::{kind, Operand};

/// The event must be refused with this number and change nothing.
fn assert_refused(chip: &Bench, kind: u8, operand: Operand, number: u8) {
    let (answer, next) = model::event(&chip.state, kind, &operand);
    let mut expected = [0; ANSWER_BYTES];
    expected[0] = number;
    assert_eq!(answer, expected, "kind {kind} operand {operand:02x?}");
    assert_eq!(next, chip.state, "kind {kind} operand {operand:02x?}");
}

fn assert_accepted(chip: &Bench, kind: u8, operand: Operand) {
    let (answer, _) = model::event(&chip.state, kind, &operand);
    assert_eq!(answer[0], 0, "kind {kind} operand {operand:02x?}");
}

/// An operand with one byte set.
fn one_byte(index: usize, value: u8) -> Operand {
    let mut operand = [0; 8];
    operand[index] = value;
    operand
}

#[test]
fn refusal_1_selectors_over_3() {
    for chip in [1, 2] {
        let bench = Bench::fresh(chip);
        for selector in 4..=255 {
            assert_refused(&bench, kind::WRITE, [selector, 9, 0, 0, 0, 0, 0, 0], 1);
            assert_refused(&bench, kind::READ, one_byte(0, selector), 1);
        }
        // 3 itself is a selector.
        assert_accepted(&bench, kind::WRITE, [3, 9, 0, 0, 0, 0, 0, 0]);
        assert_accepted(&bench, kind::READ, one_byte(0, 3));
    }
}

#[test]
fn refusal_1_comes_before_2_and_3() {
    // Address 8 has neither overlay nor control register.
    let chip1 = Bench::with_places(1, &[(p1::ADDRESS, 8)]);
    for selector in [2, 3] {
        assert_refused(&chip1, kind::READ, one_byte(0, selector), 2);
        assert_refused(&chip1, kind::READ, one_byte(0, selector + 4), 1);
        assert_refused(&chip1, kind::WRITE, one_byte(0, selector), 2);
        assert_refused(&chip1, kind::WRITE, one_byte(0, selector + 4), 1);
    }
    let reading = Bench::with_places(2, &[(p2::DIRECTION, 1)]);
    assert_refused(&reading, kind::WRITE, one_byte(0, 1), 3);
    assert_refused(&reading, kind::WRITE, one_byte(0, 5), 1);
    let writing = Bench::fresh(2);
    assert_refused(&writing, kind::READ, one_byte(0, 1), 3);
    assert_refused(&writing, kind::READ, one_byte(0, 5), 1);
}

#[test]
fn refusal_2_overlay_and_control_addresses() {
    for position in 0..=2 {
        for address in [0, 3, 4, 7, 8, 0x83, 0xFF] {
            let bench = Bench::with_places(1, &[(p1::ADDRESS, address), (p1::POSITION, position)]);
            let overlay = matches!(address, 0 | 3);
            let control = matches!(address, 4 | 7);
            for (selector, reached) in [(3, overlay), (2, control)] {
                let write = [selector, 0x55, 0, 0, 0, 0, 0, 0];
                let read = one_byte(0, selector);
                if reached {
                    assert_accepted(&bench, kind::WRITE, write);
                    assert_accepted(&bench, kind::READ, read);
                } else {
                    assert_refused(&bench, kind::WRITE, write, 2);
                    assert_refused(&bench, kind::READ, read, 2);
                }
            }
        }
    }
}

#[test]
fn refusal_3_direction() {
    for position in 0..=2 {
        for (direction, write, read) in [(0, 0, 3), (1, 3, 0)] {
            let bench =
                Bench::with_places(2, &[(p2::POSITION, position), (p2::DIRECTION, direction)]);
            for (event_kind, number) in [(kind::WRITE, write), (kind::READ, read)] {
                if number == 0 {
                    assert_accepted(&bench, event_kind, one_byte(0, 1));
                } else {
                    assert_refused(&bench, event_kind, one_byte(0, 1), number);
                }
            }
        }
    }
}

#[test]
fn refusal_3_ends_with_an_address_write_of_the_other_mode() {
    let mut chip = Bench::fresh(2);
    assert_eq!(chip.read(1), (3, 0));
    assert_eq!(chip.write(3, 0), 0);
    assert_eq!(chip.read(1), (0, 0));
    assert_eq!(chip.write(1, 5), 3);
    assert_eq!(chip.write(0, 0), 0);
    assert_eq!(chip.write(1, 5), 0);
}

#[test]
fn refusal_4_each_undefined_bit_of_a_tick() {
    for command in [0x00, 0xC3] {
        let chip1 = Bench::with_places(1, &[(p1::COMMAND, command)]);
        for (byte, first_undefined) in [(5, 5), (6, 5), (7, 2)] {
            for bit in 0..8 {
                let operand = one_byte(byte, 1 << bit);
                if bit < first_undefined {
                    assert_accepted(&chip1, kind::TICK, operand);
                } else {
                    assert_refused(&chip1, kind::TICK, operand, 4);
                }
            }
        }
    }
    let chip2 = Bench::fresh(2);
    assert_accepted(&chip2, kind::TICK, one_byte(7, 1));
    for bit in 1..8 {
        assert_refused(&chip2, kind::TICK, one_byte(7, 1 << bit), 4);
        assert_refused(&chip2, kind::TICK, one_byte(7, 1 | 1 << bit), 4);
    }
    let chip3 = Bench::fresh(3);
    for byte in [0, 1] {
        for bit in 0..4 {
            assert_accepted(&chip3, kind::TICK, one_byte(byte, 1 << bit));
        }
        for bit in 4..8 {
            assert_refused(&chip3, kind::TICK, one_byte(byte, 1 << bit), 4);
        }
    }
    assert_accepted(&chip3, kind::TICK, one_byte(7, 1));
    for bit in 1..8 {
        assert_refused(&chip3, kind::TICK, one_byte(7, 1 << bit), 4);
        assert_refused(&chip3, kind::TICK, one_byte(7, 1 | 1 << bit), 4);
    }
}

/// Two states of chip 3 in which a load or a tick would show: a first load and a
/// second load to come, no place 0 besides.
fn full_chip_3() -> [Bench; 2] {
    [30, 31].map(|position| {
        let mut bench = Bench::fresh(3);
        for place in 0..p3::COUNT {
            bench.set(place, largest(3, place));
        }
        bench.set(p3::LOAD_POSITION, position);
        bench
    })
}

#[test]
fn refusal_4_da_or_db_over_15_on_chip_3() {
    for bench in full_chip_3() {
        for pins in 0..=255 {
            for operand in [[pins, 15], [15, pins], [pins, pins]] {
                let [da, db] = operand;
                let load = [da, db, 0, 0, 0, 0, 0, 0];
                let blanked = load;
                let shown = [da, db, 0, 0, 0, 0, 0, 1];
                for (event_kind, operand) in [
                    (kind::LOAD, load),
                    (kind::TICK, blanked),
                    (kind::TICK, shown),
                ] {
                    if pins <= 15 {
                        assert_accepted(&bench, event_kind, operand);
                    } else {
                        assert_refused(&bench, event_kind, operand, 4);
                    }
                }
            }
        }
    }
}

#[test]
fn refusal_4_every_level_byte_of_chip_3() {
    for bench in full_chip_3() {
        for levels in 0..=255 {
            for pixel in [0, 15] {
                let operand = [pixel, pixel, 0, 0, 0, 0, 0, levels];
                if levels <= 1 {
                    assert_accepted(&bench, kind::TICK, operand);
                } else {
                    assert_refused(&bench, kind::TICK, operand, 4);
                }
            }
            // Two reasons for one number.
            if levels > 1 {
                assert_refused(&bench, kind::TICK, [16, 0, 0, 0, 0, 0, 0, levels], 4);
            }
        }
    }
}

#[test]
fn refusal_5_vertical_period_on_chip_2() {
    assert_refused(&Bench::fresh(2), kind::VERTICAL, [0; 8], 5);
    assert_accepted(&Bench::fresh(1), kind::VERTICAL, [0; 8]);
}

#[test]
fn refusal_5_loads_on_chips_1_and_2() {
    for chip in [1, 2] {
        let bench = Bench::fresh(chip);
        for byte in 0..=255 {
            // 4 is chip 3's: pins over 15 make no difference here.
            for operand in [[byte, 0], [0, byte], [byte, byte]] {
                let [da, db] = operand;
                assert_refused(&bench, kind::LOAD, [da, db, 0, 0, 0, 0, 0, 0], 5);
            }
        }
    }
    // Where a colour write would be refused too, and where it would paint.
    let reading = Bench::with_places(2, &[(p2::DIRECTION, 1), (p2::POSITION, 2)]);
    assert_refused(&reading, kind::LOAD, [1, 2, 0, 0, 0, 0, 0, 0], 5);
    let blue = Bench::with_places(1, &[(p1::POSITION, 2)]);
    assert_refused(&blue, kind::LOAD, [1, 2, 0, 0, 0, 0, 0, 0], 5);
    assert_accepted(&Bench::fresh(3), kind::LOAD, [1, 2, 0, 0, 0, 0, 0, 0]);
}

#[test]
fn refusal_5_writes_reads_and_vertical_periods_on_chip_3() {
    for bench in full_chip_3() {
        // 5 comes before 1: selectors over 3 are no exception.
        for selector in 0..=255 {
            for byte in [0, 15, 16, 255] {
                let operand = [selector, byte, 0, 0, 0, 0, 0, 0];
                assert_refused(&bench, kind::WRITE, operand, 5);
            }
            assert_refused(&bench, kind::READ, one_byte(0, selector), 5);
        }
        assert_refused(&bench, kind::VERTICAL, [0; 8], 5);
        for event_kind in [kind::TICK, kind::SAVE, kind::LOAD] {
            assert_accepted(&bench, event_kind, [0; 8]);
        }
    }
}

#[test]
fn refusal_14_kinds_over_5() {
    for chip in CHIPS {
        let bench = Bench::fresh(chip);
        for event_kind in highest_kind(chip) + 1..=255 {
            assert_refused(&bench, event_kind, [0; 8], 14);
            // 14 comes before 15.
            assert_refused(&bench, event_kind, [9; 8], 14);
        }
        assert_accepted(&bench, kind::SAVE, [0; 8]);
        assert_eq!([highest_kind(chip), kind::LOAD], [5; 2]);
        let (answer, _) = model::event(&bench.state, 5, &[0; 8]);
        assert_ne!(answer[0], 14);
    }
}

#[test]
fn refusal_15_each_unused_operand_byte() {
    let mut refused = 0;
    for chip in CHIPS {
        for event_kind in 0..=highest_kind(chip) {
            for byte in 0..8 {
                let operand = one_byte(byte, 1);
                let (answer, _) = model::event(&Bench::fresh(chip).state, event_kind, &operand);
                if used_bytes(chip, event_kind).contains(&byte) {
                    assert_ne!(answer[0], 15);
                } else {
                    assert_refused(&Bench::fresh(chip), event_kind, operand, 15);
                    refused += 1;
                }
            }
        }
    }
    // 6 + 7 + 0 + 8 + 8 + 6 on chip 1, 6 more for chip 2's tick, 5 for chip 3's.
    assert_eq!(refused, 35 + 41 + 40);
}

#[test]
fn refusal_15_comes_before_1_to_5() {
    // Each event alone gives the first number; with an unused byte set, 15.
    let chip1 = Bench::with_places(1, &[(p1::ADDRESS, 8)]);
    for (event_kind, operand, number) in [
        (kind::WRITE, [4, 0, 0, 0, 0, 0, 0, 0], 1),
        (kind::READ, [4, 0, 0, 0, 0, 0, 0, 0], 1),
        (kind::WRITE, [2, 0, 0, 0, 0, 0, 0, 0], 2),
        (kind::READ, [3, 0, 0, 0, 0, 0, 0, 0], 2),
    ] {
        assert_refused(&chip1, event_kind, operand, number);
        let mut with_unused = operand;
        with_unused[7] = 1;
        assert_refused(&chip1, event_kind, with_unused, 15);
    }
    let chip2 = Bench::fresh(2);
    for (event_kind, operand, number) in [
        (kind::READ, [4, 0, 0, 0, 0, 0, 0, 0], 1),
        (kind::READ, [1, 0, 0, 0, 0, 0, 0, 0], 3),
        (kind::TICK, [0, 0, 0, 0, 0, 0, 0, 2], 4),
        (kind::VERTICAL, [0, 0, 0, 0, 0, 0, 0, 0], 5),
    ] {
        assert_refused(&chip2, event_kind, operand, number);
        let mut with_unused = operand;
        with_unused[6] = 1;
        assert_refused(&chip2, event_kind, with_unused, 15);
    }
    for bench in [&chip1, &chip2] {
        for operand in [[0, 0, 0, 0, 0, 0, 0, 0], [16, 255, 0, 0, 0, 0, 0, 0]] {
            assert_refused(bench, kind::LOAD, operand, 5);
            for unused in 2..8 {
                let mut with_unused = operand;
                with_unused[unused] = 1;
                assert_refused(bench, kind::LOAD, with_unused, 15);
            }
        }
    }
    let chip3 = Bench::fresh(3);
    for (event_kind, operand, number) in [
        (kind::WRITE, [0, 0, 0, 0, 0, 0, 0, 0], 5),
        (kind::WRITE, [4, 0, 0, 0, 0, 0, 0, 0], 5),
        (kind::READ, [1, 0, 0, 0, 0, 0, 0, 0], 5),
        (kind::READ, [4, 0, 0, 0, 0, 0, 0, 0], 5),
        (kind::VERTICAL, [0, 0, 0, 0, 0, 0, 0, 0], 5),
        (kind::TICK, [16, 0, 0, 0, 0, 0, 0, 1], 4),
        (kind::TICK, [0, 16, 0, 0, 0, 0, 0, 1], 4),
        (kind::TICK, [0, 0, 0, 0, 0, 0, 0, 2], 4),
        (kind::LOAD, [16, 0, 0, 0, 0, 0, 0, 0], 4),
        (kind::LOAD, [0, 255, 0, 0, 0, 0, 0, 0], 4),
    ] {
        assert_refused(&chip3, event_kind, operand, number);
        for unused in 2..7 {
            let mut with_unused = operand;
            with_unused[unused] = 1;
            assert_refused(&chip3, event_kind, with_unused, 15);
        }
    }
}

#[test]
fn refusal_25_each_state_value_above_its_largest() {
    let mut places_tried = 0;
    for chip in CHIPS {
        for place in 0..place_count(chip) {
            let most = largest(chip, place);
            assert_accepted(
                &Bench::with_places(chip, &[(place, most)]),
                kind::SAVE,
                [0; 8],
            );
            if most < 255 {
                places_tried += 1;
                for value in [most + 1, 255] {
                    let bench = Bench::with_places(chip, &[(place, value)]);
                    for event_kind in 0..=highest_kind(chip) {
                        assert_refused(&bench, event_kind, [0; 8], 25);
                    }
                }
            }
        }
    }
    // Position and blink count; 768 colours, position, direction, held bytes;
    // every place of chip 3.
    assert_eq!(places_tried, 2 + 772 + 86);
}

#[test]
fn refusal_25_comes_before_14_15_and_1_to_5() {
    let chip1 = Bench::with_places(1, &[(p1::ADDRESS, 8), (p1::BLINK_COUNT, 128)]);
    let chip2 = Bench::with_places(2, &[(p2::DIRECTION, 2)]);
    let chip3 = Bench::with_places(3, &[(p3::LOAD_POSITION, 32)]);
    for bench in [&chip1, &chip2, &chip3] {
        assert_refused(bench, 200, [0; 8], 25);
        assert_refused(bench, kind::SAVE, [1; 8], 25);
        assert_refused(bench, kind::READ, one_byte(0, 9), 25);
        assert_refused(bench, kind::TICK, one_byte(7, 128), 25);
        assert_refused(bench, kind::VERTICAL, [0; 8], 25);
        assert_refused(bench, kind::LOAD, [0; 8], 25);
        assert_refused(bench, kind::LOAD, [16; 8], 25);
    }
    assert_refused(&chip1, kind::READ, one_byte(0, 2), 25);
    assert_refused(&chip2, kind::READ, one_byte(0, 1), 25);
}

#[test]
fn refusal_21_every_chip_that_is_not_built() {
    let mut chips = 0;
    for chip in not_built() {
        let bench = Bench::not_built(chip);
        for event_kind in 0..=kind::LOAD {
            assert_refused(&bench, event_kind, [0; 8], 21);
        }
        chips += 1;
    }
    assert_eq!(chips, 256 - CHIPS.len());
}

#[test]
fn refusal_21_hands_the_state_back_time_after_time() {
    for chip in not_built() {
        let mut bench = Bench::not_built(chip);
        for _ in 0..3 {
            assert_eq!(bench.write(0, 5), 21);
            assert_eq!(bench.read(0), (21, 0));
            for event_kind in [kind::TICK, kind::VERTICAL, kind::SAVE, kind::LOAD] {
                assert_eq!(bench.event(event_kind, [0; 8])[0], 21);
            }
            assert_eq!(bench.state.chip(), chip);
            assert_eq!(bench.state.places(), []);
        }
    }
}

#[test]
fn refusal_21_comes_before_14_15_and_1_to_5() {
    // Each event gives its own number on a fresh chip that is built, and 21 on
    // every chip that isn't.
    let cases = [
        (1, highest_kind(1) + 1, [0; 8], 14),
        (2, 200, [9; 8], 14),
        (1, 255, one_byte(7, 1), 14),
        (1, kind::WRITE, one_byte(2, 1), 15),
        (2, kind::READ, one_byte(1, 1), 15),
        (2, kind::TICK, one_byte(6, 1), 15),
        (1, kind::VERTICAL, one_byte(0, 1), 15),
        (2, kind::SAVE, one_byte(7, 1), 15),
        (1, kind::WRITE, [4, 9, 0, 0, 0, 0, 0, 0], 1),
        (2, kind::READ, one_byte(0, 255), 1),
        (1, kind::READ, one_byte(0, 2), 2),
        (2, kind::READ, one_byte(0, 1), 3),
        (1, kind::TICK, one_byte(5, 32), 4),
        (2, kind::TICK, one_byte(7, 2), 4),
        (2, kind::VERTICAL, [0; 8], 5),
        (3, 6, [0; 8], 14),
        (3, kind::LOAD, one_byte(2, 1), 15),
        (3, kind::TICK, one_byte(2, 1), 15),
        (3, kind::LOAD, one_byte(1, 16), 4),
        (3, kind::TICK, one_byte(7, 2), 4),
        (3, kind::WRITE, one_byte(0, 4), 5),
        (1, kind::LOAD, [0; 8], 5),
    ];
    for (built, event_kind, operand, number) in cases {
        assert_refused(&Bench::fresh(built), event_kind, operand, number);
        for chip in not_built() {
            assert_refused(&Bench::not_built(chip), event_kind, operand, 21);
        }
    }
}

#[test]
fn refusal_21_whatever_the_kind_and_the_operand() {
    for chip in not_built() {
        let bench = Bench::not_built(chip);
        for event_kind in 0..=255 {
            for operand in [[0; 8], [1; 8], [255; 8]] {
                assert_refused(&bench, event_kind, operand, 21);
            }
        }
    }
}
