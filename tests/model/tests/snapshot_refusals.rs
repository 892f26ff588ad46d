//! Refusals of a restore (20 to 25), of a save (21, then 25) and of saving into
//! a lent buffer (21, 25, then 31), as calls of their own; and which states
//! there are.

use crate::common::Bench;
use kit::{largest, not_built, p1, p2, p3, place_count, snapshot_bytes, CHIPS};
use kit::{END_BYTES, OLDER_END_BYTES};
use model::{restore, save, save_into, Refusal, State};

/// A refused restore gives a fresh chip 1 beside its number.
fn assert_refused(bytes: &[u8], number: u8) {
    let restored = restore(bytes);
    assert_eq!(restored.refusal.map(Refusal::number), Some(number));
    assert_eq!(Some(restored.state), State::fresh(1));
}

fn assert_accepted(bytes: &[u8]) -> State {
    let restored = restore(bytes);
    assert_eq!(restored.refusal, None);
    restored.state
}

/// The first N places of a chip, all with the value 1.
fn first_places(chip: u8, count: usize) -> Vec<u8> {
    let pairs: Vec<(u16, u8)> = (0..count as u16).map(|place| (place, 1)).collect();
    snapshot_bytes(chip, &pairs)
}

#[test]
fn fresh_chips_are_three_bytes() {
    assert_eq!(Some(assert_accepted(&[1, 0, 0])), State::fresh(1));
    assert_eq!(Some(assert_accepted(&[2, 0, 0])), State::fresh(2));
    assert_eq!(Some(assert_accepted(&[3, 0, 0])), State::fresh(3));
    assert_eq!(save(&State::fresh(1).unwrap()), Ok(vec![1, 0, 0]));
    assert_eq!(save(&State::fresh(2).unwrap()), Ok(vec![2, 0, 0]));
    assert_eq!(save(&State::fresh(3).unwrap()), Ok(vec![3, 0, 0]));
}

#[test]
fn a_state_of_a_built_chip_has_that_chips_places() {
    assert_eq!(State::from_places(1, &[0; p1::COUNT]), State::fresh(1));
    assert_eq!(State::from_places(2, &[0; p2::COUNT]), State::fresh(2));
    assert_eq!(State::from_places(3, &[0; p3::COUNT]), State::fresh(3));
    for (chip, count) in [(1, 792), (2, 774), (3, 86)] {
        for wrong in [0, 1, count - 1, count + 1] {
            assert_eq!(State::from_places(chip, &vec![0; wrong]), None);
        }
        let state = State::from_places(chip, &vec![255; count]).unwrap();
        assert_eq!(state.chip(), chip);
        assert_eq!(state.places(), vec![255; count]);
    }
    assert_eq!(State::from_places(1, &[0; p2::COUNT]), None);
    assert_eq!(State::from_places(2, &[0; p1::COUNT]), None);
    assert_eq!(State::from_places(3, &[0; p2::COUNT]), None);
    assert_eq!(State::from_places(2, &[0; p3::COUNT]), None);
}

#[test]
fn a_state_of_a_chip_that_is_not_built_has_its_chip_byte_and_no_places() {
    for chip in not_built() {
        assert_eq!(State::fresh(chip), None);
        assert_eq!(State::place_count(chip), None);
        let state = State::from_places(chip, &[]).unwrap();
        assert_eq!(state.chip(), chip);
        assert_eq!(state.places(), []);
        // With no places no value is above its largest: 25 never meets 21.
        for count in [1, 3, p3::COUNT, p2::COUNT, p1::COUNT] {
            assert_eq!(State::from_places(chip, &vec![0; count]), None);
            assert_eq!(State::from_places(chip, &vec![255; count]), None);
        }
    }
}

#[test]
fn states_of_two_chips_that_are_not_built_differ() {
    for chip in not_built() {
        let same = not_built()
            .filter(|&other| State::from_places(other, &[]) == State::from_places(chip, &[]));
        assert_eq!(same.collect::<Vec<u8>>(), [chip]);
    }
}

#[test]
fn refusal_20_under_3_bytes() {
    assert_refused(&[], 20);
    assert_refused(&[1], 20);
    assert_refused(&[1, 0], 20);
    // 20 comes before 21.
    assert_refused(&[9, 9], 20);
}

#[test]
fn refusal_21_chip() {
    for chip in not_built() {
        assert_refused(&[chip, 0, 0], 21);
        // 21 comes before 22, 23, 24 and 25.
        assert_refused(&[chip, 0xFF, 0xFF], 21);
        assert_refused(&[chip, 1, 0], 21);
        assert_refused(&snapshot_bytes(chip, &[(5, 1), (5, 1)]), 21);
        assert_refused(&snapshot_bytes(chip, &[(5, 0)]), 21);
    }
}

#[test]
fn refusal_22_count_over_the_places() {
    for chip in CHIPS {
        let most = place_count(chip);
        assert_accepted(&first_places(chip, most));
        // One place too many: the right length for it doesn't help (24 and 23
        // would come after).
        assert_refused(&first_places(chip, most + 1), 22);
        assert_refused(&[chip, 0xFF, 0xFF], 22);
    }
    // 775 to 792 places are too many for chip 2 alone.
    assert_accepted(&first_places(1, 775));
    assert_refused(&first_places(2, 775), 22);
    // 87 and more are too many for chip 3 alone.
    assert_accepted(&first_places(3, 86));
    assert_refused(&first_places(3, 87), 22);
    assert_refused(&first_places(3, 774), 22);
    assert_accepted(&first_places(2, 87));
    // The high byte of the count counts: 256 + 86.
    assert_refused(&[3, 86, 1], 22);
}

#[test]
fn refusal_23_length() {
    for count in [0, 1, 2, 774] {
        let bytes = first_places(1, count);
        let mut longer = bytes.clone();
        longer.push(1);
        assert_accepted(&bytes);
        assert_refused(&longer, 23);
        if count > 0 {
            assert_refused(&bytes[..bytes.len() - 1], 23);
        }
    }
    // 23 comes before 24 and 25.
    let mut wrong = snapshot_bytes(2, &[(900, 0)]);
    assert_refused(&wrong, 24);
    wrong.push(0);
    assert_refused(&wrong, 23);
}

#[test]
fn refusal_24_places() {
    for chip in CHIPS {
        let last = place_count(chip) as u16 - 1;
        assert_accepted(&snapshot_bytes(chip, &[(0, 1), (last, 1)]));
        assert_refused(&snapshot_bytes(chip, &[(last + 1, 1)]), 24);
        assert_refused(&snapshot_bytes(chip, &[(0xFFFF, 1)]), 24);
        // Not above the one before: equal, or lower.
        assert_refused(&snapshot_bytes(chip, &[(5, 1), (5, 1)]), 24);
        assert_refused(&snapshot_bytes(chip, &[(5, 1), (4, 1)]), 24);
        assert_refused(&snapshot_bytes(chip, &[(0, 1), (0, 1)]), 24);
        assert_refused(&snapshot_bytes(chip, &[(1, 1), (3, 1), (2, 1)]), 24);
        assert_accepted(&snapshot_bytes(chip, &[(5, 1), (6, 1)]));
    }
    // The high byte of a place number counts.
    for chip in [1, 2] {
        assert_accepted(&snapshot_bytes(chip, &[(0x00FF, 1), (0x0100, 1)]));
        assert_refused(&snapshot_bytes(chip, &[(0x0100, 1), (0x00FF, 1)]), 24);
    }
    assert_refused(&snapshot_bytes(3, &[(0x0100, 1)]), 24);
    assert_refused(&snapshot_bytes(3, &[(0x0155, 1)]), 24);
}

#[test]
fn refusal_25_values() {
    for chip in CHIPS {
        for place in 0..place_count(chip) {
            let most = largest(chip, place);
            let number = place as u16;
            assert_refused(&snapshot_bytes(chip, &[(number, 0)]), 25);
            assert_accepted(&snapshot_bytes(chip, &[(number, 1)]));
            assert_accepted(&snapshot_bytes(chip, &[(number, most)]));
            if most < 255 {
                assert_refused(&snapshot_bytes(chip, &[(number, most + 1)]), 25);
                assert_refused(&snapshot_bytes(chip, &[(number, 255)]), 25);
            }
        }
    }
}

#[test]
fn refusals_24_and_25_the_lowest_index_decides() {
    // Index 0 has a bad value, index 1 a bad place: 25 is met first.
    assert_refused(&snapshot_bytes(1, &[(4, 0), (900, 1)]), 25);
    assert_refused(&snapshot_bytes(1, &[(781, 3), (781, 1)]), 25);
    // Index 0 has a bad place, index 1 a bad value: 24 is met first.
    assert_refused(&snapshot_bytes(1, &[(900, 1), (901, 0)]), 24);
    assert_refused(&snapshot_bytes(2, &[(7, 1), (7, 1), (8, 64)]), 24);
    // The same further on.
    assert_refused(&snapshot_bytes(2, &[(1, 1), (2, 64), (3, 1), (3, 1)]), 25);
    assert_refused(&snapshot_bytes(2, &[(1, 1), (2, 63), (2, 1), (3, 0)]), 24);
    assert_refused(&snapshot_bytes(3, &[(3, 2), (86, 1)]), 25);
    assert_refused(&snapshot_bytes(3, &[(3, 1), (86, 1), (87, 0)]), 24);
}

#[test]
fn refusals_24_and_25_at_one_index_the_smaller_number() {
    assert_refused(&snapshot_bytes(1, &[(792, 0)]), 24);
    assert_refused(&snapshot_bytes(2, &[(774, 0)]), 24);
    assert_refused(&snapshot_bytes(1, &[(781, 1), (781, 3)]), 24);
    assert_refused(&snapshot_bytes(1, &[(5, 1), (5, 0)]), 24);
    assert_refused(&snapshot_bytes(2, &[(5, 1), (4, 64)]), 24);
    assert_refused(&snapshot_bytes(3, &[(86, 0)]), 24);
    assert_refused(&snapshot_bytes(3, &[(80, 1), (80, 32)]), 24);
}

#[test]
fn the_largest_values_of_chip_3() {
    // A register's places, then the load position and what follows it.
    let mut expected = [15, 15, 15, 1, 1].repeat(16);
    expected.extend([31, 15, 3, 15, 15, 15]);
    assert_eq!(expected.len(), 86);
    for (place, most) in (0..).zip(expected) {
        assert_accepted(&snapshot_bytes(3, &[(place, most)]));
        assert_refused(&snapshot_bytes(3, &[(place, most + 1)]), 25);
    }
}

#[test]
fn a_restore_puts_every_value_at_its_place() {
    let state = assert_accepted(&snapshot_bytes(
        1,
        &[(0, 7), (780, 8), (781, 2), (788, 127), (789, 255), (791, 6)],
    ));
    let mut expected = vec![0; p1::COUNT];
    (expected[0], expected[780], expected[781], expected[788]) = (7, 8, 2, 127);
    (expected[789], expected[791]) = (255, 6);
    assert_eq!(state.chip(), 1);
    assert_eq!(state.places(), expected);

    let state = assert_accepted(&snapshot_bytes(
        2,
        &[(767, 63), (768, 255), (770, 1), (773, 9)],
    ));
    let mut expected = vec![0; p2::COUNT];
    (expected[767], expected[768], expected[770], expected[773]) = (63, 255, 1, 9);
    assert_eq!(state.chip(), 2);
    assert_eq!(state.places(), expected);

    let state = assert_accepted(&snapshot_bytes(
        3,
        &[(4, 1), (79, 1), (80, 31), (82, 3), (85, 15)],
    ));
    let mut expected = vec![0; p3::COUNT];
    (expected[4], expected[79], expected[80]) = (1, 1, 31);
    (expected[82], expected[85]) = (3, 15);
    assert_eq!(state.chip(), 3);
    assert_eq!(state.places(), expected);
}

#[test]
fn a_save_writes_exactly_the_places_that_are_not_0() {
    let chip = Bench::with_places(1, &[(2, 0x0A), (300, 0xFF), (783, 1)]);
    assert_eq!(
        save(&chip.state),
        Ok(vec![
            1, 3, 0, 0x02, 0x00, 0x2C, 0x01, 0x0F, 0x03, 0x0A, 0xFF, 0x01
        ])
    );
}

#[test]
fn save_refuses_25() {
    let chips_1_and_2 = [(1, 781), (1, 788), (2, 0), (2, 769), (2, 770), (2, 772)];
    let chip_3 = [(3, 0), (3, 3), (3, 4), (3, 80), (3, 81), (3, 82), (3, 85)];
    for (chip, place) in [&chips_1_and_2[..], &chip_3].concat() {
        let bench = Bench::with_places(chip, &[(place, largest(chip, place) + 1)]);
        assert_eq!(save(&bench.state), Err(Refusal::Value));
    }
}

#[test]
fn save_refuses_21() {
    for chip in not_built() {
        let bench = Bench::not_built(chip);
        assert_eq!(
            save(&bench.state).map_err(|refusal| refusal.number()),
            Err(21)
        );
        assert_eq!(bench.state.chip(), chip);
    }
}

#[test]
fn save_into_a_lent_buffer_one_short_exact_and_longer() {
    for (chip, place, value, [low, high]) in [
        (1, 300, 0x3F, [0x2C, 0x01]),
        (2, 300, 0x3F, [0x2C, 0x01]),
        (3, 80, 0x1F, [0x50, 0x00]),
    ] {
        let bench = Bench::with_places(chip, &[(2, 0x0A), (place, value)]);
        let bytes = [chip, 2, 0, 0x02, 0x00, low, high, 0x0A, value];
        for size in [END_BYTES, END_BYTES + 1, 5000] {
            let mut buffer = vec![0xEE; size];
            let saved = save_into(&bench.state, &mut buffer);
            assert_eq!(saved.refusal, None);
            assert_eq!(saved.length, 9);
            assert_eq!(buffer[..9], bytes);
            assert_eq!(buffer[9..], vec![0xEE; size - 9]);
        }
        // 261 and 2,325 bytes would do for any state of chips 3 and 2.
        // 2,370 would have done before Note 7.
        for size in [0, 9, 261, 2325, OLDER_END_BYTES, END_BYTES - 1] {
            assert_save_into_refused(&bench, size, 31);
        }
    }
}

/// Saving into a buffer of this size gives the number and length 0, and
/// changes no byte.
fn assert_save_into_refused(bench: &Bench, size: usize, number: u8) {
    let mut buffer = vec![0xEE; size];
    let saved = save_into(&bench.state, &mut buffer);
    assert_eq!(saved.refusal.map(Refusal::number), Some(number));
    assert_eq!(saved.length, 0);
    assert_eq!(buffer, vec![0xEE; size]);
}

#[test]
fn save_into_looks_for_21_before_31() {
    for chip in not_built() {
        let bench = Bench::not_built(chip);
        for size in [0, 2, 3, 2325, END_BYTES - 1, END_BYTES, END_BYTES + 1, 5000] {
            assert_save_into_refused(&bench, size, 21);
        }
        assert_eq!(bench.state.chip(), chip);
        assert_eq!(bench.state.places(), []);
    }
    // The same short buffers give 31 for chips that are built.
    for size in [0, 2, 3, 2325, END_BYTES - 1] {
        assert_save_into_refused(&Bench::fresh(1), size, 31);
        assert_save_into_refused(&Bench::fresh(2), size, 31);
        assert_save_into_refused(&Bench::fresh(3), size, 31);
    }
}

#[test]
fn save_into_looks_for_25_before_31() {
    let chip1 = Bench::with_places(1, &[(p1::POSITION, 3)]);
    let chip3 = Bench::with_places(3, &[(p3::HELD_ATTRIBUTES, 4)]);
    for bench in [chip1, chip3] {
        for size in [0, END_BYTES - 1, END_BYTES] {
            assert_save_into_refused(&bench, size, 25);
        }
    }
}

#[test]
fn the_longest_snapshot_fills_the_buffer() {
    let most = |&chip: &u8| place_count(chip);
    let chip = CHIPS.into_iter().max_by_key(most).unwrap();
    let longest = first_places(chip, place_count(chip));
    let bench = Bench {
        state: assert_accepted(&longest),
    };
    let mut buffer = vec![0xEE; END_BYTES];
    let saved = save_into(&bench.state, &mut buffer);
    assert_eq!(saved.refusal, None);
    assert_eq!(saved.length, END_BYTES);
    assert_eq!(buffer, longest);
}
