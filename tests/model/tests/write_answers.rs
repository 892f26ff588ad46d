//! What a write answers by document 02's Note 5, worked out by hand: 1 in byte 1
//! and a number in bytes 2 and 3 if it paints, zeros if not.

use crate::common::{painted_answer, play, Bench};
use kit::{c, counter_places, highest_kind, log_bytes, p1, p2, p3, rs};
use kit::{load, read, save, tick, vertical, write, ANSWER_BYTES, NOT_BUILT};
use model::{kind, painting_accesses, Answer};

/// The answer of a write that isn't refused and doesn't paint.
const QUIET: Answer = [0; ANSWER_BYTES];

/// The answer with these bytes at its start and zeros behind them.
fn answer_of(start: &[u8]) -> Answer {
    let mut answer = QUIET;
    answer[..start.len()].copy_from_slice(start);
    answer
}

/// Chip 1 with this address register and position.
fn chip_1_at(address: u8, position: u8) -> Bench {
    Bench::with_places(1, &[(p1::ADDRESS, address), (p1::POSITION, position)])
}

/// Chip 2 with this address register, position and direction.
fn chip_2_at(address: u8, position: u8, direction: u8) -> Bench {
    let places = [
        (p2::ADDRESS, address),
        (p2::POSITION, position),
        (p2::DIRECTION, direction),
    ];
    Bench::with_places(2, &places)
}

#[test]
fn chip_1_every_palette_entry_has_its_own_number() {
    for address in 0..=255 {
        let mut chip = chip_1_at(address, 2);
        let painted = answer_of(&[0, 1, address, 0]);
        assert_eq!(chip.write_answer(c::PALETTE, 0x77), painted);
        assert_eq!(chip.entry(usize::from(address)), [0, 0, 0x77]);
    }
}

#[test]
fn chip_1_the_whole_palette_is_numbered_in_order() {
    let mut chip = Bench::fresh(1);
    for entry in 0..=255 {
        assert_eq!(chip.write_answer(c::PALETTE, 0x61), QUIET);
        assert_eq!(chip.write_answer(c::PALETTE, 0x62), QUIET);
        let painted = answer_of(&[0, 1, entry, 0]);
        assert_eq!(chip.write_answer(c::PALETTE, 0x63), painted);
    }
    // Round again.
    chip.write_all(c::PALETTE, &[1, 2]);
    assert_eq!(chip.write_answer(c::PALETTE, 3), answer_of(&[0, 1, 0, 0]));
}

#[test]
fn chip_1_overlays_have_the_numbers_256_to_259() {
    for (address, entry, low, high) in [
        (0, 256, 0x00, 0x01),
        (1, 257, 0x01, 0x01),
        (2, 258, 0x02, 0x01),
        (3, 259, 0x03, 0x01),
    ] {
        let mut chip = chip_1_at(address, 0);
        assert_eq!(chip.write_answer(c::OVERLAY, 0x61), QUIET);
        assert_eq!(chip.write_answer(c::OVERLAY, 0x62), QUIET);
        let painted = answer_of(&[0, 1, low, high]);
        assert_eq!(chip.write_answer(c::OVERLAY, 0x63), painted);
        assert_eq!(chip.entry(entry), [0x61, 0x62, 0x63]);
        // The palette entry of the same address has the address as its number.
        let mut chip = chip_1_at(address, 2);
        let painted = answer_of(&[0, 1, address, 0]);
        assert_eq!(chip.write_answer(c::PALETTE, 0x63), painted);
    }
}

#[test]
fn chip_1_registers_04h_to_06h_have_numbers_and_07h_has_none() {
    for position in 0..=2 {
        for byte in [0x00, 0x01, 0x40, 0xFF] {
            for (address, place, expected) in [
                (4, p1::READ_MASK, answer_of(&[0, 1, 0x04, 0x01])),
                (5, p1::BLINK_MASK, answer_of(&[0, 1, 0x05, 0x01])),
                (6, p1::COMMAND, answer_of(&[0, 1, 0x06, 0x01])),
                (7, p1::TEST, QUIET),
            ] {
                let mut chip = chip_1_at(address, position);
                assert_eq!(chip.write_answer(c::CONTROL, byte), expected);
                assert_eq!(chip.place(place), byte);
            }
        }
    }
}

#[test]
fn chip_2_every_entry_has_its_own_number() {
    for address in 0..=255 {
        let mut chip = chip_2_at(address, 2, 0);
        let painted = answer_of(&[0, 1, address, 0]);
        assert_eq!(chip.write_answer(rs::CLT, 0x37), painted);
        assert_eq!(chip.entry(usize::from(address)), [0, 0, 0x37]);
    }
}

#[test]
fn chip_2_the_whole_clt_is_numbered_in_order() {
    let mut chip = Bench::fresh(2);
    for entry in 0..=255 {
        assert_eq!(chip.write_answer(rs::CLT, 0x21), QUIET);
        assert_eq!(chip.write_answer(rs::CLT, 0x22), QUIET);
        let painted = answer_of(&[0, 1, entry, 0]);
        assert_eq!(chip.write_answer(rs::CLT, 0x23), painted);
    }
    // Round again.
    chip.write_all(rs::CLT, &[1, 2]);
    assert_eq!(chip.write_answer(rs::CLT, 3), answer_of(&[0, 1, 0, 0]));
}

#[test]
fn chip_2_the_pixel_mask_has_the_number_260() {
    for position in 0..=2 {
        for direction in [0, 1] {
            let mut chip = chip_2_at(9, position, direction);
            for byte in 0..=255 {
                let painted = answer_of(&[0, 1, 0x04, 0x01]);
                assert_eq!(chip.write_answer(rs::PIXEL_MASK, byte), painted);
                assert_eq!(chip.place(p2::MASK), byte);
            }
        }
    }
}

/// The state and the write, then the answer's first four bytes.
#[test]
fn the_numbers_low_byte_comes_first() {
    let cases = [
        (chip_1_at(1, 2), c::PALETTE, [0, 1, 0x01, 0x00]),
        (chip_1_at(255, 2), c::PALETTE, [0, 1, 0xFF, 0x00]),
        (chip_1_at(0, 2), c::OVERLAY, [0, 1, 0x00, 0x01]),
        (chip_1_at(1, 2), c::OVERLAY, [0, 1, 0x01, 0x01]),
        (chip_1_at(2, 2), c::OVERLAY, [0, 1, 0x02, 0x01]),
        (chip_1_at(3, 2), c::OVERLAY, [0, 1, 0x03, 0x01]),
        (chip_1_at(4, 2), c::CONTROL, [0, 1, 0x04, 0x01]),
        (chip_1_at(5, 2), c::CONTROL, [0, 1, 0x05, 0x01]),
        (chip_1_at(6, 2), c::CONTROL, [0, 1, 0x06, 0x01]),
        (chip_2_at(255, 2, 0), rs::CLT, [0, 1, 0xFF, 0x00]),
        (chip_2_at(255, 2, 0), rs::PIXEL_MASK, [0, 1, 0x04, 0x01]),
    ];
    for (mut chip, selector, start) in cases {
        assert_eq!(chip.write_answer(selector, 0x5A), answer_of(&start));
    }
    // The shared tests' own form of the answer.
    assert_eq!(painted_answer(0), answer_of(&[0, 1, 0, 0]));
    assert_eq!(painted_answer(255), answer_of(&[0, 1, 255, 0]));
    assert_eq!(painted_answer(259), answer_of(&[0, 1, 3, 1]));
}

#[test]
fn colour_writes_at_positions_0_and_1_answer_zeros() {
    for position in [0, 1] {
        for address in 0..=255 {
            let mut palette = chip_1_at(address, position);
            assert_eq!(palette.write_answer(c::PALETTE, 0xFF), QUIET);
            let mut clt = chip_2_at(address, position, 0);
            assert_eq!(clt.write_answer(rs::CLT, 0xFF), QUIET);
        }
        for address in 0..=3 {
            let mut overlay = chip_1_at(address, position);
            assert_eq!(overlay.write_answer(c::OVERLAY, 0xFF), QUIET);
        }
    }
}

#[test]
fn a_triple_at_ff_answers_255_and_leaves_the_address_at_0() {
    let mut chip_1 = Bench::fresh(1);
    chip_1.write_all(c::ADDRESS, &[0xFF]);
    chip_1.write_all(c::PALETTE, &[1, 2]);
    let last = chip_1.write_answer(c::PALETTE, 3);
    assert_eq!(last, answer_of(&[0, 1, 0xFF, 0x00]));
    assert_eq!(chip_1.place(p1::ADDRESS), 0);

    let mut chip_2 = Bench::fresh(2);
    chip_2.write_all(rs::WRITE_MODE, &[0xFF]);
    chip_2.write_all(rs::CLT, &[1, 2]);
    let last = chip_2.write_answer(rs::CLT, 3);
    assert_eq!(last, answer_of(&[0, 1, 0xFF, 0x00]));
    assert_eq!(chip_2.place(p2::ADDRESS), 0);
}

#[test]
fn reads_inside_a_triple_leave_the_number_to_the_position() {
    // Two reads, then a write at position 2 (M4).
    let mut chip = chip_1_at(9, 0);
    assert_eq!(chip.read(c::PALETTE), (0, 0));
    assert_eq!(chip.read(c::PALETTE), (0, 0));
    assert_eq!(chip.write_answer(c::PALETTE, 7), answer_of(&[0, 1, 9, 0]));
    // An address read starts chip 1's triple again, and not chip 2's.
    let mut chip = chip_1_at(9, 2);
    assert_eq!(chip.read(c::ADDRESS), (0, 9));
    assert_eq!(chip.write_answer(c::PALETTE, 7), QUIET);
    let mut chip = chip_2_at(9, 2, 0);
    assert_eq!(chip.read(rs::WRITE_MODE), (0, 9));
    assert_eq!(chip.write_answer(rs::CLT, 7), answer_of(&[0, 1, 9, 0]));
}

/// Whether the value changed doesn't matter: each write again from the address
/// and position of the first.
#[test]
fn a_write_of_the_value_already_there_answers_alike() {
    let cases = [
        (chip_1_at(8, 2), c::PALETTE, [0, 1, 0x08, 0x00]),
        (chip_1_at(3, 2), c::OVERLAY, [0, 1, 0x03, 0x01]),
        (chip_1_at(4, 0), c::CONTROL, [0, 1, 0x04, 0x01]),
        (chip_1_at(5, 0), c::CONTROL, [0, 1, 0x05, 0x01]),
        (chip_1_at(6, 0), c::CONTROL, [0, 1, 0x06, 0x01]),
        (chip_2_at(8, 2, 0), rs::CLT, [0, 1, 0x08, 0x00]),
        (chip_2_at(8, 0, 0), rs::PIXEL_MASK, [0, 1, 0x04, 0x01]),
    ];
    for (mut chip, selector, start) in cases {
        let counters = counter_places(chip.state.chip());
        let kept: Vec<_> = counters.iter().map(|&at| (at, chip.place(at))).collect();
        // 0 is there already; then 2Ah twice.
        let states = [0x00, 0x2A, 0x2A].map(|byte| {
            for &(place, value) in &kept {
                chip.set(place, value);
            }
            assert_eq!(chip.write_answer(selector, byte), answer_of(&start));
            chip.state.clone()
        });
        assert_ne!(states[0], states[1]);
        assert_eq!(states[1], states[2]);
    }
}

#[test]
fn refused_writes_answer_their_refusal_and_zeros() {
    let assert_refused = |mut chip: Bench, selector, number| {
        let before = chip.state.clone();
        assert_eq!(chip.write_answer(selector, 9), answer_of(&[number]));
        assert_eq!(chip.state, before);
    };
    for selector in 4..=255 {
        assert_refused(chip_1_at(5, 2), selector, 1);
        assert_refused(chip_2_at(5, 2, 0), selector, 1);
    }
    for address in 4..=255 {
        assert_refused(chip_1_at(address, 2), c::OVERLAY, 2);
    }
    for address in (0..=3).chain(8..=255) {
        assert_refused(chip_1_at(address, 2), c::CONTROL, 2);
    }
    for address in 0..=255 {
        assert_refused(chip_2_at(address, 2, 1), rs::CLT, 3);
    }
    for selector in 0..=3 {
        let chip_3 = Bench::with_places(3, &[(p3::LOAD_POSITION, 1)]);
        assert_refused(chip_3, selector, 5);
    }
}

/// Refusals of an event called by itself: 21 for the chip, 25 for a value, 14 for
/// the kind, 15 for an unused byte.
#[test]
fn writes_refused_before_the_chip_looks_at_them_paint_nothing() {
    let mut over = chip_1_at(4, 2);
    over.set(p1::POSITION, 3);
    assert_eq!(over.write_answer(c::PALETTE, 9), answer_of(&[25]));
    assert_eq!(over.write_answer(c::CONTROL, 9), answer_of(&[25]));
    let mut over = chip_2_at(4, 2, 2);
    assert_eq!(over.write_answer(rs::PIXEL_MASK, 9), answer_of(&[25]));
    let mut unused = chip_1_at(4, 2);
    let odd_operand = [c::PALETTE, 9, 0, 0, 0, 0, 0, 1];
    assert_eq!(unused.event(kind::WRITE, odd_operand), answer_of(&[15]));
    let odd_kind = highest_kind(1) + 1;
    assert_eq!(unused.event(odd_kind, odd_operand), answer_of(&[14]));
    let mut not_built = Bench::not_built(NOT_BUILT);
    assert_eq!(not_built.write_answer(c::PALETTE, 9), answer_of(&[21]));
}

#[test]
fn address_writes_answer_zeros() {
    for position in 0..=2 {
        for byte in 0..=255 {
            let mut chip = chip_1_at(5, position);
            assert_eq!(chip.write_answer(c::ADDRESS, byte), QUIET);
            for direction in [0, 1] {
                for selector in [rs::WRITE_MODE, rs::READ_MODE] {
                    let mut chip = chip_2_at(5, position, direction);
                    assert_eq!(chip.write_answer(selector, byte), QUIET);
                }
            }
        }
    }
}

/// A read that gives 1 has 1 in byte 1, as any read has its byte there, and no
/// number behind it.
#[test]
fn reads_answer_their_byte_and_no_number() {
    for byte in [0, 1, 2, 63] {
        let read_answer = |mut chip: Bench, place, selector| {
            chip.set(place, byte);
            chip.event(kind::READ, [selector, 0, 0, 0, 0, 0, 0, 0])
        };
        let expected = answer_of(&[0, byte, 0, 0]);
        // Blue of palette entry 9, of overlay 3, of chip 2's entry 8.
        assert_eq!(read_answer(chip_1_at(9, 2), 29, c::PALETTE), expected);
        assert_eq!(read_answer(chip_1_at(3, 2), 779, c::OVERLAY), expected);
        assert_eq!(read_answer(chip_2_at(9, 2, 1), 26, rs::CLT), expected);
        for (address, place) in [(4, 784), (5, 785), (6, 786)] {
            let chip = chip_1_at(address, 2);
            assert_eq!(read_answer(chip, place, c::CONTROL), expected);
        }
        // The test register gives the low four bits alone after black.
        let test = read_answer(chip_1_at(7, 2), p1::TEST, c::CONTROL);
        assert_eq!(test, answer_of(&[0, byte & 15, 0, 0]));
        let chip = chip_2_at(9, 2, 0);
        assert_eq!(read_answer(chip, p2::MASK, rs::PIXEL_MASK), expected);
    }
}

/// Chip 3's second loads paint, but Note 5 is about writes of chips 1 and 2.
#[test]
fn loads_answer_zeros_and_are_refused_on_chips_1_and_2() {
    let loads = [load(9, 3); 64];
    let played = play(3, &[3, 0, 0], &loads);
    assert_eq!(played.answers, [QUIET; 64]);
    let painting = painting_accesses(&[3, 0, 0], &log_bytes(3, &loads)).unwrap();
    let second_loads: Vec<usize> = (0..64).filter(|index| index % 2 == 1).collect();
    assert_eq!(painting, second_loads);

    for mut chip in [chip_1_at(4, 2), chip_2_at(4, 2, 0)] {
        for operand in [[1, 2, 0, 0, 0, 0, 0, 0], [2, 9, 0, 0, 0, 0, 0, 0]] {
            assert_eq!(chip.event(kind::LOAD, operand), answer_of(&[5]));
        }
    }
}

/// One log with accesses, display events and a save: ticks, vertical periods and
/// saves answer as if nothing were painted.
#[test]
fn a_run_has_the_numbers_among_its_answers() {
    let events = [
        write(c::ADDRESS, 3),
        write(c::OVERLAY, 1),
        tick([0, 0, 0, 0, 0, 0, 0, 1]),
        write(c::OVERLAY, 2),
        save(),
        write(c::OVERLAY, 3),
        vertical(),
        write(c::OVERLAY, 4),
        write(c::CONTROL, 0xFF),
        read(c::CONTROL),
        write(c::PALETTE, 5),
    ];
    let played = play(1, &[1, 0, 0], &events);
    let expected = [
        QUIET,
        QUIET,
        answer_of(&[0, 4, 1]),
        QUIET,
        QUIET,
        answer_of(&[0, 1, 0x03, 0x01]),
        QUIET,
        answer_of(&[2]),
        answer_of(&[0, 1, 0x04, 0x01]),
        answer_of(&[0, 0xFF]),
        QUIET,
    ];
    assert_eq!(played.answers, expected);
}
