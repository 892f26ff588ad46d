//! The HD153129's Tables 2 and 3 and its write and read address modes as
//! tests. The expected values are worked out from the data sheet by hand.

use crate::common::Bench;
use kit::{p2, rs, ANSWER_BYTES};
use model::kind;

/// RS1, RS0, direction before, then the places that change and their values.
type WriteRow = (u8, u8, u8, &'static [(usize, u8)]);

#[test]
fn table_2_writes_reach_the_selected_register() {
    // 2Ah is written in the middle of a triple.
    let rows: [WriteRow; 6] = [
        (0, 0, 0, &[(p2::ADDRESS, 0x2A), (p2::POSITION, 0)]),
        (
            0,
            0,
            1,
            &[(p2::ADDRESS, 0x2A), (p2::POSITION, 0), (p2::DIRECTION, 0)],
        ),
        (
            1,
            1,
            0,
            &[(p2::ADDRESS, 0x2B), (p2::POSITION, 0), (p2::DIRECTION, 1)],
        ),
        (1, 1, 1, &[(p2::ADDRESS, 0x2B), (p2::POSITION, 0)]),
        (0, 1, 0, &[(p2::HELD_GREEN, 0x2A), (p2::POSITION, 2)]),
        (1, 0, 0, &[(p2::MASK, 0x2A)]),
    ];
    for (rs1, rs0, direction, changes) in rows {
        let mut chip = middle_of_a_triple(direction);
        let mut expected = chip.state.places();
        for &(place, value) in changes {
            expected[place] = value;
        }
        assert_eq!(chip.write(2 * rs1 + rs0, 0x2A), 0);
        assert_eq!(chip.state.places(), expected);
    }
}

#[test]
fn table_2_reads_come_from_the_selected_register() {
    // RS1, RS0, direction, the byte read, and the position after it.
    let rows = [
        (0, 0, 0, 0x10, 1),
        (0, 0, 1, 0x10, 1),
        (1, 1, 0, 0x10, 1),
        (1, 1, 1, 0x10, 1),
        (1, 0, 0, 0xC5, 1),
        (1, 0, 1, 0xC5, 1),
        // Green of entry 0Fh, one before the address.
        (0, 1, 1, 0x0E, 2),
    ];
    for (rs1, rs0, direction, byte, position) in rows {
        let mut chip = middle_of_a_triple(direction);
        let mut expected = chip.state.places();
        expected[p2::POSITION] = position;
        assert_eq!(chip.read(2 * rs1 + rs0), (0, byte));
        assert_eq!(chip.state.places(), expected);
    }
}

/// Address 10h, position green, every register with a value of its own.
fn middle_of_a_triple(direction: u8) -> Bench {
    let mut chip = Bench::with_places(
        2,
        &[
            (p2::ADDRESS, 0x10),
            (p2::POSITION, 1),
            (p2::DIRECTION, direction),
            (p2::HELD_RED, 0x31),
            (p2::HELD_GREEN, 0x32),
            (p2::MASK, 0xC5),
        ],
    );
    chip.set_entry(0x0F, [0x0D, 0x0E, 0x0C]);
    chip.set_entry(0x10, [0x1D, 0x1E, 0x1C]);
    chip
}

/// Table 3's last row for one pixel value: Pd7 0 Pd5 0 Pd3 Pd2 0 Pd0.
fn table_3_clt_address(pixel: u8) -> u8 {
    let mut address = 0;
    for (plane, weight) in [(7, 128), (5, 32), (3, 8), (2, 4), (0, 1)] {
        if pixel >> plane & 1 == 1 {
            address += weight;
        }
    }
    address
}

#[test]
fn table_3_pixel_mask_example_for_every_pixel_value() {
    let mut chip = Bench::fresh(2);
    for entry in 0..=255u8 {
        // Two components together tell all 256 entries apart in 6 bits.
        chip.set_entry(usize::from(entry), [entry >> 4, entry & 15, 0x21]);
    }
    chip.write_all(rs::PIXEL_MASK, &[0b1010_1101]);
    for pixel in 0..=255u8 {
        let address = table_3_clt_address(pixel);
        assert_eq!(chip.show2(pixel), [address >> 4, address & 15, 0x21]);
    }
    // Some rows in full, without the helper.
    for (pixel, address) in [
        (0b1111_1111, 0b1010_1101u8),
        (0b0101_0010, 0),
        (0b1100_0110, 0b1000_0100),
        (0b0011_1001, 0b0010_1001),
    ] {
        assert_eq!(chip.show2(pixel), [address >> 4, address & 15, 0x21]);
    }
}

#[test]
fn write_mode_writes_r_g_b_and_moves_on() {
    let mut chip = Bench::fresh(2);
    chip.write_all(rs::WRITE_MODE, &[0xFE]);
    chip.write_all(rs::CLT, &[1, 2, 3, 4, 5, 6, 7, 8, 9]);
    assert_eq!(chip.entry(0xFE), [1, 2, 3]);
    assert_eq!(chip.entry(0xFF), [4, 5, 6]);
    assert_eq!(chip.entry(0x00), [7, 8, 9]);
    assert_eq!(chip.read(rs::WRITE_MODE), (0, 1));
    assert_eq!(chip.read(rs::READ_MODE), (0, 1));
}

#[test]
fn an_entry_changes_only_with_its_third_byte() {
    let mut chip = Bench::fresh(2);
    chip.set_entry(9, [0x11, 0x12, 0x13]);
    chip.write_all(rs::PIXEL_MASK, &[0xFF]);
    chip.write_all(rs::WRITE_MODE, &[9]);
    chip.write_all(rs::CLT, &[0x21]);
    assert_eq!(chip.show2(9), [0x11, 0x12, 0x13]);
    chip.write_all(rs::CLT, &[0x22]);
    assert_eq!(chip.show2(9), [0x11, 0x12, 0x13]);
    chip.write_all(rs::CLT, &[0x23]);
    assert_eq!(chip.show2(9), [0x21, 0x22, 0x23]);
    // The held bytes stay until they are written again.
    assert_eq!(chip.place(p2::HELD_RED), 0x21);
    assert_eq!(chip.place(p2::HELD_GREEN), 0x22);
}

#[test]
fn read_mode_reads_r_g_b_from_the_address_written() {
    let mut chip = Bench::fresh(2);
    chip.set_entry(0xFE, [1, 2, 3]);
    chip.set_entry(0xFF, [4, 5, 6]);
    chip.set_entry(0x00, [7, 8, 9]);
    chip.write_all(rs::READ_MODE, &[0xFE]);
    // Figure 10: what is read back is incremented by 1.
    assert_eq!(chip.read(rs::READ_MODE), (0, 0xFF));
    for (byte, address) in [
        (1, 0xFF),
        (2, 0xFF),
        (3, 0x00),
        (4, 0x00),
        (5, 0x00),
        (6, 0x01),
        (7, 0x01),
        (8, 0x01),
        (9, 0x02),
    ] {
        assert_eq!(chip.read_byte(rs::CLT), byte);
        assert_eq!(chip.read(rs::WRITE_MODE), (0, address));
    }
}

#[test]
fn the_whole_clt_is_written_and_read_round() {
    let mut chip = Bench::fresh(2);
    chip.write_all(rs::WRITE_MODE, &[0]);
    for entry in 0..=255u8 {
        chip.write_all(rs::CLT, &[entry >> 4, entry & 15, 0x3F - (entry >> 4)]);
    }
    assert_eq!(chip.place(p2::ADDRESS), 0);
    chip.write_all(rs::READ_MODE, &[0]);
    for entry in 0..=255u8 {
        assert_eq!(chip.read_byte(rs::CLT), entry >> 4);
        assert_eq!(chip.read_byte(rs::CLT), entry & 15);
        assert_eq!(chip.read_byte(rs::CLT), 0x3F - (entry >> 4));
    }
    assert_eq!(chip.place(p2::ADDRESS), 1);
}

#[test]
fn bits_d6_and_d7_are_dropped_from_every_component() {
    for (written, held) in [(0xFF, 0x3F), (0x40, 0), (0x80, 0), (0xC5, 5), (0x3F, 0x3F)] {
        let mut chip = Bench::fresh(2);
        chip.write_all(rs::CLT, &[written, written, written]);
        assert_eq!(chip.entry(0), [held, held, held]);
        assert_eq!(chip.place(p2::HELD_RED), held);
        assert_eq!(chip.place(p2::HELD_GREEN), held);
        chip.write_all(rs::READ_MODE, &[0]);
        for _ in 0..3 {
            assert_eq!(chip.read_byte(rs::CLT), held);
        }
    }
}

#[test]
fn the_pixel_mask_keeps_all_eight_bits_and_moves_nothing() {
    let mut chip = middle_of_a_triple(0);
    let mut expected = chip.state.places();
    for mask in 0..=255u8 {
        chip.write_all(rs::PIXEL_MASK, &[mask]);
        expected[p2::MASK] = mask;
        assert_eq!(chip.state.places(), expected);
        assert_eq!(chip.read(rs::PIXEL_MASK), (0, mask));
        assert_eq!(chip.state.places(), expected);
    }
}

#[test]
fn blank_low_gives_zeros_and_the_count_remains() {
    let mut chip = middle_of_a_triple(0);
    chip.write_all(rs::PIXEL_MASK, &[0xFF]);
    let before = chip.state.clone();
    let shown = chip.event(kind::TICK, [0x10, 0, 0, 0, 0, 0, 0, 1]);
    assert_eq!(shown[..6], [0, 1, 1, 0x1D, 0x1E, 0x1C]);
    assert_eq!(shown[6..], [0; ANSWER_BYTES - 6]);
    let blanked = chip.event(kind::TICK, [0x10, 0, 0, 0, 0, 0, 0, 0]);
    assert_eq!(blanked[..3], [0, 1, 0]);
    assert_eq!(blanked[3..], [0; ANSWER_BYTES - 3]);
    assert_eq!(chip.state, before);
}
