//! The TLC34058's Tables 1 to 7 as tests; Table 8 is in test_register.rs. The
//! expected values are worked out from the data sheet by hand.

use crate::common::Bench;
use kit::{c, p1, ANSWER_BYTES};
use model::kind;

/// One row of Table 1 or Table 2, tried with an entry that holds A1h B2h C3h,
/// RREG 51h, GREG 52h and the byte 77h on D0-D7 for writes.
struct Row {
    name: &'static str,
    /// R/W low.
    write: bool,
    /// C1 and C0 both low; else the colour selector of the table.
    address_register: bool,
    addr_ab: u8,
    /// For reads, what D0-D7 gives; nothing here if it is ADDR0-7.
    gives: Option<u8>,
    /// What becomes of ADDR0-7.
    addr: Addr,
    addr_ab_after: u8,
    rreg_after: u8,
    greg_after: u8,
    entry_after: [u8; 3],
}

enum Addr {
    Stays,
    Incremented,
    Written,
}

const ENTRY: [u8; 3] = [0xA1, 0xB2, 0xC3];

/// The rows that Tables 1 and 2 share, ADDRb,a of X X tried with each value.
fn rows() -> Vec<Row> {
    let mut rows = Vec::new();
    for addr_ab in [0, 1, 2] {
        rows.push(Row {
            name: "write ADDR0-7",
            write: true,
            address_register: true,
            addr_ab,
            gives: None,
            addr: Addr::Written,
            addr_ab_after: 0,
            rreg_after: 0x51,
            greg_after: 0x52,
            entry_after: ENTRY,
        });
        rows.push(Row {
            name: "read ADDR0-7",
            write: false,
            address_register: true,
            addr_ab,
            gives: None,
            addr: Addr::Stays,
            addr_ab_after: 0,
            rreg_after: 0x51,
            greg_after: 0x52,
            entry_after: ENTRY,
        });
    }
    rows.push(Row {
        name: "write red",
        write: true,
        address_register: false,
        addr_ab: 0,
        gives: None,
        addr: Addr::Stays,
        addr_ab_after: 1,
        rreg_after: 0x77,
        greg_after: 0x52,
        entry_after: ENTRY,
    });
    rows.push(Row {
        name: "write green",
        write: true,
        address_register: false,
        addr_ab: 1,
        gives: None,
        addr: Addr::Stays,
        addr_ab_after: 2,
        rreg_after: 0x51,
        greg_after: 0x77,
        entry_after: ENTRY,
    });
    rows.push(Row {
        name: "write blue",
        write: true,
        address_register: false,
        addr_ab: 2,
        gives: None,
        addr: Addr::Incremented,
        addr_ab_after: 0,
        rreg_after: 0x51,
        greg_after: 0x52,
        entry_after: [0x51, 0x52, 0x77],
    });
    for (name, addr_ab, gives, addr, addr_ab_after) in [
        ("read red", 0, 0xA1, Addr::Stays, 1),
        ("read green", 1, 0xB2, Addr::Stays, 2),
        ("read blue", 2, 0xC3, Addr::Incremented, 0),
    ] {
        rows.push(Row {
            name,
            write: false,
            address_register: false,
            addr_ab,
            gives: Some(gives),
            addr,
            addr_ab_after,
            rreg_after: 0x51,
            greg_after: 0x52,
            entry_after: ENTRY,
        });
    }
    rows
}

/// Tries every row with a colour selector, at an address and the entry there,
/// and compares all places, so that nothing else may move.
fn check_rows(selector: u8, address: u8, entry: usize) {
    for row in rows() {
        let mut chip = Bench::with_places(
            1,
            &[
                (p1::ADDRESS, address),
                (p1::POSITION, row.addr_ab),
                (p1::HELD_RED, 0x51),
                (p1::HELD_GREEN, 0x52),
            ],
        );
        chip.set_entry(entry, ENTRY);
        let mut expected = chip.state.places();
        let selector = if row.address_register { 0 } else { selector };

        if row.write {
            assert_eq!(chip.write(selector, 0x77), 0, "{}", row.name);
        } else {
            let gives = row.gives.unwrap_or(address);
            assert_eq!(chip.read(selector), (0, gives), "{}", row.name);
        }

        expected[p1::ADDRESS] = match row.addr {
            Addr::Stays => address,
            Addr::Incremented => address + 1,
            Addr::Written => 0x77,
        };
        expected[p1::POSITION] = row.addr_ab_after;
        expected[p1::HELD_RED] = row.rreg_after;
        expected[p1::HELD_GREEN] = row.greg_after;
        expected[3 * entry..3 * entry + 3].copy_from_slice(&row.entry_after);
        assert_eq!(chip.state.places(), expected, "{}", row.name);
    }
}

#[test]
fn table_1_each_row_at_several_palette_addresses() {
    for address in [0x00, 0x03, 0x07, 0x40, 0xFE] {
        check_rows(c::PALETTE, address, usize::from(address));
    }
}

#[test]
fn table_2_each_row_at_every_overlay_address() {
    for address in 0..=3 {
        check_rows(c::OVERLAY, address, 256 + usize::from(address));
    }
}

#[test]
fn table_1_the_whole_palette_is_written_and_read_round() {
    let mut chip = Bench::fresh(1);
    chip.write_all(c::ADDRESS, &[0]);
    for entry in 0..=255u8 {
        chip.write_all(c::PALETTE, &[entry, 255 - entry, entry ^ 0x5A]);
    }
    // "The bits ADDR0-7 are reset to 00 after accessing the FF location."
    assert_eq!(chip.place(p1::ADDRESS), 0);
    for entry in 0..=255u8 {
        assert_eq!(chip.read_byte(c::PALETTE), entry);
        assert_eq!(chip.read_byte(c::PALETTE), 255 - entry);
        assert_eq!(chip.read_byte(c::PALETTE), entry ^ 0x5A);
    }
    assert_eq!(chip.place(p1::ADDRESS), 0);
    assert_eq!(chip.place(p1::POSITION), 0);
}

#[test]
fn table_2_overlay_across_03_advances_to_04_and_not_to_00() {
    let mut chip = Bench::fresh(1);
    chip.write_all(c::ADDRESS, &[0]);
    chip.write_all(c::OVERLAY, &[1, 2, 3, 4, 5, 6, 7, 8, 9, 10, 11, 12]);
    assert_eq!(
        chip.state.places()[p1::OVERLAY_0..p1::ADDRESS],
        [1, 2, 3, 4, 5, 6, 7, 8, 9, 10, 11, 12]
    );
    assert_eq!(chip.state.places()[..p1::OVERLAY_0], [0; 768]);
    assert_eq!(chip.place(p1::ADDRESS), 4);
    assert_eq!(chip.write(c::OVERLAY, 13), 2);
    assert_eq!(chip.read(c::OVERLAY), (2, 0));
    // 04h is the read mask register, so a control access follows at once.
    chip.write_all(c::CONTROL, &[0xAB]);
    assert_eq!(chip.place(p1::READ_MASK), 0xAB);

    chip.write_all(c::ADDRESS, &[2]);
    for byte in [7, 8, 9, 10, 11, 12] {
        assert_eq!(chip.read_byte(c::OVERLAY), byte);
    }
    assert_eq!(chip.read(c::ADDRESS), (0, 4));
}

#[test]
fn tables_1_and_2_share_rreg_greg_and_both_counters() {
    let mut chip = Bench::fresh(1);
    chip.write_all(c::ADDRESS, &[2]);
    chip.write_all(c::PALETTE, &[0x21]);
    chip.write_all(c::OVERLAY, &[0x22]);
    chip.write_all(c::PALETTE, &[0x23]);
    assert_eq!(chip.entry(2), [0x21, 0x22, 0x23]);
    assert_eq!(chip.entry(258), [0, 0, 0]);
    assert_eq!(chip.place(p1::ADDRESS), 3);
    // RREG and GREG stay: two reads and a blue write use them again.
    assert_eq!(chip.read(c::OVERLAY), (0, 0));
    assert_eq!(chip.read(c::PALETTE), (0, 0));
    chip.write_all(c::OVERLAY, &[0x33]);
    assert_eq!(chip.entry(259), [0x21, 0x22, 0x33]);
}

#[test]
fn table_3_control_registers_are_read_and_modified_in_place() {
    for (address, place) in [(4, 784), (5, 785), (6, 786)] {
        for addr_ab in [0, 1, 2] {
            let mut chip = Bench::with_places(1, &[(p1::ADDRESS, address)]);
            chip.set(p1::POSITION, addr_ab);
            let mut expected = chip.state.places();
            chip.write_all(c::CONTROL, &[0xA5]);
            expected[place] = 0xA5;
            assert_eq!(chip.state.places(), expected);
            // Read, modify, write: no new address is needed.
            let seen = chip.read_byte(c::CONTROL);
            assert_eq!(seen, 0xA5);
            chip.write_all(c::CONTROL, &[seen | 0x0A]);
            expected[place] = 0xAF;
            assert_eq!(chip.state.places(), expected);
            assert_eq!(chip.read_byte(c::CONTROL), 0xAF);
            assert_eq!(chip.state.places(), expected);
        }
    }
}

/// Every register of Table 4 with a value of its own, ADDRa,b at red.
fn table_4_chip(address: u8) -> Bench {
    let mut places = vec![0; p1::COUNT];
    for entry in 0..256 {
        places[3 * entry] = entry as u8;
    }
    for overlay in 0..4 {
        places[p1::OVERLAY_0 + 3 * overlay] = 0xE0 + overlay as u8;
    }
    for (place, value) in [(784, 0xF4), (785, 0xF5), (786, 0xF6), (787, 0xF7)] {
        places[place] = value;
    }
    places[p1::ADDRESS] = address;
    Bench {
        state: model::State::from_places(1, &places).unwrap(),
    }
}

#[test]
fn table_4_says_which_address_reaches_what() {
    for address in 0..=255u8 {
        let palette = (0, address);
        let overlay = match address {
            0 => (0, 0xE0),
            1 => (0, 0xE1),
            2 => (0, 0xE2),
            3 => (0, 0xE3),
            _ => (2, 0),
        };
        let control = match address {
            4 => (0, 0xF4),
            5 => (0, 0xF5),
            6 => (0, 0xF6),
            // Three colours selected: the low four bits alone.
            7 => (0, 0x07),
            _ => (2, 0),
        };
        for (selector, expected) in [
            (c::PALETTE, palette),
            (c::OVERLAY, overlay),
            (c::CONTROL, control),
        ] {
            assert_eq!(table_4_chip(address).read(selector), expected);
            assert_eq!(table_4_chip(address).write(selector, 9), expected.0);
        }
    }
}

/// Colours that Table 5's rows can tell apart, full masks, blink on.
fn table_5_chip(command: u8) -> Bench {
    let mut chip = Bench::with_places(1, &[(p1::READ_MASK, 0xFF), (p1::COMMAND, command)]);
    chip.set_entry(0x00, [0x10, 0x20, 0x30]);
    chip.set_entry(0x01, [0x11, 0x21, 0x31]);
    chip.set_entry(0xFF, [0x1F, 0x2F, 0x3F]);
    chip.set_entry(256, [0x40, 0x50, 0x60]);
    chip.set_entry(257, [0x41, 0x51, 0x61]);
    chip.set_entry(258, [0x42, 0x52, 0x62]);
    chip.set_entry(259, [0x43, 0x53, 0x63]);
    chip
}

#[test]
fn table_5_the_ten_selection_cases() {
    // CR6, OL1, OL0, P7-P0, colour. Both overlay inputs are enabled (CR1, CR0).
    let cases = [
        (1, 0, 0, 0x00, [0x10, 0x20, 0x30]),
        (1, 0, 0, 0x01, [0x11, 0x21, 0x31]),
        (1, 0, 0, 0xFF, [0x1F, 0x2F, 0x3F]),
        (0, 0, 0, 0x01, [0x40, 0x50, 0x60]),
        (0, 0, 1, 0x01, [0x41, 0x51, 0x61]),
        (1, 0, 1, 0x01, [0x41, 0x51, 0x61]),
        (0, 1, 0, 0x01, [0x42, 0x52, 0x62]),
        (1, 1, 0, 0x01, [0x42, 0x52, 0x62]),
        (0, 1, 1, 0x01, [0x43, 0x53, 0x63]),
        (1, 1, 1, 0x01, [0x43, 0x53, 0x63]),
    ];
    for (cr6, ol1, ol0, pixel, colour) in cases {
        let mut chip = table_5_chip(0x03 + 0x40 * cr6);
        assert_eq!(chip.show(pixel, ol1, ol0), colour);
    }
}

#[test]
fn table_5_the_dotted_rows_and_the_irrelevant_addresses() {
    let mut chip = table_5_chip(0x43);
    for pixel in 0..=255u8 {
        chip.set_entry(usize::from(pixel), [pixel, 255 - pixel, pixel ^ 0x0F]);
    }
    for pixel in 0..=255u8 {
        let colour = [pixel, 255 - pixel, pixel ^ 0x0F];
        assert_eq!(chip.show(pixel, 0, 0), colour);
        assert_eq!(chip.show(pixel, 0, 1), [0x41, 0x51, 0x61]);
        assert_eq!(chip.show(pixel, 1, 0), [0x42, 0x52, 0x62]);
        assert_eq!(chip.show(pixel, 1, 1), [0x43, 0x53, 0x63]);
    }
    chip.set(p1::COMMAND, 0x03);
    for pixel in 0..=255u8 {
        assert_eq!(chip.show(pixel, 0, 0), [0x40, 0x50, 0x60]);
    }
}

#[test]
fn table_6_blk_low_blanks_and_sync_does_not() {
    // Levels, and whether the DAC inputs are data.
    for (levels, data) in [(0, false), (1, true), (2, false), (3, true)] {
        let mut chip = table_5_chip(0xC3);
        let answer = chip.event(kind::TICK, [1, 1, 1, 1, 1, 0, 0, levels]);
        let mut expected = [0; ANSWER_BYTES];
        expected[1] = 5;
        expected[2] = levels;
        if data {
            for pixel in 0..5 {
                expected[3 + 3 * pixel..6 + 3 * pixel].copy_from_slice(&[0x11, 0x21, 0x31]);
            }
        }
        assert_eq!(answer, expected);
    }
}

#[test]
fn table_7_cr7_multiplexes_four_or_five_pixels() {
    // Pixels 00, 01, FF, 01, 00 with no overlay, 1, 2, 3, 3.
    let operand = [0x00, 0x01, 0xFF, 0x01, 0x00, 0b11010, 0b11100, 1];
    let four = [
        0, 4, 1, 0x10, 0x20, 0x30, 0x41, 0x51, 0x61, 0x42, 0x52, 0x62, 0x43, 0x53, 0x63, 0, 0, 0,
    ];
    let five = [
        0, 5, 1, 0x10, 0x20, 0x30, 0x41, 0x51, 0x61, 0x42, 0x52, 0x62, 0x43, 0x53, 0x63, 0x43,
        0x53, 0x63,
    ];
    assert_eq!(table_5_chip(0x43).event(kind::TICK, operand), four);
    assert_eq!(table_5_chip(0xC3).event(kind::TICK, operand), five);
}

#[test]
fn table_7_cr6_chooses_between_overlay_0_and_the_palette() {
    assert_eq!(table_5_chip(0x40).show(1, 0, 0), [0x11, 0x21, 0x31]);
    assert_eq!(table_5_chip(0x00).show(1, 0, 0), [0x40, 0x50, 0x60]);
    // Display disabled: both inputs are forced low before CR6 is looked at.
    assert_eq!(table_5_chip(0x40).show(1, 1, 1), [0x11, 0x21, 0x31]);
    assert_eq!(table_5_chip(0x00).show(1, 1, 1), [0x40, 0x50, 0x60]);
}

#[test]
fn table_7_blink_rates_over_128_vertical_periods() {
    // CR5, CR4 and the lengths of the on and off parts, on first.
    let rates: [(u8, &[usize]); 4] = [
        (0b00, &[16, 48, 16, 48]),
        (0b01, &[16, 16, 16, 16, 16, 16, 16, 16]),
        (0b10, &[32, 32, 32, 32]),
        (0b11, &[64, 64]),
    ];
    for (cr54, parts) in rates {
        let mut expected = Vec::new();
        for (index, &length) in parts.iter().enumerate() {
            expected.extend(vec![index % 2 == 0; length]);
        }
        assert_eq!(expected.len(), 128);
        // Bit 0 blinks, so 01h shows entry 01h when on and 00h when off.
        let mut chip = table_5_chip(0x40 + 0x10 * cr54);
        chip.set(p1::BLINK_MASK, 0x01);
        // Twice, so that the count is seen to come round.
        for period in 0..256 {
            let shown = chip.show(0x01, 0, 0);
            let on = if expected[period % 128] {
                [0x11, 0x21, 0x31]
            } else {
                [0x10, 0x20, 0x30]
            };
            assert_eq!(shown, on, "CR5,CR4 {cr54:02b} period {period}");
            chip.vertical_periods(1);
        }
    }
}

/// The colour of Table 5's chip for pixel 01h: overlay k, the palette for 0.
fn colour_of_overlay(k: u8) -> [u8; 3] {
    match k {
        0 => [0x11, 0x21, 0x31],
        1 => [0x41, 0x51, 0x61],
        2 => [0x42, 0x52, 0x62],
        _ => [0x43, 0x53, 0x63],
    }
}

#[test]
fn table_7_cr3_to_cr0_enable_and_blink_the_overlays() {
    // For OL1 and OL0 both high: CR3-CR0, overlay with blink on, and off.
    let table = [
        (0b0000, 0, 0),
        (0b0001, 1, 1),
        (0b0010, 2, 2),
        (0b0011, 3, 3),
        (0b0100, 0, 0),
        (0b0101, 1, 0),
        (0b0110, 2, 2),
        (0b0111, 3, 2),
        (0b1000, 0, 0),
        (0b1001, 1, 1),
        (0b1010, 2, 0),
        (0b1011, 3, 1),
        (0b1100, 0, 0),
        (0b1101, 1, 0),
        (0b1110, 2, 0),
        (0b1111, 3, 0),
    ];
    for (cr3210, on, off) in table {
        let mut chip = table_5_chip(0x40 + cr3210);
        assert_eq!(chip.show(0x01, 1, 1), colour_of_overlay(on));
        // Inputs that are low stay low.
        assert_eq!(chip.show(0x01, 0, 0), colour_of_overlay(0));
        // Rate 00: 16 on, then off.
        chip.vertical_periods(16);
        assert_eq!(chip.show(0x01, 1, 1), colour_of_overlay(off));
        assert_eq!(chip.show(0x01, 0, 0), colour_of_overlay(0));
    }
}

/// A palette whose entries say their own number in red.
fn numbered_chip(pairs: &[(usize, u8)]) -> Bench {
    let mut chip = Bench::with_places(1, pairs);
    for entry in 0..=255u8 {
        chip.set_entry(usize::from(entry), [entry, 1, 2]);
    }
    chip
}

#[test]
fn read_mask_disables_each_bit_plane_alone() {
    let rows = [
        (0xFE, 0xFE),
        (0xFD, 0xFD),
        (0xFB, 0xFB),
        (0xF7, 0xF7),
        (0xEF, 0xEF),
        (0xDF, 0xDF),
        (0xBF, 0xBF),
        (0x7F, 0x7F),
        (0x00, 0x00),
        (0x5A, 0x5A),
    ];
    for (mask, entry) in rows {
        let mut chip = numbered_chip(&[(p1::READ_MASK, mask), (p1::COMMAND, 0x40)]);
        assert_eq!(chip.show(0xFF, 0, 0), [entry, 1, 2]);
        // The blink's off part takes nothing away while no plane blinks.
        chip.vertical_periods(20);
        assert_eq!(chip.show(0xFF, 0, 0), [entry, 1, 2]);
    }
}

#[test]
fn blink_mask_blinks_each_bit_plane_alone() {
    // Blink mask, and the entry for pixel FFh in the off part.
    let rows = [
        (0x01, 0xFE),
        (0x02, 0xFD),
        (0x04, 0xFB),
        (0x08, 0xF7),
        (0x10, 0xEF),
        (0x20, 0xDF),
        (0x40, 0xBF),
        (0x80, 0x7F),
        (0x00, 0xFF),
        (0xFF, 0x00),
        (0xF0, 0x0F),
    ];
    for (mask, off) in rows {
        let mut chip = numbered_chip(&[
            (p1::READ_MASK, 0xFF),
            (p1::BLINK_MASK, mask),
            (p1::COMMAND, 0x40),
        ]);
        assert_eq!(chip.show(0xFF, 0, 0), [0xFF, 1, 2]);
        chip.vertical_periods(16);
        assert_eq!(chip.show(0xFF, 0, 0), [off, 1, 2]);
    }
}

#[test]
fn read_and_blink_masks_work_together() {
    // Read mask 3Ch; planes 2 and 7 blink. F5h AND 3Ch is 34h; without plane 2
    // it is 30h.
    let mut chip = numbered_chip(&[
        (p1::READ_MASK, 0x3C),
        (p1::BLINK_MASK, 0x84),
        (p1::COMMAND, 0x40),
    ]);
    assert_eq!(chip.show(0xF5, 0, 0), [0x34, 1, 2]);
    chip.vertical_periods(16);
    assert_eq!(chip.show(0xF5, 0, 0), [0x30, 1, 2]);
}

#[test]
fn masks_do_not_touch_the_overlay_inputs() {
    let mut chip = table_5_chip(0x43);
    chip.set(p1::READ_MASK, 0x00);
    chip.set(p1::BLINK_MASK, 0xFF);
    chip.vertical_periods(16);
    assert_eq!(chip.show(0x01, 1, 1), [0x43, 0x53, 0x63]);
}

#[test]
fn ticks_change_the_last_pixels_places_alone() {
    let mut chip = table_5_chip(0xFF);
    chip.set(p1::POSITION, 2);
    let mut expected = chip.state.places();
    // Pixel E is overlay 3; with BLK low it is black.
    for (levels, codes) in [
        (1, [0x43, 0x53, 0x63]),
        (0, [0, 0, 0]),
        (3, [0x43, 0x53, 0x63]),
        (2, [0, 0, 0]),
    ] {
        chip.event(kind::TICK, [1, 2, 3, 4, 5, 31, 31, levels]);
        expected[p1::LAST_RED..].copy_from_slice(&codes);
        assert_eq!(chip.state.places(), expected);
    }
}

#[test]
fn vertical_periods_move_the_blink_count_alone() {
    let mut chip = table_5_chip(0xFF);
    let mut expected = chip.state.places();
    for count in 1..=127 {
        chip.vertical_periods(1);
        expected[p1::BLINK_COUNT] = count;
        assert_eq!(chip.state.places(), expected);
    }
}
