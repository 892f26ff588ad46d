//! M1 to M10 of document 01, each from a fresh chip.

use crate::common::Bench;
use kit::{c, p1, p2, rs};

#[test]
fn m1_palette_triple_at_ff_fills_entry_255_and_wraps_the_address() {
    let mut chip = Bench::fresh(1);
    chip.write_all(c::ADDRESS, &[0xFF]);
    chip.write_all(c::PALETTE, &[0x10, 0x20, 0x30]);
    assert_eq!(chip.entry(255), [0x10, 0x20, 0x30]);
    assert_eq!(chip.place(p1::ADDRESS), 0);
    assert_eq!(chip.entry(0), [0, 0, 0]);
}

#[test]
fn m2_overlay_triple_at_3_leads_to_4_where_overlay_is_refused() {
    let mut chip = Bench::fresh(1);
    chip.write_all(c::ADDRESS, &[3]);
    chip.write_all(c::OVERLAY, &[0x10, 0x20, 0x30]);
    assert_eq!(chip.entry(259), [0x10, 0x20, 0x30]);
    assert_eq!(chip.place(p1::ADDRESS), 4);
    assert_eq!(chip.write(c::OVERLAY, 0x40), 2);
}

#[test]
fn m3_an_address_read_starts_the_triple_again() {
    let mut chip = Bench::fresh(1);
    chip.write_all(c::PALETTE, &[0x11]);
    assert_eq!(chip.read(c::ADDRESS), (0, 0));
    chip.write_all(c::PALETTE, &[0x22]);
    assert_eq!(chip.place(p1::HELD_RED), 0x22);
    assert_eq!(chip.state.places()[..780], [0; 780]);
}

#[test]
fn m4_reads_move_the_position_for_a_write() {
    let mut chip = Bench::fresh(1);
    assert_eq!(chip.read(c::PALETTE), (0, 0));
    assert_eq!(chip.read(c::PALETTE), (0, 0));
    chip.write_all(c::PALETTE, &[7]);
    assert_eq!(chip.entry(0), [0, 0, 7]);
}

#[test]
fn m5_control_reads_at_8_and_at_7() {
    let mut chip = Bench::fresh(1);
    chip.write_all(c::ADDRESS, &[8]);
    assert_eq!(chip.read(c::CONTROL), (2, 0));
    chip.write_all(c::ADDRESS, &[7]);
    assert_eq!(chip.read(c::CONTROL), (0, 0));
}

#[test]
fn m6_the_blink_count_goes_to_127_and_then_to_0() {
    let mut chip = Bench::fresh(1);
    chip.vertical_periods(127);
    assert_eq!(chip.place(p1::BLINK_COUNT), 127);
    chip.vertical_periods(1);
    assert_eq!(chip.place(p1::BLINK_COUNT), 0);
}

#[test]
fn m7_read_mode_at_ff_gives_address_0_and_reads_entry_255() {
    let mut chip = Bench::fresh(2);
    chip.set_entry(255, [0x15, 0x26, 0x37]);
    chip.set_entry(0, [1, 2, 3]);
    chip.write_all(rs::READ_MODE, &[0xFF]);
    assert_eq!(chip.place(p2::ADDRESS), 0);
    assert_eq!(chip.read(rs::CLT), (0, 0x15));
}

#[test]
fn m8_a_colour_byte_ff_is_held_as_3f() {
    let mut chip = Bench::fresh(2);
    chip.write_all(rs::CLT, &[0xFF]);
    assert_eq!(chip.place(p2::HELD_RED), 0x3F);
    chip.write_all(rs::CLT, &[0xFF]);
    assert_eq!(chip.place(p2::HELD_GREEN), 0x3F);
    chip.write_all(rs::CLT, &[0xFF]);
    assert_eq!(chip.entry(0), [0x3F, 0x3F, 0x3F]);
}

#[test]
fn m9_a_colour_read_on_a_fresh_chip_2_gives_3() {
    let mut chip = Bench::fresh(2);
    assert_eq!(chip.read(rs::CLT), (3, 0));
}

#[test]
fn m10_an_address_read_inside_a_triple_leaves_the_position() {
    for selector in [rs::WRITE_MODE, rs::READ_MODE] {
        let mut chip = Bench::fresh(2);
        chip.write_all(rs::CLT, &[1]);
        assert_eq!(chip.read(selector), (0, 0));
        assert_eq!(chip.place(p2::POSITION), 1);
        chip.write_all(rs::CLT, &[2]);
        assert_eq!(chip.read(selector), (0, 0));
        chip.write_all(rs::CLT, &[3]);
        assert_eq!(chip.entry(0), [1, 2, 3]);
    }
}
