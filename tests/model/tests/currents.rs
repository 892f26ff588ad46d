//! The output currents of a chip 1 tick: the TLC34058's Table 6 row by row, the
//! rounding for every code, pixels past the count, and the refusals of the call
//! on a state and of the call on byte strings. The expected values are worked
//! out from the papers by hand, or by a search through all whole numbers.

use crate::common::{snapshot_with, Bench};
use kit::{not_built, p1, p2, p3, snapshot_bytes, Random, ANSWER_BYTES, END_BYTES, NOT_BUILT};
use model::{event, kind, save, tick_currents, tick_currents_into, Answer, Operand, State};
use std::collections::{BTreeMap, BTreeSet};

/// Levels of a tick.
const BLK: u8 = 1;
const SYNC: u8 = 2;
/// Command registers: the palette in use (CR6), four or five pixels (CR7).
const FOUR: u8 = 0x40;
const FIVE: u8 = 0xC0;
/// An answer and 15 currents of 2 bytes.
const OUT_BYTES: usize = 48;

/// Red, green, blue of five colours. 51 is a fifth of 255 and 85 a third, so
/// their multiples are easy: for example 102 adds 2 x 1762 / 5 = 704.8 to green
/// and 2 x 1761 / 5 = 704.4 to the others.
const COLOURS: [[u8; 3]; 5] = [
    [0, 51, 102],
    [153, 204, 255],
    [51, 0, 204],
    [128, 128, 128],
    [255, 85, 170],
];
/// Green, red, blue currents of these colours with BLK and SYNC high.
const WITH_SYNC: [[u16; 3]; 5] = [
    [905 + 352, 144, 144 + 704],
    [905 + 1410, 144 + 1057, 144 + 1761],
    [905, 144 + 352, 144 + 1409],
    [905 + 884, 144 + 884, 144 + 884],
    [905 + 587, 144 + 1761, 144 + 1174],
];
/// The same with SYNC low.
const WITHOUT_SYNC: [[u16; 3]; 5] = [
    [144 + 352, 144, 144 + 704],
    [144 + 1410, 144 + 1057, 144 + 1761],
    [144, 144 + 352, 144 + 1409],
    [144 + 884, 144 + 884, 144 + 884],
    [144 + 587, 144 + 1761, 144 + 1174],
];

/// The currents of a tick that isn't refused, pixel by pixel. The next state must
/// have its last pixel's codes and be as it was elsewhere.
fn shown(chip: &Bench, operand: Operand) -> [[u16; 3]; 5] {
    let (answer, next, currents) = tick_currents(&chip.state, &operand);
    assert_eq!(answer[0], 0, "operand {operand:02x?}");
    let mut expected = chip.state.places();
    let last = 3 * usize::from(answer[1]);
    expected[p1::LAST_RED..].copy_from_slice(&answer[last..last + 3]);
    assert_eq!(next.places(), expected);
    std::array::from_fn(|pixel| [0, 1, 2].map(|output| currents[3 * pixel + output]))
}

/// Palette entries 1 to 5 have these colours, and every plane is read.
fn chip_with(colours: [[u8; 3]; 5], command: u8) -> Bench {
    let mut chip = Bench::with_places(1, &[(p1::READ_MASK, 0xFF), (p1::COMMAND, command)]);
    for (entry, colour) in (1..).zip(colours) {
        chip.set_entry(entry, colour);
    }
    chip
}

/// Pixels A to E show entries 1 to 5.
fn tick_1_to_5(levels: u8) -> Operand {
    [1, 2, 3, 4, 5, 0, 0, levels]
}

/// The same code on all three DAC inputs of all five pixels, which must then
/// have the same currents.
fn shown_alike(code: u8, levels: u8) -> [u16; 3] {
    let pixels = shown(&chip_with([[code; 3]; 5], FIVE), tick_1_to_5(levels));
    assert_eq!(pixels, [pixels[0]; 5]);
    pixels[0]
}

/// The whole number nearest to code x span / 255, found among all numbers up to
/// 3,000. No other one may be as near.
fn nearest(code: u8, span: i32) -> u16 {
    let distance = |number: &i32| (255 * number - i32::from(code) * span).abs();
    let least = (0..=3000).map(|number| distance(&number)).min().unwrap();
    let found: Vec<i32> = (0..=3000).filter(|n| distance(n) == least).collect();
    assert_eq!(found.len(), 1, "code {code} span {span}");
    found[0] as u16
}

#[test]
fn table_6_row_by_row() {
    // Description, IOG, IOR and IOB, SYNC, BLK, DAC inputs. Data 80h is 8.84 mA.
    let rows = [
        ("WHITE", 2667, 1905, SYNC, BLK, 0xFF),
        ("DATA", 884 + 905, 884 + 144, SYNC, BLK, 0x80),
        ("DATA w/o SYNC", 884 + 144, 884 + 144, 0, BLK, 0x80),
        ("BLACK", 905, 144, SYNC, BLK, 0x00),
        ("BLACK w/o SYNC", 144, 144, 0, BLK, 0x00),
        ("BLACK, BLK low", 762, 0, SYNC, 0, 0x00),
        ("BLACK, BLK low", 762, 0, SYNC, 0, 0x80),
        ("BLACK, BLK low", 762, 0, SYNC, 0, 0xFF),
        ("BLACK SYNC", 0, 0, 0, 0, 0x00),
        ("BLACK SYNC", 0, 0, 0, 0, 0x80),
        ("BLACK SYNC", 0, 0, 0, 0, 0xFF),
    ];
    for (description, iog, others, sync, blk, code) in rows {
        assert_eq!(
            shown_alike(code, sync + blk),
            [iog, others, others],
            "{description} {code:02x}"
        );
    }
}

#[test]
fn white_and_code_128() {
    assert_eq!(shown_alike(255, SYNC + BLK), [2667, 1905, 1905]);
    // Without SYNC white has no row: green's span is the same, 1762.
    assert_eq!(shown_alike(255, BLK), [1906, 1905, 1905]);
    assert_eq!(shown_alike(128, SYNC + BLK), [1789, 1028, 1028]);
    assert_eq!(shown_alike(128, BLK), [1028, 1028, 1028]);
}

#[test]
fn codes_worked_out_by_hand() {
    // Code, what it adds to green and to the others; the quotients behind.
    let codes = [
        (0, 0, 0),
        (1, 7, 7),         // 6.91, 6.91
        (2, 14, 14),       // 13.82, 13.81
        (85, 587, 587),    // 587.33, 587
        (102, 705, 704),   // 704.8, 704.4
        (127, 878, 877),   // 877.55, 877.05
        (128, 884, 884),   // 884.45, 883.95
        (153, 1057, 1057), // 1057.2, 1056.6
        (170, 1175, 1174), // 1174.67, 1174
        (204, 1410, 1409), // 1409.6, 1408.8
        (254, 1755, 1754), // 1755.09, 1754.09
        (255, 1762, 1761),
    ];
    for (code, green, others) in codes {
        let colour = [905 + green, 144 + others, 144 + others];
        assert_eq!(shown_alike(code, SYNC + BLK), colour, "code {code}");
        let colour = [144 + green, 144 + others, 144 + others];
        assert_eq!(shown_alike(code, BLK), colour, "code {code}");
    }
}

#[test]
fn every_code_adds_the_one_nearest_number() {
    for code in 0..=255 {
        let (green, others) = (nearest(code, 1762), nearest(code, 1761));
        for (sync, black) in [(SYNC, 905), (0, 144)] {
            assert_eq!(
                shown_alike(code, sync + BLK),
                [black + green, 144 + others, 144 + others],
                "code {code}"
            );
        }
    }
}

#[test]
fn the_order_is_green_red_blue() {
    // Red 51, green 102, blue 153; then each of them alone.
    let colours = [[51, 102, 153], [51, 0, 0], [0, 102, 0], [0, 0, 153], [0; 3]];
    let chip = chip_with(colours, FIVE);
    assert_eq!(
        shown(&chip, tick_1_to_5(SYNC + BLK)),
        [
            [905 + 705, 144 + 352, 144 + 1057],
            [905, 144 + 352, 144],
            [905 + 705, 144, 144],
            [905, 144, 144 + 1057],
            [905, 144, 144],
        ]
    );
    // The answer's own order stays red, green, blue.
    let (answer, _, _) = tick_currents(&chip.state, &tick_1_to_5(SYNC + BLK));
    assert_eq!(answer[..6], [0, 5, 3, 51, 102, 153]);
}

#[test]
fn four_and_five_pixels_with_each_level() {
    for (levels, five) in [
        (SYNC + BLK, WITH_SYNC),
        (BLK, WITHOUT_SYNC),
        (SYNC, [[762, 0, 0]; 5]),
        (0, [[0; 3]; 5]),
    ] {
        let chip = chip_with(COLOURS, FIVE);
        assert_eq!(shown(&chip, tick_1_to_5(levels)), five);
        // Pixel E is past a count of four, and has 0 blanked or not.
        let mut four = five;
        four[4] = [0; 3];
        let chip = chip_with(COLOURS, FOUR);
        assert_eq!(shown(&chip, tick_1_to_5(levels)), four);
    }
}

#[test]
fn pixel_e_past_the_count_has_0_whatever_its_inputs() {
    for (levels, pixel) in [
        (SYNC + BLK, [2667, 1905, 1905]),
        (BLK, [1906, 1905, 1905]),
        (SYNC, [762, 0, 0]),
        (0, [0, 0, 0]),
    ] {
        // Every entry and every overlay is white, and overlays are enabled.
        let mut chip = Bench::with_places(1, &[(p1::READ_MASK, 0xFF), (p1::COMMAND, FOUR + 3)]);
        for entry in 0..260 {
            chip.set_entry(entry, [255; 3]);
        }
        for (e, ol) in [(0, 0), (5, 0), (255, 0), (0, 16), (255, 31)] {
            let operand = [0, 0, 0, 0, e, ol, ol, levels];
            assert_eq!(shown(&chip, operand), [pixel, pixel, pixel, pixel, [0; 3]]);
        }
    }
}

#[test]
fn a_fresh_chip_shows_four_black_pixels() {
    let fresh = Bench::fresh(1);
    let four = |pixel| [pixel, pixel, pixel, pixel, [0; 3]];
    for (levels, pixel) in [
        (SYNC + BLK, [905, 144, 144]),
        (BLK, [144, 144, 144]),
        (SYNC, [762, 0, 0]),
        (0, [0, 0, 0]),
    ] {
        assert_eq!(shown(&fresh, tick_1_to_5(levels)), four(pixel));
    }
}

/// Overlays 0 to 3 have the first three colours and the last, palette entry 7
/// the fourth. Pixels B, C and D have OL1, OL0 = 01, 10, 11.
fn overlaid(command: u8, blink_count: u8, levels: u8) -> [[u16; 3]; 5] {
    let mut chip = Bench::with_places(1, &[(p1::READ_MASK, 0xFF), (p1::COMMAND, command)]);
    chip.set(p1::BLINK_COUNT, blink_count);
    for (entry, colour) in [(256, 0), (257, 1), (258, 2), (259, 4), (7, 3)] {
        chip.set_entry(entry, COLOURS[colour]);
    }
    shown(&chip, [7, 7, 7, 7, 7, 0b01010, 0b01100, levels])
}

#[test]
fn pixels_through_the_overlays() {
    for (levels, currents) in [(SYNC + BLK, WITH_SYNC), (BLK, WITHOUT_SYNC)] {
        let [overlay_0, overlay_1, overlay_2, palette, overlay_3] = currents;
        let none = [0; 3];
        // Both overlay inputs enabled, the palette behind them; five and four.
        let expected = [palette, overlay_1, overlay_2, overlay_3, palette];
        assert_eq!(overlaid(0xC3, 0, levels), expected);
        let expected = [palette, overlay_1, overlay_2, overlay_3, none];
        assert_eq!(overlaid(0x43, 0, levels), expected);
        // CR6 low: overlay 0 behind them.
        let expected = [overlay_0, overlay_1, overlay_2, overlay_3, overlay_0];
        assert_eq!(overlaid(0x83, 0, levels), expected);
        // OL0 alone enabled, then OL1 alone, then neither.
        let expected = [palette, overlay_1, palette, overlay_1, palette];
        assert_eq!(overlaid(0xC1, 0, levels), expected);
        let expected = [palette, palette, overlay_2, overlay_2, palette];
        assert_eq!(overlaid(0xC2, 0, levels), expected);
        assert_eq!(overlaid(0xC0, 0, levels), [palette; 5]);
        // OL0 blinks: on for the first 16 of 64 vertical periods.
        let expected = [palette, overlay_1, overlay_2, overlay_3, palette];
        assert_eq!(overlaid(0xC7, 15, levels), expected);
        let expected = [palette, palette, overlay_2, overlay_2, palette];
        assert_eq!(overlaid(0xC7, 16, levels), expected);
    }
    assert_eq!(overlaid(0xC3, 0, SYNC), [[762, 0, 0]; 5]);
    assert_eq!(overlaid(0xC3, 0, 0), [[0; 3]; 5]);
}

#[test]
fn pixels_through_the_masks_and_the_blink() {
    // Read mask 3Ch; planes 2 and 7 blink. F5h AND 3Ch is 34h; without plane 2
    // it is 30h. The unmasked pixel and entry 0 are white.
    let mut chip = Bench::with_places(
        1,
        &[
            (p1::READ_MASK, 0x3C),
            (p1::BLINK_MASK, 0x84),
            (p1::COMMAND, FOUR),
        ],
    );
    chip.set_entry(0xF5, [255; 3]);
    chip.set_entry(0x00, [255; 3]);
    chip.set_entry(0x34, COLOURS[0]);
    chip.set_entry(0x30, COLOURS[1]);
    let mut shown_at = |blink_count, levels| {
        chip.set(p1::BLINK_COUNT, blink_count);
        shown(&chip, [0xF5, 0x34, 0x30, 0xC3, 0xF5, 0, 0, levels])
    };
    let (none, white) = ([0; 3], [2667, 1905, 1905]);
    let [on, off] = [WITH_SYNC[0], WITH_SYNC[1]];
    for blink_count in [0, 15, 64, 79] {
        let expected = [on, on, off, white, none];
        assert_eq!(shown_at(blink_count, SYNC + BLK), expected);
    }
    for blink_count in [16, 63, 80, 127] {
        let expected = [off, off, off, white, none];
        assert_eq!(shown_at(blink_count, SYNC + BLK), expected);
    }
    let [on, off] = [WITHOUT_SYNC[0], WITHOUT_SYNC[1]];
    let white = [1906, 1905, 1905];
    assert_eq!(shown_at(0, BLK), [on, on, off, white, none]);
    assert_eq!(shown_at(16, BLK), [off, off, off, white, none]);
}

/// The call must be refused with this number in its answer, hand the state back
/// and have no current.
fn assert_refused(state: &State, operand: Operand, number: u8) {
    let (answer, next, currents) = tick_currents(state, &operand);
    let mut expected = [0; ANSWER_BYTES];
    expected[0] = number;
    assert_eq!(answer, expected, "operand {operand:02x?}");
    assert_eq!(next, *state, "operand {operand:02x?}");
    assert_eq!(currents, [0; 15], "operand {operand:02x?}");
}

/// An operand with one byte set, BLK and SYNC high unless that byte is theirs.
fn one_byte(index: usize, value: u8) -> Operand {
    let mut operand = [0, 0, 0, 0, 0, 0, 0, SYNC + BLK];
    operand[index] = value;
    operand
}

#[test]
fn refusal_40_every_chip_but_1() {
    let mut chips = 0;
    for chip in (0..=255).filter(|&chip| chip != 1) {
        let state = State::fresh(chip).unwrap_or_else(|| Bench::not_built(chip).state);
        assert_eq!(state.chip(), chip);
        assert_refused(&state, [0; 8], 40);
        assert_refused(&state, tick_1_to_5(SYNC + BLK), 40);
        // 40 comes before 4, and before chip 2's 15.
        assert_refused(&state, one_byte(5, 0x20), 40);
        assert_refused(&state, one_byte(7, 0xFF), 40);
        assert_refused(&state, [255; 8], 40);
        chips += 1;
    }
    assert_eq!(chips, 255);
    // A chip 2 whose tick is accepted as an event, with places that aren't 0.
    let mut chip = Bench::with_places(2, &[(p2::MASK, 0xFF), (p2::DIRECTION, 1)]);
    chip.set_entry(3, [63; 3]);
    assert_refused(&chip.state, [3, 0, 0, 0, 0, 0, 0, 1], 40);
    // A chip 3 whose tick would show colours and store one.
    let mut chip = Bench::with_places(3, &[(p3::COLOUR_BEFORE, 9)]);
    chip.set_register(3, [15, 15, 15, 1, 0]);
    assert_refused(&chip.state, [3, 3, 0, 0, 0, 0, 0, 1], 40);
    assert_refused(&chip.state, [3, 3, 0, 0, 0, 0, 0, 0], 40);
    // 40 comes before chip 3's 4.
    assert_refused(&chip.state, [16, 3, 0, 0, 0, 0, 0, 1], 40);
}

#[test]
fn refusal_40_comes_before_25() {
    for place in [0, 767, p2::POSITION, p2::DIRECTION] {
        let chip = Bench::with_places(2, &[(place, 255)]);
        assert_eq!(save(&chip.state).map_err(|r| r.number()), Err(25));
        assert_refused(&chip.state, [0; 8], 40);
        assert_refused(&chip.state, one_byte(7, 4), 40);
    }
    for place in [0, p3::LOAD_POSITION, p3::COLOUR_BEFORE] {
        let chip = Bench::with_places(3, &[(place, 255)]);
        assert_eq!(save(&chip.state).map_err(|r| r.number()), Err(25));
        assert_refused(&chip.state, [0; 8], 40);
    }
}

#[test]
fn refusal_25_values_above_their_largest() {
    for (place, most) in [(p1::POSITION, 2), (p1::BLINK_COUNT, 127)] {
        let chip = Bench::with_places(1, &[(place, most)]);
        assert_eq!(shown(&chip, [0; 8]), [[0; 3]; 5]);
        for value in [most + 1, 255] {
            let mut chip = chip_with(COLOURS, FIVE);
            chip.set(place, value);
            assert_refused(&chip.state, tick_1_to_5(SYNC + BLK), 25);
            assert_refused(&chip.state, [0; 8], 25);
            // 25 comes before 4.
            assert_refused(&chip.state, one_byte(6, 0x80), 25);
            assert_refused(&chip.state, [255; 8], 25);
        }
    }
}

#[test]
fn refusal_4_each_undefined_bit() {
    let mut refused = 0;
    for command in [FOUR, FIVE] {
        let chip = chip_with(COLOURS, command);
        for (byte, first_undefined) in [(5, 5), (6, 5), (7, 2)] {
            for bit in 0..8 {
                let operand = one_byte(byte, 1 << bit);
                if bit < first_undefined {
                    assert_eq!(tick_currents(&chip.state, &operand).0[0], 0);
                } else {
                    assert_refused(&chip.state, operand, 4);
                    // With defined bits beside it, blanked or not.
                    for levels in 0..4 {
                        let mut operand = tick_1_to_5(levels);
                        operand[byte] |= 1 << bit;
                        assert_refused(&chip.state, operand, 4);
                    }
                    refused += 1;
                }
            }
        }
    }
    assert_eq!(refused, 2 * (3 + 3 + 6));
}

#[test]
fn every_combination_gives_the_first_refusal() {
    let sound = [
        Bench::fresh(1),
        Bench::fresh(2),
        Bench::fresh(3),
        Bench::not_built(NOT_BUILT),
    ];
    // A chip that isn't built has no places, so no value is too large.
    let unsound = [
        Bench::with_places(1, &[(p1::POSITION, 3)]),
        Bench::with_places(2, &[(p2::POSITION, 3)]),
        Bench::with_places(3, &[(p3::LOAD_POSITION, 32)]),
    ];
    let mut tried = 0;
    for (benches, value_fault) in [(&sound[..], 0), (&unsound[..], 25)] {
        for bench in benches {
            let chip_fault = if bench.state.chip() == 1 { 0 } else { 40 };
            for (levels, tick_fault) in [(SYNC + BLK, 0), (4, 4)] {
                let operand = one_byte(7, levels);
                let faults = [chip_fault, value_fault, tick_fault];
                match faults.into_iter().find(|&fault| fault != 0) {
                    Some(number) => assert_refused(&bench.state, operand, number),
                    None => assert_eq!(shown(bench, operand)[0], [905, 144, 144]),
                }
                tried += 1;
            }
        }
    }
    assert_eq!(tried, 7 * 2);
}

/// A random tick of chip 1; one in four has an undefined bit set.
fn random_tick(random: &mut Random) -> Operand {
    let mut operand = [0; 8].map(|_: u8| random.byte());
    operand[5] &= 31;
    operand[6] &= 31;
    operand[7] &= 3;
    if random.one_in(4) {
        let (byte, bit) = random.pick(&[(5, 5), (6, 7), (7, 2), (7, 7)]);
        operand[byte] |= 1 << bit;
    }
    operand
}

/// Note 1's currents for the count, levels and codes of an unrefused answer.
fn currents_by_search(answer: &Answer, green: &[u16], others: &[u16]) -> [u16; 15] {
    let mut currents = [0; 15];
    for pixel in 0..usize::from(answer[1]) {
        let code = |component| usize::from(answer[3 + 3 * pixel + component]);
        let (r, g, b) = (others[code(0)], green[code(1)], others[code(2)]);
        let three = match answer[2] {
            0 => [0, 0, 0],
            1 => [144 + g, 144 + r, 144 + b],
            2 => [762, 0, 0],
            _ => [905 + g, 144 + r, 144 + b],
        };
        currents[3 * pixel..3 * pixel + 3].copy_from_slice(&three);
    }
    currents
}

/// A random state of chip 1 and a random tick; some states have a value that is
/// too large.
fn random_case(random: &mut Random) -> (State, Operand) {
    let mut chip = Bench {
        state: random.state(1),
    };
    if random.one_in(8) {
        let (place, value) = random.pick(&[(p1::POSITION, 3), (p1::BLINK_COUNT, 128)]);
        chip.set(place, value);
    }
    (chip.state, random_tick(random))
}

#[test]
fn answer_and_next_state_are_the_tick_events() {
    let mut random = Random::seeded(0x5EED_0020);
    let green: Vec<u16> = (0..=255).map(|code| nearest(code, 1762)).collect();
    let others: Vec<u16> = (0..=255).map(|code| nearest(code, 1761)).collect();
    // Rounds with each refusal, count and levels.
    let mut rounds = BTreeMap::new();
    let mut codes = BTreeSet::new();
    for _ in 0..3000 {
        let (state, operand) = random_case(&mut random);
        let (answer, next, currents) = tick_currents(&state, &operand);
        assert_eq!((answer, next), event(&state, kind::TICK, &operand));
        let expected = match answer[0] {
            0 => currents_by_search(&answer, &green, &others),
            _ => [0; 15],
        };
        assert_eq!(currents, expected, "operand {operand:02x?}");
        *rounds.entry([answer[0], answer[1], answer[2]]).or_insert(0) += 1;
        codes.extend(answer[3..].iter().copied());
    }
    let classes = [
        [0, 4, 0],
        [0, 4, BLK],
        [0, 4, SYNC],
        [0, 4, SYNC + BLK],
        [0, 5, 0],
        [0, 5, BLK],
        [0, 5, SYNC],
        [0, 5, SYNC + BLK],
        [4, 0, 0],
        [25, 0, 0],
    ];
    assert!(rounds.keys().eq(&classes), "{rounds:?}");
    assert!(rounds.values().all(|&n| n > 100), "{rounds:?}");
    assert_eq!(codes.len(), 256);
}

#[test]
fn other_chips_are_refused_whatever_their_tick_would_answer() {
    let mut random = Random::seeded(0x5EED_0021);
    let others: Vec<u8> = not_built().collect();
    // Rounds with each number that the tick as an event would answer.
    let mut rounds = BTreeMap::new();
    for _ in 0..800 {
        let state = if random.one_in(4) {
            Bench::not_built(random.pick(&others)).state
        } else {
            let chip = random.pick(&[2, 3]);
            random.state(chip)
        };
        let mut operand = random_tick(&mut random);
        if state.chip() == 3 {
            operand[0] &= 15;
        }
        if random.one_in(2) {
            operand[1..7].fill(0);
        }
        assert_refused(&state, operand, 40);
        let (answer, _) = event(&state, kind::TICK, &operand);
        *rounds.entry(answer[0]).or_insert(0) += 1;
    }
    assert!(rounds.keys().eq(&[0, 4, 15, 21]), "{rounds:?}");
    assert!(rounds.values().all(|&n| n > 50), "{rounds:?}");
}

/// Calls on byte strings with buffers of these sizes; gives the result and both
/// buffers.
fn call_with(
    snapshot: &[u8],
    operand: &[u8],
    out_bytes: usize,
    end_bytes: usize,
) -> (u64, Vec<u8>, Vec<u8>) {
    let mut out = vec![0xA5; out_bytes];
    let mut end = vec![0x5A; end_bytes];
    let result = tick_currents_into(snapshot, operand, &mut out, &mut end);
    (result, out, end)
}

/// The call on byte strings must be refused with this number, length 0, no byte
/// changed.
fn assert_call_refused(
    snapshot: &[u8],
    operand: &[u8],
    out_bytes: usize,
    end_bytes: usize,
    number: u8,
) {
    let (result, out, end) = call_with(snapshot, operand, out_bytes, end_bytes);
    assert_eq!(result, 65_536 * u64::from(number));
    assert_eq!(out, vec![0xA5; out_bytes]);
    assert_eq!(end, vec![0x5A; end_bytes]);
}

/// The call on byte strings must give these bytes and change none past them.
fn assert_call_gives(
    (snapshot, operand): (&[u8], &[u8]),
    (out_bytes, end_bytes): (usize, usize),
    out_start: &[u8; OUT_BYTES],
    end_start: &[u8],
) {
    let (result, out, end) = call_with(snapshot, operand, out_bytes, end_bytes);
    assert_eq!(result, end_start.len() as u64);
    assert_eq!(out[..OUT_BYTES], *out_start);
    assert_eq!(out[OUT_BYTES..], vec![0xA5; out_bytes - OUT_BYTES]);
    assert_eq!(end[..end_start.len()], *end_start);
    assert_eq!(
        end[end_start.len()..],
        vec![0x5A; end_bytes - end_start.len()]
    );
}

/// SYNC and BLK high, pixels 0.
const BLACK_TICK: [u8; 8] = [0, 0, 0, 0, 0, 0, 0, SYNC + BLK];

/// What the black tick gives on a chip whose colours are 0, four pixels: 905 is
/// 0389h and 144 is 0090h.
const BLACK_OUT: [u8; OUT_BYTES] = [
    0, 4, 3, 0, 0, 0, 0, 0, 0, 0, 0, 0, 0, 0, 0, 0, 0, 0, // answer
    0x89, 0x03, 0x90, 0x00, 0x90, 0x00, // A
    0x89, 0x03, 0x90, 0x00, 0x90, 0x00, // B
    0x89, 0x03, 0x90, 0x00, 0x90, 0x00, // C
    0x89, 0x03, 0x90, 0x00, 0x90, 0x00, // D
    0, 0, 0, 0, 0, 0, // E
];

#[test]
fn byte_strings_worked_out_by_hand() {
    // Entry 1 is 51, 204, 102; read mask FFh, command 40h, blink count 5.
    let places = [(3, 51), (4, 204), (5, 102), (784, 255), (786, 64), (788, 5)];
    let snapshot = snapshot_bytes(1, &places);
    assert_eq!(snapshot.len(), 21);
    // Green 905 + 1410 is 090Bh, red 144 + 352 is 01F0h, blue 144 + 704 is
    // 0350h. Pixel E is 1 too, past the count.
    let mut out = BLACK_OUT;
    out[3..6].copy_from_slice(&[51, 204, 102]);
    out[18..24].copy_from_slice(&[0x0B, 0x09, 0xF0, 0x01, 0x50, 0x03]);
    let operand = [1, 0, 0, 0, 1, 0, 0, 3];
    let exact = (OUT_BYTES, END_BYTES);
    assert_call_gives((&snapshot, &operand), exact, &out, &snapshot);
    // Pixel D in place of A.
    let mut out = BLACK_OUT;
    out[12..15].copy_from_slice(&[51, 204, 102]);
    out[36..42].copy_from_slice(&[0x0B, 0x09, 0xF0, 0x01, 0x50, 0x03]);
    let operand = [0, 0, 0, 1, 1, 0, 0, 3];
    let last_pixel = [(789, 51), (790, 204), (791, 102)];
    let end = snapshot_bytes(1, &[&places[..], &last_pixel].concat());
    assert_call_gives((&snapshot, &operand), exact, &out, &end);

    // Five pixels, E at the very end, SYNC low: green 144 + 1410 is 0612h.
    let places = [(3, 51), (4, 204), (5, 102), (784, 255), (786, 0xC0)];
    let snapshot = snapshot_bytes(1, &places);
    let mut out = [0; OUT_BYTES];
    out[1..3].copy_from_slice(&[5, 1]);
    out[15..18].copy_from_slice(&[51, 204, 102]);
    for current in out[18..42].chunks_exact_mut(2) {
        current.copy_from_slice(&[0x90, 0x00]);
    }
    out[42..].copy_from_slice(&[0x12, 0x06, 0xF0, 0x01, 0x50, 0x03]);
    let operand = [0, 0, 0, 0, 1, 0, 0, 1];
    let shown = snapshot_bytes(1, &[&places[..], &last_pixel].concat());
    assert_call_gives((&snapshot, &operand), exact, &out, &shown);

    // Blanked: 762 is 02FAh on the five greens, and the last pixel is black again.
    let mut out = [0; OUT_BYTES];
    out[1..3].copy_from_slice(&[5, 2]);
    for pixel in out[18..].chunks_exact_mut(6) {
        pixel[..2].copy_from_slice(&[0xFA, 0x02]);
    }
    let operand = [1, 1, 1, 1, 1, 0, 0, 2];
    assert_call_gives((&shown, &operand), exact, &out, &snapshot);
}

#[test]
fn bytes_past_the_currents_and_the_end_snapshot_do_not_change() {
    let start = [1, 0, 0];
    for (out_bytes, end_bytes) in [
        (OUT_BYTES, END_BYTES),
        (OUT_BYTES + 1, END_BYTES + 1),
        (OUT_BYTES + 20, END_BYTES + 20),
        (5000, 5000),
    ] {
        let sizes = (out_bytes, end_bytes);
        assert_call_gives((&start, &BLACK_TICK), sizes, &BLACK_OUT, &start);
    }
}

#[test]
fn operand_out_and_end_short_exact_and_longer() {
    let start = [1, 0, 0];
    let (mut refused, mut accepted) = (0, 0);
    let operand = [&BLACK_TICK[..], &[0; 8]].concat();
    for length in [0, 1, 7, 8, 9, 16] {
        for out_bytes in [0, 18, 47, 48, 49] {
            for end_bytes in [0, 3, END_BYTES - 1, END_BYTES, END_BYTES + 1] {
                let number = match (length, out_bytes, end_bytes) {
                    (8, 48 | 49, END_BYTES..) => 0,
                    (8, 48 | 49, _) => 31,
                    (8, _, _) => 30,
                    _ => 13,
                };
                let operand = &operand[..length];
                if number == 0 {
                    let sizes = (out_bytes, end_bytes);
                    assert_call_gives((&start, operand), sizes, &BLACK_OUT, &start);
                    accepted += 1;
                } else {
                    assert_call_refused(&start, operand, out_bytes, end_bytes, number);
                    refused += 1;
                }
            }
        }
    }
    assert_eq!((accepted, refused), (4, 6 * 5 * 5 - 4));
}

#[test]
fn the_longest_snapshot_fills_the_end_buffer() {
    // Command 1 leaves CR7 and CR6 low: overlay 0, whose codes are all 1.
    let places: Vec<(u16, u8)> = (0..792).map(|place| (place, 1)).collect();
    let longest = snapshot_bytes(1, &places);
    assert_eq!(longest.len(), END_BYTES);
    let mut out = [0; OUT_BYTES];
    out[1..3].copy_from_slice(&[4, 3]);
    out[3..15].copy_from_slice(&[1; 12]);
    // 905 + 7 is 0390h, 144 + 7 is 0097h.
    for pixel in out[18..42].chunks_exact_mut(6) {
        pixel.copy_from_slice(&[0x90, 0x03, 0x97, 0x00, 0x97, 0x00]);
    }
    for (out_bytes, end_bytes) in [(OUT_BYTES, END_BYTES), (OUT_BYTES + 2, END_BYTES + 2)] {
        let sizes = (out_bytes, end_bytes);
        assert_call_gives((&longest, &BLACK_TICK), sizes, &out, &longest);
    }
}

#[test]
fn refusal_4_sits_in_the_answer_of_the_call_on_byte_strings() {
    // The last pixel's codes stay too.
    let registers = [(780, 9), (784, 255), (786, 0xC0)];
    let last_pixel = [(789, 7), (790, 8), (791, 9)];
    let snapshot = snapshot_bytes(1, &[&registers[..], &last_pixel].concat());
    let mut out = [0; OUT_BYTES];
    out[0] = 4;
    for operand in [one_byte(5, 32), one_byte(6, 128), one_byte(7, 6), [255; 8]] {
        for sizes in [(OUT_BYTES, END_BYTES), (OUT_BYTES + 5, END_BYTES + 5)] {
            assert_call_gives((&snapshot, &operand), sizes, &out, &snapshot);
        }
        // 13, 30 and 31 are returned, whatever the tick would answer.
        assert_call_refused(&snapshot, &operand[..7], OUT_BYTES, END_BYTES, 13);
        assert_call_refused(&snapshot, &operand, OUT_BYTES - 1, END_BYTES, 30);
        assert_call_refused(&snapshot, &operand, OUT_BYTES, END_BYTES - 1, 31);
    }
}

#[test]
fn every_combination_of_faults_gives_the_first_refusal_of_the_call() {
    let mut tried = 0;
    for (chip, chip_fault) in [(1, 0), (2, 40), (3, 40)] {
        for snapshot_fault in [0, 20, 21, 22, 23, 24, 25] {
            let snapshot = snapshot_with(snapshot_fault, chip);
            for (operand, operand_fault) in [(&BLACK_TICK[..], 0), (&BLACK_TICK[..7], 13)] {
                for (out_bytes, out_fault) in [(OUT_BYTES, 0), (OUT_BYTES - 1, 30)] {
                    for (end_bytes, end_fault) in [(END_BYTES, 0), (END_BYTES - 1, 31)] {
                        let inputs = [snapshot_fault, chip_fault, operand_fault];
                        let faults = [&inputs[..], &[out_fault, end_fault]].concat();
                        match faults.into_iter().find(|&fault| fault != 0) {
                            Some(number) => assert_call_refused(
                                &snapshot, operand, out_bytes, end_bytes, number,
                            ),
                            None => assert_call_gives(
                                (&snapshot, operand),
                                (out_bytes, end_bytes),
                                &BLACK_OUT,
                                &snapshot,
                            ),
                        }
                        tried += 1;
                    }
                }
            }
        }
    }
    assert_eq!(tried, 3 * 7 * 2 * 2 * 2);
}

#[test]
fn neighbours_in_the_order_of_the_calls_refusals() {
    let mut longer = snapshot_bytes(1, &[(792, 1)]);
    longer.push(1);
    // Sizes of operand, out and end.
    let good = (8, OUT_BYTES, END_BYTES);
    let operand_short = (7, OUT_BYTES, END_BYTES);
    let operand_and_out_short = (7, OUT_BYTES - 1, END_BYTES);
    let out_and_end_short = (8, OUT_BYTES - 1, END_BYTES - 1);
    // The number given, and behind it the other fault.
    let cases = [
        (vec![NOT_BUILT, 0], good, [20, 21]),
        (vec![NOT_BUILT, 0xFF, 0xFF], good, [21, 22]),
        (vec![1, 0xFF, 0xFF], good, [22, 23]),
        (longer, good, [23, 24]),
        (snapshot_bytes(1, &[(792, 0)]), good, [24, 25]),
        (snapshot_bytes(2, &[(5, 64)]), good, [25, 40]),
        (snapshot_bytes(3, &[(5, 16)]), good, [25, 40]),
        (vec![2, 0, 0], operand_short, [40, 13]),
        (vec![3, 0, 0], operand_short, [40, 13]),
        (vec![1, 0, 0], operand_and_out_short, [13, 30]),
        (vec![1, 0, 0], out_and_end_short, [30, 31]),
    ];
    for (snapshot, (length, out_bytes, end_bytes), [number, _]) in cases {
        let operand = &BLACK_TICK[..length];
        assert_call_refused(&snapshot, operand, out_bytes, end_bytes, number);
    }
    // At the lower index a bad value comes before a bad place, as in a run.
    let snapshot = snapshot_bytes(1, &[(5, 0), (5, 1)]);
    assert_call_refused(&snapshot, &BLACK_TICK, OUT_BYTES, END_BYTES, 25);
}

#[test]
fn refusal_40_of_the_call_is_chip_2s_and_3s_and_21_every_other_chips() {
    for chip in not_built() {
        assert_call_refused(&[chip, 0, 0], &BLACK_TICK, OUT_BYTES, END_BYTES, 21);
    }
    for (operand, out_bytes, end_bytes) in [
        (&BLACK_TICK[..], OUT_BYTES, END_BYTES),
        // 40 comes before 13, 30 and 31.
        (&[], OUT_BYTES, END_BYTES),
        (&BLACK_TICK, OUT_BYTES - 1, END_BYTES),
        (&BLACK_TICK, OUT_BYTES, END_BYTES - 1),
        (&[], 0, 0),
    ] {
        assert_call_refused(&[2, 0, 0], operand, out_bytes, end_bytes, 40);
        let painted = snapshot_bytes(2, &[(0, 63), (773, 255)]);
        assert_call_refused(&painted, operand, out_bytes, end_bytes, 40);
        assert_call_refused(&[3, 0, 0], operand, out_bytes, end_bytes, 40);
        let loaded = snapshot_bytes(3, &[(0, 15), (85, 15)]);
        assert_call_refused(&loaded, operand, out_bytes, end_bytes, 40);
    }
}

#[test]
fn the_call_on_byte_strings_is_the_call_on_a_state() {
    let mut random = Random::seeded(0x5EED_0022);
    let (mut accepted, mut refused_ticks, mut refused_snapshots) = (0, 0, 0);
    for _ in 0..1000 {
        let state = random.state(1);
        let operand = random_tick(&mut random);
        let (answer, next, currents) = tick_currents(&state, &operand);
        let mut out = [0; OUT_BYTES];
        out[..ANSWER_BYTES].copy_from_slice(&answer);
        for (i, current) in currents.into_iter().enumerate() {
            out[18 + 2 * i] = (current % 256) as u8;
            out[19 + 2 * i] = (current / 256) as u8;
        }
        let snapshot = save(&state).unwrap();
        let end = save(&next).unwrap();
        let sizes = (OUT_BYTES + random.below(9), END_BYTES + random.below(9));
        assert_call_gives((&snapshot, &operand), sizes, &out, &end);
        if answer[0] == 0 {
            accepted += 1;
        } else {
            refused_ticks += 1;
        }
        // Cut short, the snapshot is refused and nothing is written.
        let cut = random.below(snapshot.len());
        let number = if cut < 3 { 20 } else { 23 };
        assert_call_refused(&snapshot[..cut], &operand, sizes.0, sizes.1, number);
        refused_snapshots += 1;
    }
    assert!(accepted > 600, "{accepted}");
    assert!(refused_ticks > 150, "{refused_ticks}");
    assert_eq!(refused_snapshots, 1000);
}
