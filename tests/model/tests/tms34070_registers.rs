//! The TMS34070's paragraphs on its registers, on REP and on EXT as tests, with
//! the bit positions that document 02's Note 3 gives them. The expected values
//! are worked out from both by hand.

use crate::common::{play, Bench};
use kit::{load, nonzero, p3, save as save_event, snapshot_bytes, tick, Random, ANSWER_BYTES};
use model::{kind, Event};

/// Registers with colours of their own, EXT and no REP; held red 9, held REP
/// without EXT; a colour before; this load position.
fn every_place_used(load_position: u8) -> Bench {
    let mut chip = Bench::fresh(3);
    for register in 0..16 {
        let low = register as u8;
        chip.set_register(register, [15 - low, low / 2 + 1, low / 3 + 2, 1, 0]);
    }
    chip.set(p3::LOAD_POSITION, load_position);
    chip.set(p3::HELD_RED, 9);
    chip.set(p3::HELD_ATTRIBUTES, 2);
    for (component, value) in [12, 13, 14].into_iter().enumerate() {
        chip.set(p3::COLOUR_BEFORE + component, value);
    }
    chip
}

// ---- registers

#[test]
fn every_load_position_holds_or_stores_and_moves_on() {
    for position in 0..32u8 {
        let mut chip = every_place_used(position);
        let mut expected = chip.state.places();
        expected[80] = if position == 31 { 0 } else { position + 1 };
        if position % 2 == 0 {
            // Red 10; DB 0101 has EXT 1 and REP 0.
            (expected[81], expected[82]) = (10, 1);
        } else {
            // Held red 9 and REP, then green 10 and blue 5.
            let first = 5 * usize::from(position / 2);
            expected[first..first + 5].copy_from_slice(&[9, 10, 5, 0, 1]);
        }
        assert_eq!(chip.load(10, 5), 0);
        assert_eq!(chip.state.places(), expected, "position {position}");
    }
}

/// The two loads of a register with these values.
fn register_loads([red, green, blue, ext, rep]: [u8; 5]) -> [(u8, u8); 2] {
    [(red, ext + 2 * rep), (green, blue)]
}

/// Sixteen registers, each with values of its own.
fn table(shift: u8) -> Vec<[u8; 5]> {
    (0..16u8)
        .map(|n| {
            [
                (n + shift) % 16,
                (n + 5 + shift) % 16,
                15 - n,
                n % 2,
                n / 2 % 2,
            ]
        })
        .collect()
}

#[test]
fn thirty_two_loads_fill_registers_0_to_15_and_start_over() {
    let mut chip = Bench::fresh(3);
    let mut expected = vec![[0; 5]; 16];
    for shift in [0, 3] {
        for (n, values) in table(shift).into_iter().enumerate() {
            let [first, second] = register_loads(values);
            chip.load_all(&[first]);
            assert_eq!(chip.place(80), 2 * n as u8 + 1);
            assert_eq!(registers(&chip), expected);
            chip.load_all(&[second]);
            expected[n] = values;
            assert_eq!(chip.place(80), (2 * n as u8 + 2) % 32);
            assert_eq!(registers(&chip), expected);
        }
    }
    assert_eq!(expected, table(3));
    // By hand: register 7 of the second table is 10, 15, 8, EXT 1, REP 1.
    assert_eq!(chip.register(7), [10, 15, 8, 1, 1]);
    assert_eq!(chip.colour_before(), [0, 0, 0]);
}

fn registers(chip: &Bench) -> Vec<[u8; 5]> {
    (0..16).map(|register| chip.register(register)).collect()
}

#[test]
fn a_first_load_holds_red_ext_and_rep_for_every_da_and_db() {
    for da in 0..16 {
        for db in 0..16 {
            let mut chip = every_place_used(6);
            let mut expected = chip.state.places();
            let attributes = match db {
                0 | 4 | 8 | 12 => 0,
                1 | 5 | 9 | 13 => 1,
                2 | 6 | 10 | 14 => 2,
                _ => 3,
            };
            (expected[80], expected[81], expected[82]) = (7, da, attributes);
            assert_eq!(chip.load(da, db), 0);
            assert_eq!(chip.state.places(), expected);
        }
    }
}

#[test]
fn a_second_load_stores_green_and_blue_for_every_da_and_db() {
    for (attributes, ext, rep) in [(0, 0, 0), (1, 1, 0), (2, 0, 1), (3, 1, 1)] {
        for da in 0..16 {
            for db in 0..16 {
                let mut chip = every_place_used(7);
                chip.set(82, attributes);
                let mut expected = chip.state.places();
                expected[15..20].copy_from_slice(&[9, da, db, ext, rep]);
                expected[80] = 8;
                assert_eq!(chip.load(da, db), 0);
                assert_eq!(chip.state.places(), expected);
            }
        }
    }
}

#[test]
fn held_values_stay_after_the_second_load() {
    let mut chip = Bench::fresh(3);
    chip.load_all(&[(7, 3), (8, 9)]);
    assert_eq!(chip.register(0), [7, 8, 9, 1, 1]);
    assert_eq!([chip.place(81), chip.place(82)], [7, 3]);
    chip.load_all(&[(4, 12)]);
    assert_eq!([chip.place(81), chip.place(82)], [4, 0]);
    assert_eq!(chip.register(0), [7, 8, 9, 1, 1]);
}

#[test]
fn refused_loads_leave_the_halves_as_they_are() {
    let mut chip = Bench::fresh(3);
    assert_eq!(chip.load(16, 3), 4);
    chip.load_all(&[(7, 1)]);
    for (da, db) in [(16, 0), (0, 16), (255, 255), (23, 8)] {
        assert_eq!(chip.load(da, db), 4);
    }
    assert_eq!(chip.write(0, 3), 5);
    assert_eq!(chip.read(1), (5, 0));
    chip.load_all(&[(8, 9)]);
    assert_eq!(chip.register(0), [7, 8, 9, 1, 0]);
    assert_eq!(chip.place(80), 2);
}

#[test]
fn a_load_leaves_the_colour_before() {
    let mut chip = every_place_used(0);
    for round in 0..64 {
        chip.load_all(&[(round % 16, 2)]);
        assert_eq!(chip.colour_before(), [12, 13, 14]);
    }
    // Every register repeats by now.
    assert_eq!(chip.show3(3, 9), [[12, 13, 14]; 2]);
}

#[test]
fn saves_inside_a_registers_two_loads_change_nothing() {
    for n in 0..16 {
        let mut chip = every_place_used(2 * n);
        let mut saved = every_place_used(2 * n);
        for (da, db) in [(6, 3), (11, 12)] {
            for bench in [&mut chip, &mut saved] {
                assert_eq!(bench.load(da, db), 0);
            }
            let before = saved.state.clone();
            for _ in 0..2 {
                assert_eq!(saved.event(kind::SAVE, [0; 8]), [0; ANSWER_BYTES]);
            }
            assert_eq!(saved.state, before);
        }
        assert_eq!(saved.state, chip.state);
        assert_eq!(saved.register(usize::from(n)), [6, 11, 12, 1, 1]);
    }
}

#[test]
fn a_run_can_end_and_start_between_the_two_loads() {
    let first = play(3, &[3, 0, 0], &[load(6, 3)]);
    assert_eq!(first.end, snapshot_bytes(3, &[(80, 1), (81, 6), (82, 3)]));
    let second = play(3, &first.end, &[load(11, 12)]);
    let pairs = [(0, 6), (1, 11), (2, 12), (3, 1), (4, 1)];
    let counters = [(80, 2), (81, 6), (82, 3)];
    let expected = snapshot_bytes(3, &[&pairs[..], &counters].concat());
    assert_eq!(second.end, expected);
    let whole = play(3, &[3, 0, 0], &[load(6, 3), save_event(), load(11, 12)]);
    assert_eq!(whole.end, expected);
}

// ---- display

#[test]
fn every_register_is_shown_by_da_and_by_db() {
    let mut chip = Bench::fresh(3);
    for n in 0..16 {
        let low = n as u8;
        chip.set_register(n, [low, 15 - low, (low + 8) % 16, 0, 0]);
    }
    for da in 0..16 {
        for db in 0..16 {
            let colours = [[da, 15 - da, (da + 8) % 16], [db, 15 - db, (db + 8) % 16]];
            let mut expected = chip.state.places();
            expected[83..].copy_from_slice(&colours[1]);
            assert_eq!(chip.show3(da, db), colours);
            // A tick stores DB's colour and nothing else.
            assert_eq!(chip.state.places(), expected);
        }
    }
}

#[test]
fn the_answer_of_a_tick_byte_by_byte() {
    let mut chip = Bench::fresh(3);
    chip.set_register(0, [1, 2, 3, 1, 0]);
    chip.set_register(15, [13, 14, 15, 0, 0]);
    let answer = chip.event(kind::TICK, [0, 15, 0, 0, 0, 0, 0, 1]);
    assert_eq!(answer[..9], [0, 2, 0b011, 1, 2, 3, 13, 14, 15]);
    assert_eq!(answer[9..], [0; ANSWER_BYTES - 9]);
    let answer = chip.event(kind::TICK, [15, 0, 0, 0, 0, 0, 0, 1]);
    assert_eq!(answer[..9], [0, 2, 0b101, 13, 14, 15, 1, 2, 3]);
    let answer = chip.event(kind::TICK, [0, 0, 0, 0, 0, 0, 0, 1]);
    assert_eq!(answer[..9], [0, 2, 0b111, 1, 2, 3, 1, 2, 3]);
    let answer = chip.event(kind::TICK, [15, 15, 0, 0, 0, 0, 0, 1]);
    assert_eq!(answer[..9], [0, 2, 0b001, 13, 14, 15, 13, 14, 15]);
}

// ---- EXT

#[test]
fn ext_is_the_selected_registers_own_for_every_pair() {
    // Registers 1, 4, 6, 11 and 15 have EXT; 4, 5, 11 and 12 repeat.
    let mut chip = Bench::fresh(3);
    let with_ext = [1, 4, 6, 11, 15];
    for n in 0..16u8 {
        let ext = u8::from(with_ext.contains(&n));
        let rep = u8::from([4, 5, 11, 12].contains(&n));
        chip.set_register(usize::from(n), [n, n, n, ext, rep]);
    }
    for da in 0..16 {
        for db in 0..16 {
            let ext_a = u8::from(with_ext.contains(&da));
            let ext_b = u8::from(with_ext.contains(&db));
            let answer = chip.event(kind::TICK, [da, db, 0, 0, 0, 0, 0, 1]);
            assert_eq!(answer[..3], [0, 2, 1 + 2 * ext_a + 4 * ext_b]);
            chip.blank3(da, db);
        }
    }
}

#[test]
fn a_repeated_colour_does_not_bring_its_ext() {
    let mut chip = Bench::fresh(3);
    chip.set_register(1, [1, 2, 3, 1, 0]);
    chip.set_register(2, [4, 5, 6, 0, 1]);
    chip.set_register(3, [7, 8, 9, 1, 1]);
    // Register 2 repeats register 1's colour with its own EXT, 0.
    let answer = chip.event(kind::TICK, [1, 2, 0, 0, 0, 0, 0, 1]);
    assert_eq!(answer[2..9], [0b011, 1, 2, 3, 1, 2, 3]);
    // Register 3 repeats the same colour with its own EXT, 1.
    let answer = chip.event(kind::TICK, [2, 3, 0, 0, 0, 0, 0, 1]);
    assert_eq!(answer[2..9], [0b101, 1, 2, 3, 1, 2, 3]);
}

// ---- REP

/// Register 0: red, no REP. Register 1: green, no REP. Registers 2 and 3 have
/// colours of their own and REP. The colour before is 12, 13, 14.
fn repeating() -> Bench {
    let mut chip = Bench::with_places(3, &[(83, 12), (84, 13), (85, 14)]);
    chip.set_register(0, [15, 0, 0, 0, 0]);
    chip.set_register(1, [0, 15, 0, 0, 0]);
    chip.set_register(2, [1, 1, 1, 0, 1]);
    chip.set_register(3, [2, 2, 2, 0, 1]);
    chip
}

const RED: [u8; 3] = [15, 0, 0];
const GREEN: [u8; 3] = [0, 15, 0];
const BEFORE: [u8; 3] = [12, 13, 14];
const BLACK: [u8; 3] = [0; 3];

#[test]
fn rep_repeats_the_pixel_shown_before_in_either_pixel() {
    for (da, db, shown) in [
        (0, 1, [RED, GREEN]),
        (1, 0, [GREEN, RED]),
        // DB repeats DA, not the colour before the tick.
        (0, 2, [RED, RED]),
        (1, 3, [GREEN, GREEN]),
        // DA repeats the colour before the tick.
        (2, 0, [BEFORE, RED]),
        (3, 1, [BEFORE, GREEN]),
        // DB repeats what DA repeated.
        (2, 3, [BEFORE, BEFORE]),
        (2, 2, [BEFORE, BEFORE]),
    ] {
        let mut chip = repeating();
        assert_eq!(chip.show3(da, db), shown);
        assert_eq!(chip.colour_before(), shown[1]);
    }
}

#[test]
fn a_chain_of_rep_goes_on_over_several_ticks() {
    let mut chip = repeating();
    assert_eq!(chip.show3(1, 0), [GREEN, RED]);
    for (da, db) in [(2, 3), (3, 3), (2, 2), (3, 2)] {
        assert_eq!(chip.show3(da, db), [RED, RED]);
        assert_eq!(chip.colour_before(), RED);
    }
    // A chain that starts with DA, and one that ends with it.
    assert_eq!(chip.show3(1, 2), [GREEN, GREEN]);
    assert_eq!(chip.show3(3, 0), [GREEN, RED]);
    assert_eq!(chip.show3(2, 1), [RED, GREEN]);
}

#[test]
fn a_chain_of_rep_goes_on_over_loads_saves_and_refused_events() {
    let mut chip = repeating();
    assert_eq!(chip.show3(0, 0), [RED, RED]);
    chip.load_all(&[(3, 0), (4, 5), (6, 0)]);
    assert_eq!(chip.event(kind::SAVE, [0; 8]), [0; ANSWER_BYTES]);
    for (event_kind, operand, number) in [
        (kind::TICK, [16, 1, 0, 0, 0, 0, 0, 1], 4),
        (kind::TICK, [1, 16, 0, 0, 0, 0, 0, 1], 4),
        (kind::TICK, [1, 1, 0, 0, 0, 0, 0, 2], 4),
        // Black isn't the colour before if the blanked tick is refused.
        (kind::TICK, [16, 1, 0, 0, 0, 0, 0, 0], 4),
        (kind::TICK, [1, 1, 1, 0, 0, 0, 0, 0], 15),
        (kind::LOAD, [16, 1, 0, 0, 0, 0, 0, 0], 4),
        (kind::VERTICAL, [0; 8], 5),
    ] {
        let before = chip.state.clone();
        assert_eq!(chip.event(event_kind, operand)[0], number);
        assert_eq!(chip.state, before);
    }
    // Register 0 has been loaded anew; its old colour is still repeated.
    assert_eq!(chip.show3(2, 3), [RED, RED]);
    assert_eq!(chip.show3(0, 2), [[3, 4, 5], [3, 4, 5]]);
}

#[test]
fn daten_low_is_black_and_makes_black_the_colour_before() {
    for da in 0..16 {
        for db in 0..16 {
            let mut chip = every_place_used(5);
            let mut expected = chip.state.places();
            expected[83..].copy_from_slice(&[0, 0, 0]);
            chip.blank3(da, db);
            assert_eq!(chip.state.places(), expected);
        }
    }
}

#[test]
fn a_chain_of_rep_after_daten_low_is_black() {
    let mut chip = repeating();
    assert_eq!(chip.show3(0, 2), [RED, RED]);
    chip.blank3(1, 1);
    assert_eq!(chip.show3(2, 3), [BLACK, BLACK]);
    chip.blank3(2, 2);
    assert_eq!(chip.show3(3, 2), [BLACK, BLACK]);
    assert_eq!(chip.show3(2, 1), [BLACK, GREEN]);
    assert_eq!(chip.show3(3, 3), [GREEN, GREEN]);
    chip.blank3(0, 0);
    chip.blank3(0, 0);
    assert_eq!(chip.show3(1, 3), [GREEN, GREEN]);
}

#[test]
fn a_fresh_chip_shows_black_and_repeats_black() {
    let mut chip = Bench::fresh(3);
    assert_eq!(chip.show3(0, 15), [BLACK, BLACK]);
    chip.set_register(4, [1, 1, 1, 0, 1]);
    assert_eq!(chip.show3(4, 4), [BLACK, BLACK]);
    assert_eq!(chip.state.places()[80..], [0; 6]);
}

// ---- loads between ticks

#[test]
fn a_register_is_shown_with_its_old_values_until_its_second_load() {
    // Registers 5 and 6 are DA and DB; loads come between their halves.
    let mut chip = Bench::with_places(3, &[(80, 10)]);
    chip.set_register(5, [1, 2, 3, 1, 0]);
    chip.set_register(6, [4, 5, 6, 0, 0]);
    let shown = [5, 6, 0, 0, 0, 0, 0, 1];
    let old = [0, 2, 0b011, 1, 2, 3, 4, 5, 6];
    assert_eq!(chip.event(kind::TICK, shown)[..9], old);
    // Register 5's first load: REP and no EXT.
    chip.load_all(&[(7, 2)]);
    assert_eq!(chip.event(kind::TICK, shown)[..9], old);
    // Its second: DA now repeats DB of the tick before.
    chip.load_all(&[(8, 9)]);
    let half = [0, 2, 0b001, 4, 5, 6, 4, 5, 6];
    assert_eq!(chip.event(kind::TICK, shown)[..9], half);
    // Register 6's first load: EXT.
    chip.load_all(&[(10, 1)]);
    assert_eq!(chip.event(kind::TICK, shown)[..9], half);
    chip.load_all(&[(11, 12)]);
    let new = [0, 2, 0b101, 4, 5, 6, 10, 11, 12];
    assert_eq!(chip.event(kind::TICK, shown)[..9], new);
    // Only now does DA repeat register 6's new colour.
    let last = [0, 2, 0b101, 10, 11, 12, 10, 11, 12];
    assert_eq!(chip.event(kind::TICK, shown)[..9], last);
}

#[test]
fn a_register_loaded_anew_leaves_the_colour_that_was_shown() {
    let mut chip = repeating();
    chip.set(p3::HELD_RED, 9);
    chip.set(p3::LOAD_POSITION, 1);
    assert_eq!(chip.show3(1, 0), [GREEN, RED]);
    chip.load_all(&[(8, 7)]);
    assert_eq!(chip.register(0), [9, 8, 7, 0, 0]);
    assert_eq!(chip.show3(2, 3), [RED, RED]);
    assert_eq!(chip.show3(2, 0), [RED, [9, 8, 7]]);
}

// ---- at random

/// Each pixel's colour looked up by going back: past the pixels that repeat, to
/// one that doesn't, or to a blanked tick, or to the start. Counts how far each
/// search went.
fn shown_by_search(
    registers: &[[u8; 5]],
    start: [u8; 3],
    ticks: &[Event],
    lengths: &mut [usize],
) -> Vec<[u8; 3]> {
    // Two pixels for each tick; none is a blanked one.
    let pixels: Vec<Option<u8>> = ticks
        .iter()
        .flat_map(|tick| {
            let high = tick.operand[7] == 1;
            [tick.operand[0], tick.operand[1]].map(|pixel| high.then_some(pixel))
        })
        .collect();
    let mut shown = Vec::new();
    for last in 0..pixels.len() {
        let mut colour = start;
        let mut length = 0;
        for pixel in pixels[..=last].iter().rev() {
            let Some(pixel) = *pixel else {
                colour = BLACK;
                break;
            };
            let [red, green, blue, _, rep] = registers[usize::from(pixel)];
            if rep == 0 {
                colour = [red, green, blue];
                break;
            }
            length += 1;
        }
        lengths[length.min(lengths.len() - 1)] += 1;
        shown.push(colour);
    }
    shown
}

#[test]
fn chains_of_any_length_agree_with_a_search_back() {
    let mut random = Random::seeded(0x5EED_0300);
    // Searches that went 0, 1, 2, .. pixels back; the last counts all longer.
    let mut lengths = [0; 9];
    let (mut blanked, mut with_ext) = (0, 0);
    for _ in 0..300 {
        let places = random.places(3);
        let registers: Vec<[u8; 5]> = places[..80]
            .chunks_exact(5)
            .map(|register| register.try_into().unwrap())
            .collect();
        let start = [places[83], places[84], places[85]];
        let ticks: Vec<Event> = (0..40).map(|_| random.tick(3)).collect();
        let shown = shown_by_search(&registers, start, &ticks, &mut lengths);

        let played = play(3, &snapshot_bytes(3, &nonzero(&places)), &ticks);
        for ((event, answer), colours) in ticks.iter().zip(&played.answers).zip(shown.chunks(2)) {
            let [da, db] = [event.operand[0], event.operand[1]];
            let ext = |pixel: u8| registers[usize::from(pixel)][3];
            let daten = event.operand[7];
            let mut expected = [0; ANSWER_BYTES];
            expected[1] = 2;
            expected[2] = daten * (1 + 2 * ext(da) + 4 * ext(db));
            expected[3..6].copy_from_slice(&colours[0]);
            expected[6..9].copy_from_slice(&colours[1]);
            assert_eq!(*answer, expected);
            blanked += usize::from(daten == 0);
            with_ext += usize::from(expected[2] > 1);
        }
        // The end: the same places, but for the last colour shown.
        let mut end = places.clone();
        end[83..].copy_from_slice(shown.last().unwrap());
        assert_eq!(played.end, snapshot_bytes(3, &nonzero(&end)));
    }
    assert!(lengths.iter().all(|&count| count > 200), "{lengths:?}");
    assert!(blanked > 1000);
    assert!(with_ext > 1000);
}

#[test]
fn random_loads_agree_with_the_pairs_that_they_make() {
    let mut random = Random::seeded(0x5EED_0301);
    let mut positions = [0; 32];
    let mut refused = 0;
    for _ in 0..300 {
        let mut places = random.places(3);
        let snapshot = snapshot_bytes(3, &nonzero(&places));
        let count = random.below(80);
        let loads: Vec<Event> = (0..count)
            .map(|_| {
                if random.one_in(8) {
                    random.odd_load()
                } else {
                    random.load()
                }
            })
            .collect();
        let played = play(3, &snapshot, &loads);
        for (load, answer) in loads.iter().zip(&played.answers) {
            let [da, db] = [load.operand[0], load.operand[1]];
            let odd = da > 15 || db > 15;
            let mut expected = [0; ANSWER_BYTES];
            expected[0] = if odd { 4 } else { 0 };
            assert_eq!(*answer, expected);
            if odd {
                refused += 1;
                continue;
            }
            let position = usize::from(places[80]);
            positions[position] += 1;
            if position % 2 == 0 {
                (places[81], places[82]) = (da, db % 4);
            } else {
                let register = 5 * (position / 2);
                let values = [places[81], da, db, places[82] % 2, places[82] / 2];
                places[register..register + 5].copy_from_slice(&values);
            }
            places[80] = ((position + 1) % 32) as u8;
        }
        assert_eq!(played.end, snapshot_bytes(3, &nonzero(&places)));
    }
    assert!(positions.iter().all(|&count| count > 100), "{positions:?}");
    assert!(refused > 500);
}

/// Loads and ticks mixed, so that registers change inside chains; each event's
/// effect by itself has been tested above.
#[test]
fn ticks_between_random_loads_show_the_registers_as_they_are_then() {
    let mut random = Random::seeded(0x5EED_0302);
    let (mut inside, mut changed, mut kept) = (0, 0, 0);
    for _ in 0..200 {
        let mut chip = Bench {
            state: random.state(3),
        };
        for _ in 0..60 {
            let register = usize::from(chip.place(80) / 2);
            let second = chip.place(80) % 2 == 1;
            let before = chip.register(register);
            let load = random.load();
            chip.load_all(&[(load.operand[0], load.operand[1])]);
            let after = chip.register(register);
            // A tick of the register that was just loaded, in both pixels.
            let colour_before = chip.colour_before();
            let pixel = register as u8;
            let expected = match after {
                [red, green, blue, _, 0] => [red, green, blue],
                _ => colour_before,
            };
            let answer = chip.event(kind::TICK, tick([pixel, pixel, 0, 0, 0, 0, 0, 1]).operand);
            assert_eq!(answer[..3], [0, 2, 1 + 6 * after[3]]);
            assert_eq!(answer[3..9], [expected, expected].concat());
            if second {
                changed += usize::from(before != after);
            } else {
                assert_eq!(before, after);
                inside += 1;
            }
            kept += usize::from(expected == colour_before);
        }
    }
    assert!(inside > 5000);
    assert!(changed > 5000);
    assert!(kept > 3000);
}
