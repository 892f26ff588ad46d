//! Which accesses paint, worked out by hand from document 01 and document 02's
//! Note 3.

use crate::common::Bench;
use kit::{chip_of_round, is_access, log_bytes, p1, p2, p3, snapshot_bytes, Random};
use kit::{load, read, save as save_event, tick, vertical, write, CHIPS};
use model::{painting_accesses, save, Event, Refusal};

/// The painting accesses of this log are exactly these indices.
fn assert_painting(bench: &Bench, events: &[Event], indices: &[usize]) {
    let snapshot = save(&bench.state).unwrap();
    let log = log_bytes(bench.state.chip(), events);
    assert_eq!(painting_accesses(&snapshot, &log), Ok(indices.to_vec()));
}

#[test]
fn chip_1_colour_writes_paint_at_position_2() {
    let triple = [write(1, 1), write(1, 2), write(1, 3)];
    assert_painting(&Bench::fresh(1), &triple, &[2]);
    // A start snapshot in the middle of a triple.
    let middle = Bench::with_places(1, &[(p1::POSITION, 1)]);
    assert_painting(&middle, &triple, &[1]);
    let blue = Bench::with_places(1, &[(p1::POSITION, 2)]);
    assert_painting(&blue, &triple, &[0]);
    // Reads move the position but don't paint.
    assert_painting(&Bench::fresh(1), &[read(1), read(1), write(1, 7)], &[2]);
    assert_painting(&Bench::fresh(1), &[write(1, 7), write(1, 7), read(1)], &[]);
    // An address read starts the triple again.
    let interrupted = [
        write(1, 1),
        write(1, 2),
        read(0),
        write(1, 3),
        write(1, 4),
        write(1, 5),
    ];
    assert_painting(&Bench::fresh(1), &interrupted, &[5]);
}

#[test]
fn chip_1_overlay_writes_paint_unless_refused() {
    let triple = [write(3, 1), write(3, 2), write(3, 3)];
    assert_painting(&Bench::fresh(1), &triple, &[2]);
    let address_3 = Bench::with_places(1, &[(p1::ADDRESS, 3), (p1::POSITION, 2)]);
    // The second would be refused: the address is 4 by then.
    assert_painting(&address_3, &[write(3, 1), write(3, 2)], &[0]);
    let address_4 = Bench::with_places(1, &[(p1::ADDRESS, 4), (p1::POSITION, 2)]);
    assert_painting(&address_4, &triple, &[]);
    // A refused overlay write leaves the position for a palette write.
    assert_painting(&address_4, &[write(3, 1), write(1, 1)], &[1]);
}

#[test]
fn chip_1_control_writes_paint_at_4_5_and_6() {
    for (address, paints) in [
        (3, false),
        (4, true),
        (5, true),
        (6, true),
        (7, false),
        (8, false),
    ] {
        for position in 0..=2 {
            let start = [(p1::ADDRESS, address), (p1::POSITION, position)];
            let bench = Bench::with_places(1, &start);
            let indices: &[usize] = if paints { &[0] } else { &[] };
            assert_painting(&bench, &[write(2, 9), read(2)], indices);
        }
    }
}

#[test]
fn chip_1_other_accesses_never_paint() {
    let bench = Bench::with_places(1, &[(p1::ADDRESS, 5), (p1::POSITION, 2)]);
    let events = [
        read(2),
        write(4, 1),
        write(6, 1),
        read(7),
        write(0, 5),
        read(0),
    ];
    assert_painting(&bench, &events, &[]);
}

#[test]
fn chip_2_colour_writes_paint_at_position_2_in_direction_write() {
    let triple = [write(1, 1), write(1, 2), write(1, 3)];
    assert_painting(&Bench::fresh(2), &triple, &[2]);
    // An address read leaves the position, so the triple goes on.
    let watched = [write(1, 1), read(0), write(1, 2), read(3), write(1, 3)];
    assert_painting(&Bench::fresh(2), &watched, &[4]);
    let reading = Bench::with_places(2, &[(p2::POSITION, 2), (p2::DIRECTION, 1)]);
    assert_painting(&reading, &triple, &[]);
    // A colour read moves the position in direction read, never paints.
    assert_painting(&reading, &[read(1), read(1), read(1)], &[]);
    // Refused reads leave the position.
    let blue = Bench::with_places(2, &[(p2::POSITION, 2)]);
    assert_painting(&blue, &[read(1), write(1, 1)], &[1]);
}

#[test]
fn chip_2_mask_writes_always_paint() {
    for direction in [0, 1] {
        for position in 0..=2 {
            let start = [(p2::POSITION, position), (p2::DIRECTION, direction)];
            let bench = Bench::with_places(2, &start);
            assert_painting(&bench, &[write(2, 0), read(2), write(2, 255)], &[0, 2]);
        }
    }
    assert_painting(
        &Bench::fresh(2),
        &[write(0, 2), write(3, 2), write(6, 2)],
        &[],
    );
}

#[test]
fn chip_3_second_loads_paint() {
    let loads = [load(1, 2); 5];
    for position in 0..32 {
        let bench = Bench::with_places(3, &[(p3::LOAD_POSITION, position)]);
        let indices: &[usize] = if position % 2 == 0 {
            &[1, 3]
        } else {
            &[0, 2, 4]
        };
        assert_painting(&bench, &loads, indices);
    }
}

#[test]
fn chip_3_refused_accesses_do_not_paint_and_move_nothing() {
    let refused = [
        load(16, 0),
        load(0, 255),
        write(0, 1),
        write(9, 1),
        read(1),
        read(255),
    ];
    let second = Bench::with_places(3, &[(p3::LOAD_POSITION, 1)]);
    assert_painting(&second, &refused, &[]);
    // The second load is still to come after all of them.
    let then_loaded = [&refused[..], &[load(0, 0), load(0, 0)]].concat();
    assert_painting(&second, &then_loaded, &[6]);
    assert_painting(&Bench::fresh(3), &then_loaded, &[7]);
}

#[test]
fn loads_on_chips_1_and_2_never_paint() {
    let blue = Bench::with_places(1, &[(p1::POSITION, 2)]);
    assert_painting(&blue, &[load(1, 2), load(2, 9), write(1, 1)], &[2]);
    let mask = Bench::with_places(1, &[(p1::ADDRESS, 4)]);
    assert_painting(&mask, &[load(2, 9)], &[]);
    let blue = Bench::with_places(2, &[(p2::POSITION, 2)]);
    assert_painting(&blue, &[load(1, 2), load(2, 9), write(1, 1)], &[2]);
}

#[test]
fn chip_3_display_events_and_saves_do_not_count() {
    let events = [
        tick([1, 2, 0, 0, 0, 0, 0, 1]),
        load(1, 2),
        tick([1, 2, 0, 0, 0, 0, 0, 0]),
        save_event(),
        vertical(),
        load(3, 4),
        tick([16, 0, 0, 0, 0, 0, 0, 1]),
        load(5, 6),
        save_event(),
        load(7, 8),
    ];
    assert_painting(&Bench::fresh(3), &events, &[5, 9]);
}

#[test]
fn display_events_and_saves_do_not_count() {
    let events = [
        write(1, 1),
        vertical(),
        write(1, 2),
        tick([1, 2, 3, 4, 5, 0, 0, 1]),
        save_event(),
        write(1, 3),
        tick([0, 0, 0, 0, 0, 0, 0, 255]),
        write(0, 6),
        save_event(),
        write(2, 0x40),
    ];
    assert_painting(&Bench::fresh(1), &events, &[5, 9]);
}

#[test]
fn refused_pairs_are_refused_as_a_run_refuses_them() {
    let log = log_bytes(1, &[write(1, 1)]);
    let bad_value = snapshot_bytes(1, &[(1, 0)]);
    assert_eq!(
        painting_accesses(&bad_value, &log[..4]),
        Err(Refusal::Value)
    );
    assert_eq!(
        painting_accesses(&[2, 0, 0], &log[..4]),
        Err(Refusal::LogShort)
    );
    assert_eq!(painting_accesses(&[2, 0, 0], &log), Err(Refusal::TwoChips));
}

/// Accesses that don't paint leave what a tick can show as it was; that is
/// what the class is for.
#[test]
fn accesses_that_do_not_paint_change_nothing_that_is_shown() {
    let mut random = Random::seeded(0x5EED_0003);
    let (mut still, mut painted) = ([0; CHIPS.len()], [0; CHIPS.len()]);
    for round in 0..240 {
        let chip = chip_of_round(round);
        let mut state = random.state(chip);
        for _ in 0..40 {
            let event = random.access_on(chip);
            assert!(is_access(&event));
            let snapshot = save(&state).unwrap();
            let paints = painting_accesses(&snapshot, &log_bytes(chip, &[event])).unwrap();
            let (_, next) = model::event(&state, event.kind, &event.operand);
            if paints.is_empty() {
                assert_eq!(
                    shown_places(&next.places(), chip),
                    shown_places(&state.places(), chip)
                );
                still[round % CHIPS.len()] += 1;
            } else {
                painted[round % CHIPS.len()] += 1;
            }
            state = next;
        }
    }
    assert!(still.iter().all(|&count| count > 1200), "{still:?}");
    assert!(painted.iter().all(|&count| count > 100), "{painted:?}");
}

/// Colours, masks and command, registers and colour before: the places that a
/// tick looks at, but for the blink count, which no access can change.
fn shown_places(places: &[u8], chip: u8) -> Vec<u8> {
    match chip {
        1 => [&places[..p1::ADDRESS], &places[p1::READ_MASK..p1::TEST]].concat(),
        2 => [&places[..p2::ADDRESS], &places[p2::MASK..p2::COUNT]].concat(),
        3 => [
            &places[..p3::LOAD_POSITION],
            &places[p3::COLOUR_BEFORE..p3::COUNT],
        ]
        .concat(),
        _ => panic!("what a tick of chip {chip} looks at isn't listed"),
    }
}
