//! Save then restore, restore then save, and the save event.

use crate::common::play;
use kit::{chip_of_round, log_bytes, place_count, save as save_event, snapshot_bytes};
use kit::{vertical, Random, ANSWER_BYTES, CHIPS, END_BYTES};
use model::{event, kind, restore, save, save_into, State};

#[test]
fn save_then_restore_gives_the_state_back() {
    let mut random = Random::seeded(0x5EED_0010);
    let (mut empty, mut full) = ([0; CHIPS.len()], [0; CHIPS.len()]);
    for round in 0..600 {
        let chip = chip_of_round(round);
        let state = random.state(chip);
        let bytes = save(&state).unwrap();
        let restored = restore(&bytes);
        assert_eq!(restored.refusal, None);
        assert_eq!(restored.state, state);

        let mut buffer = vec![0xEE; END_BYTES];
        let saved = save_into(&state, &mut buffer);
        assert_eq!(saved.refusal, None);
        assert_eq!(buffer[..saved.length], bytes);
        assert_eq!(buffer[saved.length..], vec![0xEE; END_BYTES - saved.length]);

        let kept = state.places().iter().filter(|&&value| value != 0).count();
        assert_eq!(bytes.len(), 3 + 3 * kept);
        let index = round % CHIPS.len();
        empty[index] += usize::from(kept < 10);
        // A place of EXT or REP is 0 as often as not.
        full[index] += usize::from(10 * kept > 7 * place_count(chip));
    }
    assert!(empty.iter().all(|&count| count > 25), "{empty:?}");
    assert!(full.iter().all(|&count| count > 25), "{full:?}");
}

#[test]
fn each_place_alone_comes_back() {
    for chip in CHIPS {
        for place in 0..place_count(chip) {
            let bytes = snapshot_bytes(chip, &[(place as u16, 1)]);
            let restored = restore(&bytes);
            assert_eq!(restored.refusal, None);
            let mut expected = vec![0; place_count(chip)];
            expected[place] = 1;
            assert_eq!(restored.state.places(), expected);
            assert_eq!(save(&restored.state), Ok(bytes));
        }
    }
}

#[test]
fn restore_then_save_gives_accepted_bytes_back() {
    let mut random = Random::seeded(0x5EED_0011);
    let (mut accepted, mut refused) = (0, 0);
    for round in 0..3000 {
        let chip = chip_of_round(round);
        let mut bytes = save(&random.state(chip)).unwrap();
        // Most are damaged by one byte; many of those are still snapshots.
        if !random.one_in(4) {
            let at = random.below(bytes.len());
            bytes[at] = random.byte();
        }
        let restored = restore(&bytes);
        if restored.refusal.is_none() {
            assert_eq!(save(&restored.state), Ok(bytes));
            accepted += 1;
        } else {
            assert_eq!(Some(restored.state), State::fresh(1));
            refused += 1;
        }
    }
    assert!(accepted > 500);
    assert!(refused > 500);
}

#[test]
fn a_save_event_leaves_every_state_as_it_was() {
    let mut random = Random::seeded(0x5EED_0012);
    for round in 0..400 {
        let state = random.state(chip_of_round(round));
        let (answer, next) = event(&state, kind::SAVE, &[0; 8]);
        assert_eq!(answer, [0; ANSWER_BYTES]);
        assert_eq!(next, state);
    }
}

#[test]
fn saves_between_events_change_nothing_else() {
    let mut random = Random::seeded(0x5EED_0013);
    // Loads of chip 3 that were accepted, and those that were refused elsewhere.
    let (mut accepted, mut refused) = (0, 0);
    for round in 0..90 {
        let chip = chip_of_round(round);
        let start = save(&random.state(chip)).unwrap();
        let mut plain = Vec::new();
        let mut saved = Vec::new();
        for _ in 0..40 {
            let event = if random.one_in(2) {
                random.access_on(chip)
            } else {
                random.display(chip)
            };
            plain.push(event);
            saved.extend([save_event(), event]);
        }
        let without = play(chip, &start, &plain);
        let with = play(chip, &start, &saved);
        let kept: Vec<_> = with.answers.iter().skip(1).step_by(2).copied().collect();
        assert_eq!(kept, without.answers);
        assert_eq!(with.end, without.end);
        for (event, answer) in plain.iter().zip(&without.answers) {
            if event.kind == kind::LOAD {
                accepted += usize::from(answer[0] == 0);
                refused += usize::from(answer[0] == 5);
            }
        }
    }
    assert!(accepted > 300, "{accepted}");
    assert!(refused > 10, "{refused}");
}

#[test]
fn logs_come_back_as_they_were_written() {
    let mut random = Random::seeded(0x5EED_0014);
    let mut loads = 0;
    for round in 0..60 {
        let chip = chip_of_round(round);
        let count = random.below(80);
        let mut events = random.events(chip, count);
        events.push(vertical());
        let bytes = log_bytes(chip, &events);
        assert_eq!(bytes.len(), 5 + 9 * events.len());
        let log = model::read_log(&bytes).unwrap();
        assert_eq!(log.chip, chip);
        assert_eq!(log.events, events);
        assert_eq!(log.to_bytes(), bytes);
        loads += events.iter().filter(|e| e.kind == kind::LOAD).count();
    }
    assert!(loads > 200, "{loads}");
}
