//! The classes of the currents. Each makes cases; a case decides nothing about
//! what is right, the model does.

use crate::classes::test_register::places_at_07h;
use crate::classes::{lively, places_alone, scramble};
use crate::compared::{class, Class, Sweep};
use crate::currents::case::Case;
use crate::currents::faults::{accepted, planted, BEHIND_THE_SNAPSHOT};
use crate::damage::{damaged_snapshot, snapshot_with_two_faults, SNAPSHOT_FAULTS};
use crate::damage::{one_and_two, some_faults};
use kit::{nonzero, p1, place_count, snapshot_bytes, Random, ANSWER_BYTES, CHIPS};
use kit::{CURRENTS_BYTES, CURRENTS_CHIP, END_BYTES, OLDER_END_BYTES, OPERAND_BYTES};
use model::{Operand, Refusal};

pub const RANDOM: &[Class<Case>] = &[
    class("currents: ticks on any state", 200, accepted),
    class("currents: masks, overlays and blinking", 200, shown),
    class(
        "currents: the last pixel of the next state",
        100,
        last_pixel,
    ),
    class("currents: ticks that the chip refuses", 40, |random| {
        planted(random, &[Refusal::UndefinedBits])
    }),
    class("currents: another chip", 40, |random| {
        planted(random, &[Refusal::CurrentsChip])
    }),
    class("currents: damaged snapshot", 120, |random| {
        let (chip, fault) = (random.chip(), random.pick(&SNAPSHOT_FAULTS));
        let snapshot = damaged_snapshot(random, chip, fault);
        with_snapshot(random, snapshot)
    }),
    class("currents: two faults of a snapshot", 60, |random| {
        let chip = random.chip();
        let snapshot = snapshot_with_two_faults(random, chip);
        with_snapshot(random, snapshot)
    }),
    class("currents: several faults at once", 150, several_faults),
    class("currents: buffers exact and longer", 60, longer_buffers),
    class("currents: any bytes", 100, any_bytes),
];

/// Some tick from this snapshot.
fn with_snapshot(random: &mut Random, snapshot: Vec<u8>) -> Case {
    Case {
        snapshot,
        ..accepted(random)
    }
}

/// Every register of the display at random, on colours that are all there.
fn shown(random: &mut Random) -> Case {
    let mut places = random.full_places(CURRENTS_CHIP);
    places[p1::READ_MASK] = random.byte() | random.pick(&[0, 255]);
    places[p1::BLINK_MASK] = random.byte();
    places[p1::COMMAND] = random.byte();
    places[p1::BLINK_COUNT] = random.up_to(127);
    let snapshot = snapshot_bytes(CURRENTS_CHIP, &nonzero(&places));
    let mut case = with_snapshot(random, snapshot);
    case.operand[..5].copy_from_slice(&random.bytes(5));
    case
}

/// Ticks of every sort after a pixel whose codes aren't 0.
fn last_pixel(random: &mut Random) -> Case {
    let places = places_at_07h(random);
    let tick = match random.below(4) {
        0 => random.odd_tick(CURRENTS_CHIP),
        _ => random.tick(CURRENTS_CHIP),
    };
    let snapshot = snapshot_bytes(CURRENTS_CHIP, &nonzero(&places));
    Case::exact(snapshot, &tick.operand, random)
}

fn several_faults(random: &mut Random) -> Case {
    let faults = some_faults(random, &BEHIND_THE_SNAPSHOT);
    planted(random, &faults)
}

fn longer_buffers(random: &mut Random) -> Case {
    let mut case = accepted(random);
    case.out_len += random.pick(&[0, 1, 2, 18, 400]);
    case.end_len += random.pick(&[0, 1, 2, 40, 2000]);
    case
}

/// Accepted bytes with some changed, cut or added, or no sense at all.
fn any_bytes(random: &mut Random) -> Case {
    let mut case = accepted(random);
    if random.one_in(2) {
        scramble(random, &mut case.snapshot);
    } else {
        scramble(random, &mut case.operand);
    }
    case
}

pub const SWEEPS: &[Sweep<Case>] = &[
    Sweep {
        name: "currents: every code at every output",
        cases: every_code,
    },
    Sweep {
        name: "currents: every OL byte and level byte",
        cases: every_ol_and_level,
    },
    Sweep {
        name: "currents: every place: largest value, one more, 0",
        cases: every_place,
    },
    Sweep {
        name: "currents: every chip byte",
        cases: every_chip_byte,
    },
    Sweep {
        name: "currents: every length of operand and buffers",
        cases: every_length,
    },
    Sweep {
        name: "currents: empty byte strings, null or not",
        cases: empty_strings,
    },
    Sweep {
        name: "currents: each refusal alone and before each later one",
        cases: each_refusal,
    },
];

fn every_code(random: &mut Random) -> Vec<Case> {
    let mut cases = Vec::new();
    for (places, operand) in codes_at_outputs() {
        let snapshot = snapshot_bytes(CURRENTS_CHIP, &nonzero(&places));
        cases.push(Case::exact(snapshot, &operand, random));
    }
    cases
}

/// The places of a state and the operand of a tick, so that each output of each
/// pixel has each code, with all levels and with four and five pixels. The
/// codes of a tick are all different.
pub fn codes_at_outputs() -> Vec<(Vec<u8>, Operand)> {
    const APART: u8 = 17;
    let mut ticks = Vec::new();
    for first in 0..=255u8 {
        for (levels, command) in (0..=3).flat_map(|levels| [(levels, 0x40), (levels, 0xC0)]) {
            let mut places = vec![0; place_count(CURRENTS_CHIP)];
            places[p1::READ_MASK] = 255;
            places[p1::COMMAND] = command;
            for (number, code) in (0..).zip(&mut places[..15]) {
                *code = first.wrapping_add(APART * number);
            }
            ticks.push((places, [0, 1, 2, 3, 4, 0, 0, levels]));
        }
    }
    ticks
}

fn every_ol_and_level(random: &mut Random) -> Vec<Case> {
    let mut cases = Vec::new();
    for byte in 0..=255 {
        for at in 5..OPERAND_BYTES {
            let mut operand = [byte, 1, 2, 3, 4, 0, 0, random.pick(&[1, 3])];
            operand[at] = byte;
            let snapshot = lively(random, CURRENTS_CHIP, &[0, 0]);
            cases.push(Case::exact(snapshot, &operand, random));
        }
    }
    cases
}

fn every_place(random: &mut Random) -> Vec<Case> {
    let snapshots = places_alone().into_iter();
    snapshots.map(|s| with_snapshot(random, s)).collect()
}

/// With nothing else at fault, and with each fault that is looked for behind
/// the chip's.
fn every_chip_byte(random: &mut Random) -> Vec<Case> {
    let behind = BEHIND_THE_SNAPSHOT[1..].iter().map(|&fault| vec![fault]);
    let faults: Vec<Vec<Refusal>> = behind.chain([vec![]]).collect();
    let mut cases = Vec::new();
    for chip in 0..=255 {
        for faults in &faults {
            let mut case = planted(random, faults);
            case.snapshot = vec![chip, 0, 0];
            cases.push(case);
        }
    }
    cases
}

fn every_length(random: &mut Random) -> Vec<Case> {
    const OUT: [usize; 7] = [
        0,
        1,
        ANSWER_BYTES,
        CURRENTS_BYTES - 1,
        CURRENTS_BYTES,
        CURRENTS_BYTES + 1,
        90,
    ];
    const END: [usize; 7] = [
        0,
        3,
        OLDER_END_BYTES,
        END_BYTES - 1,
        END_BYTES,
        END_BYTES + 1,
        END_BYTES + 40,
    ];
    let buffers: Vec<_> = OUT
        .iter()
        .flat_map(|out| END.map(|end| (*out, end)))
        .collect();
    let mut cases = Vec::new();
    for chip in CHIPS {
        for operand_len in 0..=17 {
            for &(out_len, end_len) in &buffers {
                let snapshot = random.snapshot(chip);
                let mut operand = random.tick(CURRENTS_CHIP).operand.to_vec();
                operand.resize(operand_len, random.byte());
                cases.push(Case {
                    out_len,
                    end_len,
                    ..Case::exact(snapshot, &operand, random)
                });
            }
        }
    }
    cases
}

/// Each of the four byte strings empty or not, as a null pointer or not.
fn empty_strings(random: &mut Random) -> Vec<Case> {
    let mut cases = Vec::new();
    for (chip, null_if_empty) in CHIPS
        .into_iter()
        .flat_map(|chip| [(chip, false), (chip, true)])
    {
        for empty in 0..16 {
            let mut case = with_snapshot(random, vec![chip, 0, 0]);
            case.null_if_empty = null_if_empty;
            if empty & 1 != 0 {
                case.snapshot.clear();
            }
            if empty & 2 != 0 {
                case.operand.clear();
            }
            if empty & 4 != 0 {
                case.out_len = 0;
            }
            if empty & 8 != 0 {
                case.end_len = 0;
            }
            cases.push(case);
        }
    }
    cases
}

fn each_refusal(random: &mut Random) -> Vec<Case> {
    const TIMES: usize = 20;
    let mut cases = Vec::new();
    for faults in one_and_two(&BEHIND_THE_SNAPSHOT) {
        cases.extend((0..TIMES).map(|_| planted(random, &faults)));
    }
    cases
}

#[cfg(test)]
mod tests {
    //! What the sweeps come to, by the model alone: they need no library.

    use super::{codes_at_outputs, each_refusal, last_pixel};
    use crate::compared::Compared;
    use crate::report::{Shown, CURRENTS};
    use kit::{p1, Random, ANSWER_BYTES, CURRENTS_CHIP};
    use model::{restore, tick_currents, State};
    use std::collections::BTreeSet;

    #[test]
    fn every_code_comes_to_every_output_with_every_level() {
        let mut seen = BTreeSet::new();
        for (places, operand) in codes_at_outputs() {
            let state = State::from_places(CURRENTS_CHIP, &places).expect("places of the chip");
            let (answer, ..) = tick_currents(&state, &operand);
            let (count, levels) = (answer[1], answer[2]);
            for (output, &code) in answer[3..ANSWER_BYTES].iter().enumerate() {
                if output < 3 * usize::from(count) {
                    seen.insert((count, levels, output, code));
                }
            }
        }
        for (count, levels) in (0..=3).flat_map(|levels| [(4, levels), (5, levels)]) {
            // Blanked, every code is 0.
            let codes = if levels & 1 == 1 { 256 } else { 1 };
            let these = seen.iter().filter(|&&(c, l, ..)| (c, l) == (count, levels));
            assert_eq!(these.count(), codes * 3 * usize::from(count));
        }
    }

    /// The next state has black, the codes before and others, with four and five
    /// pixels.
    #[test]
    fn the_last_pixel_is_shown_blanked_and_kept() {
        let random = &mut Random::seeded(1);
        let mut counts = [0; 4];
        for _ in 0..200 {
            let case = last_pixel(random);
            let state = restore(&case.snapshot).state;
            let operand = case.operand.try_into().expect("an operand");
            let (answer, next, _) = tick_currents(&state, &operand);
            let codes = |state: &State| state.places()[p1::LAST_RED..].to_vec();
            let sort = match (answer[0], codes(&next)) {
                (4, after) => {
                    assert_eq!(after, codes(&state));
                    0
                }
                (_, after) if after == [0; 3] => 1,
                _ => usize::from(answer[1]) - 2,
            };
            counts[sort] += 1;
        }
        assert!(counts.iter().all(|&count| count > 25), "{counts:?}");
    }

    #[test]
    fn the_refusals_that_are_planted_are_those_of_the_table() {
        let listed: BTreeSet<Shown> = CURRENTS.rows.iter().map(|row| row.shown).collect();
        for seed in 0..5 {
            let cases = each_refusal(&mut Random::seeded(seed));
            let shown = cases.iter().flat_map(|case| case.shown(&case.run_model()));
            let mut shown: BTreeSet<Shown> = shown.collect();
            // None of these cases is accepted.
            assert!(shown.insert((0, 0)));
            assert_eq!(shown, listed, "seed {seed}");
        }
    }
}
