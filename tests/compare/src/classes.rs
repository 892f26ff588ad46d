//! The classes of runs. Each makes cases; a case decides nothing about what is
//! right, the model does.

pub mod test_register;
mod tms34070;

use crate::case::Case;
use crate::compared::{class, Class, Sweep};
use crate::damage::{damage_length, damaged_log, damaged_snapshot};
use crate::damage::{several_faults, two_indexed_faults, LOG_FAULTS, SNAPSHOT_FAULTS};
use kit::{c, read, save, tick, vertical, write, Random, CHIPS};
use kit::{counter_places, largest, log_bytes, nonzero, place_count, snapshot_bytes};
use kit::{used_bytes, LOG_HEADER_BYTES, OLDER_END_BYTES, OLDER_MOST_EVENTS};
use model::{kind, Event, ANSWER_BYTES, END_BUFFER_BYTES, MOST_EVENTS};

pub const RANDOM: &[Class<Case>] = &[
    class("logs, chip 1", 700, |random| any_log(random, 1)),
    class("logs, chip 2", 700, |random| any_log(random, 2)),
    class("logs, chip 3", 700, |random| any_log(random, 3)),
    class("one event on any state", 3000, one_event),
    class("ticks through the blink cycle", 40, blink_cycle),
    class(
        "07h reads between ticks and painting",
        200,
        test_register::reads_between,
    ),
    class(
        "snapshots with no last pixel",
        100,
        test_register::no_last_pixel,
    ),
    class("chains of REP", 120, tms34070::chain_of_rep),
    class(
        "events between a register's two loads",
        150,
        tms34070::between_loads,
    ),
    class("colours round the end of the table", 150, round_the_end),
    class("saves between all other events", 150, saves_between),
    class("full snapshots", 60, full_snapshot),
    class("long logs", 6, long_log),
    class("damaged snapshot", 1200, |random| {
        let (chip, fault) = (random.chip(), random.pick(&SNAPSHOT_FAULTS));
        let snapshot = damaged_snapshot(random, chip, fault);
        let log = log_bytes(chip, &random.events(chip, 2));
        Case::exact(snapshot, log, random)
    }),
    class("damaged log", 1200, |random| {
        let (chip, fault) = (random.chip(), random.pick(&LOG_FAULTS));
        let log = damaged_log(random, chip, fault);
        let snapshot = random.snapshot(chip);
        Case::exact(snapshot, log, random)
    }),
    class("several faults at once", 1200, several_faults),
    class(
        "two faults, first, last or any index",
        1200,
        two_indexed_faults,
    ),
    class("lengths one off", 600, one_off),
    class("snapshot and log for two chips", 200, two_chips),
    class("buffers short, exact and longer", 600, buffers),
    class("any bytes", 1500, any_bytes),
];

fn any_log(random: &mut Random, chip: u8) -> Case {
    let count = random.pick(&[0, 1, 2, 5, 20, 60]);
    let events = random.events(chip, count);
    let snapshot = random.snapshot(chip);
    Case::exact(snapshot, log_bytes(chip, &events), random)
}

fn one_event(random: &mut Random) -> Case {
    let chip = random.chip();
    let event = random.event(chip);
    let snapshot = random.snapshot(chip);
    Case::exact(snapshot, log_bytes(chip, &[event]), random)
}

/// Chip 1: many vertical periods with ticks between them, rates and masks
/// changing.
fn blink_cycle(random: &mut Random) -> Case {
    let registers = [(4, 0xFF), (5, random.byte()), (6, 0x40 | random.byte())];
    let mut events: Vec<Event> = registers
        .into_iter()
        .flat_map(|(address, byte)| [write(c::ADDRESS, address), write(c::CONTROL, byte)])
        .collect();
    for _ in 0..140 {
        events.push(vertical());
        let (ol0, ol1) = (random.byte() & 31, random.byte() & 31);
        let mut pixel = || random.byte();
        events.push(tick([pixel(), pixel(), pixel(), 255, 0, ol0, ol1, 1]));
        if random.one_in(40) {
            events.push(write(c::CONTROL, random.byte()));
        }
    }
    let snapshot = random.snapshot(1);
    Case::exact(snapshot, log_bytes(1, &events), random)
}

/// Long runs of colour accesses or loads across the last entry.
fn round_the_end(random: &mut Random) -> Case {
    let chip = random.chip();
    let mut places = random.places(chip);
    let counter = counter_places(chip)[0];
    places[counter] = largest(chip, counter) - random.up_to(3);
    let mut events = Vec::new();
    for _ in 0..4 {
        events.extend((0..16).map(|_| table_access(random, chip)));
        events.extend([read(0), read(2), read(3)]);
        events.push(write(random.pick(&[0, 3]), 252 + random.up_to(3)));
    }
    let snapshot = snapshot_bytes(chip, &nonzero(&places));
    Case::exact(snapshot, log_bytes(chip, &events), random)
}

/// An access that moves through the table of colours.
fn table_access(random: &mut Random, chip: u8) -> Event {
    match chip {
        1 | 2 if random.one_in(2) => write(1, random.byte()),
        1 | 2 => read(1),
        3 => random.load(),
        _ => panic!("chip {chip} has no table"),
    }
}

fn saves_between(random: &mut Random) -> Case {
    let chip = random.chip();
    let events: Vec<Event> = random
        .events(chip, 15)
        .into_iter()
        .flat_map(|event| [save(), event])
        .collect();
    let snapshot = random.snapshot(chip);
    Case::exact(snapshot, log_bytes(chip, &events), random)
}

/// No place is 0, so the snapshot has its greatest length; some are largest.
fn full_snapshot(random: &mut Random) -> Case {
    let chip = random.chip();
    let places = random.full_places(chip);
    let count = random.pick(&[0, 1, 10]);
    let events = random.events(chip, count);
    let snapshot = snapshot_bytes(chip, &nonzero(&places));
    Case::exact(snapshot, log_bytes(chip, &events), random)
}

/// More events than an older library takes.
fn long_log(random: &mut Random) -> Case {
    let chip = random.chip();
    let count = OLDER_MOST_EVENTS + 1 + random.below(MOST_EVENTS - OLDER_MOST_EVENTS);
    let events = random.events(chip, count);
    let snapshot = random.snapshot(chip);
    Case::exact(snapshot, log_bytes(chip, &events), random)
}

/// A length or a count that is off by one, in the snapshot or the log.
fn one_off(random: &mut Random) -> Case {
    let chip = random.chip();
    let mut snapshot = random.snapshot(chip);
    let count = random.below(5);
    let mut log = log_bytes(chip, &random.events(chip, count));
    match random.below(6) {
        0 => snapshot.push(1),
        1 => drop(snapshot.pop()),
        2 => log.push(0),
        3 => drop(log.pop()),
        4 => snapshot[1] = snapshot[1].wrapping_add(random.pick(&[1, 255])),
        _ => log[1] = log[1].wrapping_add(random.pick(&[1, 255])),
    }
    Case::exact(snapshot, log, random)
}

fn two_chips(random: &mut Random) -> Case {
    let chip = random.chip();
    let other = random.other_chip(chip);
    let count = random.below(5);
    let log = log_bytes(other, &random.events(other, count));
    let snapshot = random.snapshot(chip);
    Case::exact(snapshot, log, random)
}

fn buffers(random: &mut Random) -> Case {
    let chip = random.chip();
    let count = random.pick(&[0, 1, 2, 7, 30]);
    let log = log_bytes(chip, &random.events(chip, count));
    let snapshot = random.snapshot(chip);
    let mut case = Case::exact(snapshot, log, random);
    let exact = case.answers_len;
    case.answers_len = random.pick(&[exact.saturating_sub(1), exact, exact, exact + 1, exact + 40]);
    case.end_len = random.pick(&[
        END_BUFFER_BYTES - 1,
        END_BUFFER_BYTES,
        END_BUFFER_BYTES,
        END_BUFFER_BYTES + 1,
        END_BUFFER_BYTES + 40,
    ]);
    if random.one_in(8) {
        // The smallest chip's longest snapshot, and what older programs lend.
        let fewest = CHIPS.into_iter().map(place_count).min().unwrap_or(0);
        case.end_len = random.pick(&[0, 3, 3 + 3 * fewest, OLDER_END_BYTES]);
    }
    if random.one_in(8) {
        case.answers_len = 0;
    }
    case
}

/// Accepted bytes with some changed, cut or added, or no sense at all.
fn any_bytes(random: &mut Random) -> Case {
    let chip = random.chip();
    let mut snapshot = random.snapshot(chip);
    let mut log = log_bytes(chip, &random.events(chip, 3));
    if random.one_in(2) {
        scramble(random, &mut snapshot);
    } else {
        scramble(random, &mut log);
    }
    Case::exact(snapshot, log, random)
}

/// Some bytes changed, cut or added, or no sense at all.
pub fn scramble(random: &mut Random, bytes: &mut Vec<u8>) {
    match random.below(5) {
        0 => {
            let len = random.below(40);
            *bytes = (0..len).map(|_| random.byte() & 3).collect();
        }
        1 => damage_length(random, bytes, 1),
        2 => bytes.truncate(random.below(bytes.len())),
        _ => {
            for _ in 0..random.pick(&[1, 1, 2, 5]) {
                let at = random.below(bytes.len());
                bytes[at] = random.pick(&[0, 1, 5, 64, 128, 255]);
            }
        }
    }
}

pub const SWEEPS: &[Sweep<Case>] = &[
    Sweep {
        name: "every selector, written and read",
        cases: every_selector,
    },
    Sweep {
        name: "every address, position and load position",
        cases: every_count,
    },
    Sweep {
        name: "every kind byte, every byte of ticks and loads",
        cases: every_kind_and_byte,
    },
    Sweep {
        name: "DA and DB of 15 and 16, beside other faults",
        cases: pins_and_faults,
    },
    Sweep {
        name: "every test byte with every code, after each sort of tick",
        cases: test_register::every_test_byte,
    },
    Sweep {
        name: "every pair of registers, shown and loaded",
        cases: tms34070::every_pair_of_registers,
    },
    Sweep {
        name: "every place: largest value, one more, 0",
        cases: every_place,
    },
    Sweep {
        name: "as many places as a chip has, and one more",
        cases: every_place_count,
    },
    Sweep {
        name: "every chip byte",
        cases: every_chip_byte,
    },
    Sweep {
        name: "logs at the limit and one more",
        cases: limits,
    },
    Sweep {
        name: "end buffers about the older size and the least",
        cases: test_register::end_buffers,
    },
    Sweep {
        name: "every bit of the count",
        cases: every_count_bit,
    },
    Sweep {
        name: "empty byte strings, null or not",
        cases: empty_strings,
    },
];

/// A state with something to see everywhere. The counters, of which a chip may
/// have fewer, have these values.
pub fn lively(random: &mut Random, chip: u8, counters: &[u8]) -> Vec<u8> {
    let mut places: Vec<u8> = (0..place_count(chip))
        .map(|place| random.up_to(largest(chip, place)))
        .collect();
    for (&place, &value) in counter_places(chip).iter().zip(counters) {
        places[place] = value;
    }
    snapshot_bytes(chip, &nonzero(&places))
}

/// One event on lively states, with counters of 0 and of 1: a load is the first
/// or the second of a register.
fn on_lively(random: &mut Random, chip: u8, event: Event) -> [Case; 2] {
    [0, 1].map(|counter| {
        let snapshot = lively(random, chip, &[counter; 2]);
        Case::exact(snapshot, log_bytes(chip, &[event]), random)
    })
}

fn every_selector(random: &mut Random) -> Vec<Case> {
    let mut cases = Vec::new();
    for chip in CHIPS {
        for selector in 0..=255 {
            for event in [write(selector, random.byte()), read(selector)] {
                let counters = [useful_address(selector), selector % 3];
                let snapshot = lively(random, chip, &counters);
                cases.push(Case::exact(snapshot, log_bytes(chip, &[event]), random));
            }
        }
    }
    cases
}

/// Addresses at which all of chip 1's selectors do something, in turn.
fn useful_address(number: u8) -> u8 {
    [2, 5, 3, 6][usize::from(number / 4 % 4)]
}

/// Every access at every value of the counters.
fn every_count(random: &mut Random) -> Vec<Case> {
    let mut cases = Vec::new();
    for chip in CHIPS {
        for counters in all_counters(chip) {
            let mut events = Vec::new();
            for selector in [1, 3, 2, 0] {
                events.extend([write(selector, random.byte()), read(selector)]);
                events.push(random.load());
                events.push(write(random.pick(&[0, 3]), counters[0]));
            }
            let snapshot = lively(random, chip, &counters);
            cases.push(Case::exact(snapshot, log_bytes(chip, &events), random));
        }
    }
    cases
}

/// All values that a chip's counters can have together.
fn all_counters(chip: u8) -> Vec<Vec<u8>> {
    let mut all = vec![Vec::new()];
    for &place in counter_places(chip) {
        let with_each = |values: &Vec<u8>| {
            let each = 0..=largest(chip, place);
            let values = values.clone();
            each.map(move |value| [&values[..], &[value]].concat())
        };
        all = all.iter().flat_map(with_each).collect();
    }
    all
}

/// Every kind with an operand of 0, and every value of each byte that a tick or
/// a load uses.
fn every_kind_and_byte(random: &mut Random) -> Vec<Case> {
    let mut cases = Vec::new();
    for chip in CHIPS {
        for byte in 0..=255 {
            let operand = [0; 8];
            let mut events = vec![Event {
                kind: byte,
                operand,
            }];
            for &at in used_bytes(chip, kind::TICK) {
                events.push(with_byte(random.tick(chip), at, byte));
            }
            for &at in used_bytes(chip, kind::LOAD) {
                events.push(with_byte(random.load(), at, byte));
            }
            cases.extend((events.into_iter()).flat_map(|event| on_lively(random, chip, event)));
        }
    }
    cases
}

fn with_byte(mut event: Event, at: usize, byte: u8) -> Event {
    event.operand[at] = byte;
    event
}

/// Ticks and loads, and the kind behind them, with DA, DB and levels at and over
/// the most that there is, and with an unused byte.
fn pins_and_faults(random: &mut Random) -> Vec<Case> {
    const PINS: [u8; 4] = [0, 15, 16, 255];
    const LEVELS: [u8; 4] = [0, 1, 2, 129];
    let mut cases = Vec::new();
    for chip in CHIPS {
        for kind in [kind::TICK, kind::LOAD, kind::LOAD + 1] {
            for (da, db) in PINS.iter().flat_map(|&da| PINS.map(|db| (da, db))) {
                for (level, unused) in LEVELS.iter().flat_map(|&l| [(l, 0), (l, 1)]) {
                    let operand = [da, db, 0, unused, 0, 0, 0, level];
                    cases.extend(on_lively(random, chip, Event { kind, operand }));
                }
            }
        }
    }
    cases
}

fn every_place(random: &mut Random) -> Vec<Case> {
    let mut cases = Vec::new();
    for snapshot in places_alone() {
        let log = log_bytes(snapshot[0], &[save()]);
        cases.push(Case::exact(snapshot, log, random));
    }
    cases
}

/// A snapshot of each place by itself with its largest value, one more and 0.
pub fn places_alone() -> Vec<Vec<u8>> {
    let mut snapshots = Vec::new();
    for chip in CHIPS {
        let count = place_count(chip);
        // The place behind the last one is outside the chip.
        for place in 0..=count {
            let most = if place < count {
                largest(chip, place)
            } else {
                255
            };
            for value in [0, 1, most, most.saturating_add(1), 255] {
                snapshots.push(snapshot_bytes(chip, &[(place as u16, value)]));
            }
        }
    }
    snapshots
}

/// Every place of a chip, one behind the last besides, and one behind it in place
/// of the last.
fn every_place_count(random: &mut Random) -> Vec<Case> {
    let mut cases = Vec::new();
    for chip in CHIPS {
        let outside = place_count(chip) as u16;
        let all = nonzero(&random.full_places(chip));
        let more = [&all[..], &[(outside, 1)]].concat();
        let mut other = all.clone();
        other[usize::from(outside) - 1].0 = outside;
        for pairs in [all, more, other] {
            let snapshot = snapshot_bytes(chip, &pairs);
            let log = log_bytes(chip, &[save()]);
            cases.push(Case::exact(snapshot, log, random));
        }
    }
    cases
}

fn every_chip_byte(random: &mut Random) -> Vec<Case> {
    let mut cases = Vec::new();
    for chip in 0..=255 {
        for other in CHIPS {
            let log = log_bytes(other, &[save()]);
            cases.push(Case::exact(vec![chip, 0, 0], log, random));
            let log = log_bytes(chip, &[save()]);
            cases.push(Case::exact(vec![other, 0, 0], log, random));
        }
    }
    cases
}

/// One event less than the limit, the limit and one more, and so for the limit of
/// older libraries; the answer buffer short by a byte, exact, longer by a byte,
/// and as large as the longest log of an older library needs it.
fn limits(random: &mut Random) -> Vec<Case> {
    let mut cases = Vec::new();
    for chip in CHIPS {
        for most in [OLDER_MOST_EVENTS, MOST_EVENTS] {
            for count in most - 1..=most + 1 {
                let log = log_bytes(chip, &random.events(chip, count));
                let needed = ANSWER_BYTES * count;
                let older = ANSWER_BYTES * OLDER_MOST_EVENTS;
                for answers_len in [needed - 1, needed, needed + 1, older] {
                    let snapshot = random.snapshot(chip);
                    cases.push(Case {
                        answers_len,
                        ..Case::exact(snapshot, log.clone(), random)
                    });
                }
            }
        }
    }
    cases
}

/// Each bit of the count by itself and beside a count of 1. The log is as long as
/// the count's lowest byte says, as its lowest two say, and as all four say, but
/// has at most one event over the limit.
fn every_count_bit(random: &mut Random) -> Vec<Case> {
    let mut cases = Vec::new();
    for chip in CHIPS {
        for bit in 0..32 {
            for count in [1u32 << bit, 1 << bit | 1] {
                for told in [count & 0xFF, count & 0xFFFF, count] {
                    let told = (told as usize).min(MOST_EVENTS + 1);
                    let mut log = log_bytes(chip, &vec![save(); told]);
                    log[1..LOG_HEADER_BYTES].copy_from_slice(&count.to_le_bytes());
                    cases.push(Case::exact(random.snapshot(chip), log, random));
                }
            }
        }
    }
    cases
}

/// Each of the four byte strings empty or not, as a null pointer or not.
fn empty_strings(random: &mut Random) -> Vec<Case> {
    let logs = CHIPS.into_iter().flat_map(|chip| {
        let logs = [vec![], vec![save()], vec![read(0)]];
        logs.map(|events| (chip, events))
    });
    let mut cases = Vec::new();
    for (chip, events) in logs {
        for empty in 0..16 {
            for null_if_empty in [false, true] {
                let mut case = Case::exact(vec![chip, 0, 0], log_bytes(chip, &events), random);
                case.null_if_empty = null_if_empty;
                if empty & 1 != 0 {
                    case.snapshot.clear();
                }
                if empty & 2 != 0 {
                    case.log.clear();
                }
                if empty & 4 != 0 {
                    case.answers_len = 0;
                }
                if empty & 8 != 0 {
                    case.end_len = 0;
                }
                cases.push(case);
            }
        }
    }
    cases
}

#[cfg(test)]
mod tests {
    //! What the sweeps come to, by the model alone: they need no library.

    use super::{all_counters, every_count, every_kind_and_byte, every_place_count};
    use super::{every_selector, lively, places_alone};
    use crate::case::Case;
    use crate::compared::Compared;
    use kit::{log_bytes, place_values, save, Random, ANSWER_BYTES};
    use std::collections::BTreeSet;

    #[test]
    fn each_chip_refuses_all_that_it_can() {
        let random = &mut Random::seeded(1);
        let sweeps = [every_selector, every_count, every_kind_and_byte];
        let mut seen = BTreeSet::new();
        for case in sweeps.iter().flat_map(|sweep| sweep(random)) {
            let outcome = case.run_model();
            if outcome.result >> 16 == 0 {
                let answers = outcome.answers().chunks(ANSWER_BYTES);
                seen.extend(answers.map(|answer| (case.log[0], answer[0])));
            }
        }
        let chip_1 = [0, 1, 2, 4, 5].map(|refusal| (1, refusal));
        let chip_2 = [0, 1, 3, 4, 5].map(|refusal| (2, refusal));
        let chip_3 = [0, 4, 5].map(|refusal| (3, refusal));
        let all = [&chip_1[..], &chip_2, &chip_3].concat();
        assert!(seen.into_iter().eq(all));
    }

    #[test]
    fn counters_have_every_value() {
        let counts = [1, 2, 3].map(|chip| all_counters(chip).len());
        assert_eq!(counts, [256 * 3, 256 * 3, 32]);
        let snapshot = lively(&mut Random::seeded(1), 3, &[31, 2]);
        assert!(place_values(&snapshot).contains(&(80, 31)));
    }

    #[test]
    fn one_place_more_than_the_chip_has_is_22() {
        let cases = every_place_count(&mut Random::seeded(1));
        let refusals = cases.iter().map(|case| case.run_model().result >> 16);
        assert!(refusals.eq([0, 22, 24, 0, 22, 24, 0, 22, 24]));
        let lengths = cases[6..].iter().map(|case| case.snapshot.len());
        assert!(lengths.eq([3 + 3 * 86, 3 + 3 * 87, 3 + 3 * 86]));
        let lengths = cases[..3].iter().map(|case| case.snapshot.len());
        assert!(lengths.eq([2379, 2382, 2379]));
    }

    /// Chip 1's places behind the blink count: up to 255, and 792 is 24.
    #[test]
    fn the_last_pixels_places_are_each_tried_alone() {
        let log = log_bytes(1, &[save()]);
        let random = &mut Random::seeded(1);
        let mut refusals = Vec::new();
        for snapshot in places_alone() {
            let places = place_values(&snapshot);
            if snapshot[0] == 1 && places[0].0 >= 789 {
                let case = Case::exact(snapshot, log.clone(), random);
                refusals.push((places[0], case.run_model().result >> 16));
            }
        }
        let mut expected = Vec::new();
        for place in 789..=791 {
            expected.extend([((place, 0), 25), ((place, 1), 0)]);
            expected.extend([((place, 255), 0); 3]);
        }
        let outside = [0, 1, 255, 255, 255].map(|value| ((792, value), 24));
        expected.extend(outside);
        assert_eq!(refusals, expected);
    }
}
