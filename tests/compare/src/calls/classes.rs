//! The classes of calls on a state. Each makes records; the model says what is
//! right.

use crate::calls::drive::Batch;
use crate::calls::faults::{accepted, any, planted, planted_with_unused, spoil, Planted};
use crate::calls::faults::{OF_THE_CHIP, OF_THE_FORM};
use crate::calls::plans;
use crate::calls::record::{Record, Whole, BUFFER_BYTES, CALLS};
use crate::classes::scramble;
use crate::classes::test_register::{places_at_07h, test_byte};
use crate::currents::classes::codes_at_outputs;
use crate::damage::{damaged_snapshot, snapshot_with_two_faults, SNAPSHOT_FAULTS};
use kit::OLDER_END_BYTES;
use kit::{c, read, save, snapshot_bytes, tick, write, Random, CHIPS, CURRENTS_CHIP};
use kit::{counter_places, highest_kind, largest, nonzero, other_chips, p1, p2, place_count};
use model::{Event, Operand, Refusal, END_BUFFER_BYTES};

/// A class of random records.
pub struct Class {
    pub name: &'static str,
    /// Records in a round.
    pub records: usize,
    /// Makes the record with this number.
    pub make: fn(&mut Random, usize) -> Record,
}

const fn class(
    name: &'static str,
    records: usize,
    make: fn(&mut Random, usize) -> Record,
) -> Class {
    Class {
        name,
        records,
        make,
    }
}

pub const RANDOM: &[Class] = &[
    class("calls: events on any state", 200, any_event),
    class("calls: events that the chip refuses", 100, refused_event),
    class("calls: test register and last pixel", 120, test_register),
    class("calls: odd kinds and unused bytes", 120, odd_form),
    class(
        "calls: events on values above their largest",
        160,
        too_large,
    ),
    class("calls: events on chips that aren't built", 160, not_built),
    class(
        "calls: other part's values above their largest",
        60,
        other_part,
    ),
    class(
        "calls: saves, buffers short, exact and longer",
        120,
        any_save,
    ),
    class("calls: saves of states that are refused", 80, refused_save),
    class("calls: restores of accepted snapshots", 60, any_restore),
    class("calls: restores of damaged snapshots", 120, refused_restore),
    class("calls: restores, two faults", 100, two_faults),
    class("calls: restores of any bytes", 60, any_bytes),
    class("calls: currents on any state", 80, any_currents),
    class(
        "calls: currents of ticks that the chip refuses",
        40,
        refused_currents,
    ),
    class(
        "calls: currents on values above their largest",
        60,
        too_large_currents,
    ),
    class("calls: currents on other chips", 80, currents_elsewhere),
    class("calls: plans on any state", 60, plans::any),
    class(
        "calls: plans of refused bytes, with too little room",
        40,
        plans::refused,
    ),
    class(
        "calls: plans on values above their largest",
        40,
        plans::too_large,
    ),
    class("calls: plans on other chips", 60, plans::elsewhere),
];

/// Records for a run without proof, which an interpreter plays too: some of each
/// class, four sweeps, a part of a fifth, and plans of one run. What is printed
/// must be what the model prints, so nothing may be free in them.
pub fn samples(random: &mut Random) -> Vec<(String, Vec<Record>)> {
    const RECORDS: usize = 8;
    let mut samples = Vec::new();
    for class in RANDOM {
        let records = (0..).map(|i| (class.make)(random, i));
        let records = records.filter(Record::is_settled).take(RECORDS).collect();
        let name = class.name.trim_start_matches("calls: ").replace(',', "");
        samples.push((name.replace(' ', "-"), records));
    }
    // So few at a time that an interpreter comes to their end.
    const AT_A_TIME: usize = 40;
    for (name, records) in [
        ("every-code", every_code_shown()),
        ("every-operand-byte", every_operand_byte(random)),
        ("every-selector", every_selector(random)),
        ("every-load", every_load(random)),
        ("every-selection", every_selection()),
        ("plans-of-one-run", plans::single_runs(random)),
    ] {
        let parts = records.chunks(AT_A_TIME).enumerate();
        samples.extend(parts.map(|(i, part)| (format!("{name}-{i}"), part.to_vec())));
    }
    samples
}

fn event_record(planted: Planted) -> Record {
    Record::Event {
        state: planted.state,
        event: planted.event,
    }
}

fn any_event(random: &mut Random, _: usize) -> Record {
    event_record(any(random))
}

fn refused_event(random: &mut Random, number: usize) -> Record {
    event_record(planted(random, OF_THE_CHIP[number % OF_THE_CHIP.len()]))
}

/// At 07h a read, a write, a tick that is shown or blanked, or a refused one.
fn test_register(random: &mut Random, number: usize) -> Record {
    let mut state = Whole::fresh(1);
    *state.part(1) = places_at_07h(random);
    let event = match number % 6 {
        0 => write(c::CONTROL, test_byte(random)),
        1 => tick([0, 1, 2, 3, 4, 0, 0, 1]),
        2 => random.tick(1),
        3 => random.odd_tick(1),
        _ => read(c::CONTROL),
    };
    Record::Event { state, event }
}

/// Every selection of the test register, read after a pixel with six halves of its
/// own.
fn every_selection() -> Vec<Record> {
    let read_with = |byte: u8| {
        let mut state = Whole::fresh(1);
        let part = state.part(1);
        part[p1::ADDRESS] = 7;
        part[p1::TEST] = byte;
        part[p1::LAST_RED..].copy_from_slice(&[0x12, 0x34, 0x56]);
        let event = read(c::CONTROL);
        Record::Event { state, event }
    };
    let selections = (0..16).flat_map(|low| [low, 0xF0 + low]);
    selections.map(read_with).collect()
}

/// 14 with and without operand bytes, 15 with and without 1 to 5 behind it.
fn odd_form(random: &mut Random, number: usize) -> Record {
    let behind = number % (OF_THE_CHIP.len() + OF_THE_FORM.len());
    event_record(match OF_THE_CHIP.get(behind) {
        Some(&fault) => planted_with_unused(random, fault),
        None => planted(random, OF_THE_FORM[behind - OF_THE_CHIP.len()]),
    })
}

/// An event with any fault, or none, in turn.
fn in_turn(random: &mut Random, number: usize) -> Planted {
    let faults: Vec<Refusal> = OF_THE_CHIP.into_iter().chain(OF_THE_FORM).collect();
    match faults.get(number % (faults.len() + 1)) {
        Some(&fault) => planted(random, fault),
        None => any(random),
    }
}

fn too_large(random: &mut Random, number: usize) -> Record {
    let mut planted = in_turn(random, number);
    let chip = planted.state.chip;
    spoil(random, chip, planted.state.part(chip));
    event_record(planted)
}

/// With and without values above their largest in any part.
fn not_built(random: &mut Random, number: usize) -> Record {
    let mut planted = in_turn(random, number);
    unname(random, &mut planted.state);
    event_record(planted)
}

fn unname(random: &mut Random, state: &mut Whole) {
    if random.one_in(2) {
        let chip = random.chip();
        spoil(random, chip, state.part(chip));
    }
    state.chip = random.chip_not_built();
}

/// They are no fault: the call goes by the named part alone.
fn other_part(random: &mut Random, number: usize) -> Record {
    let mut planted = in_turn(random, number);
    let chip = planted.state.chip;
    for other in other_chips(chip) {
        spoil(random, other, planted.state.part(other));
    }
    event_record(planted)
}

fn save_record(random: &mut Random, state: Whole, room: usize) -> Record {
    Record::Save {
        state,
        room,
        fill: random.byte(),
    }
}

fn enough(random: &mut Random) -> usize {
    let most = BUFFER_BYTES;
    random.pick(&[END_BUFFER_BYTES, END_BUFFER_BYTES + 1, most - 1, most])
}

/// Among others the length of the snapshot itself.
fn too_short(random: &mut Random, places: &[u8]) -> usize {
    let most = END_BUFFER_BYTES - 1;
    let own = 3 + 3 * nonzero(places).len();
    let any = random.below(END_BUFFER_BYTES);
    random.pick(&[0, 1, most, most.min(own), OLDER_END_BYTES, any])
}

fn any_save(random: &mut Random, _: usize) -> Record {
    let chip = random.chip();
    let mut state = accepted(random, chip);
    let room = match random.below(3) {
        0 => too_short(random, state.part(chip)),
        _ => enough(random),
    };
    save_record(random, state, room)
}

/// 25 and 21, with room and without; 21 with 25 behind it too.
fn refused_save(random: &mut Random, number: usize) -> Record {
    let chip = random.chip();
    let mut state = accepted(random, chip);
    let room = match random.below(2) {
        0 => too_short(random, state.part(chip)),
        _ => enough(random),
    };
    if number % 2 == 0 {
        spoil(random, chip, state.part(chip));
    } else {
        unname(random, &mut state);
    }
    save_record(random, state, room)
}

fn any_restore(random: &mut Random, _: usize) -> Record {
    let chip = random.chip();
    let places = match random.below(3) {
        0 => random.full_places(chip),
        _ => random.places(chip),
    };
    let snapshot = snapshot_bytes(chip, &nonzero(&places));
    Record::Restore { snapshot }
}

fn refused_restore(random: &mut Random, number: usize) -> Record {
    let chip = random.chip();
    let fault = SNAPSHOT_FAULTS[number % SNAPSHOT_FAULTS.len()];
    fitting(|| damaged_snapshot(random, chip, fault))
}

/// 24 and 25 together, the lowest index deciding.
fn two_faults(random: &mut Random, _: usize) -> Record {
    let chip = random.chip();
    fitting(|| snapshot_with_two_faults(random, chip))
}

/// Some are as long as the program's buffer.
fn any_bytes(random: &mut Random, _: usize) -> Record {
    let chip = random.chip();
    fitting(|| {
        let mut snapshot = random.snapshot(chip);
        scramble(random, &mut snapshot);
        if random.one_in(5) {
            snapshot.resize(BUFFER_BYTES, random.byte());
        }
        snapshot
    })
}

/// The first of the snapshots that the program has room for.
fn fitting(mut make: impl FnMut() -> Vec<u8>) -> Record {
    loop {
        let snapshot = make();
        if snapshot.len() <= BUFFER_BYTES {
            return Record::Restore { snapshot };
        }
    }
}

fn any_currents(random: &mut Random, _: usize) -> Record {
    Record::Currents {
        state: accepted(random, CURRENTS_CHIP),
        operand: random.tick(CURRENTS_CHIP).operand,
    }
}

fn refused_currents(random: &mut Random, _: usize) -> Record {
    Record::Currents {
        state: accepted(random, CURRENTS_CHIP),
        operand: random.odd_tick(CURRENTS_CHIP).operand,
    }
}

/// A tick that the chip takes or refuses, in turn.
fn tick_in_turn(random: &mut Random, number: usize) -> Operand {
    let event = match number % 2 {
        0 => random.tick(CURRENTS_CHIP),
        _ => random.odd_tick(CURRENTS_CHIP),
    };
    event.operand
}

fn too_large_currents(random: &mut Random, number: usize) -> Record {
    let mut state = accepted(random, CURRENTS_CHIP);
    spoil(random, CURRENTS_CHIP, state.part(CURRENTS_CHIP));
    let operand = tick_in_turn(random, number);
    Record::Currents { state, operand }
}

/// Chips that are built and that aren't, with and without values above their
/// largest in the part of the chip that has currents.
fn currents_elsewhere(random: &mut Random, number: usize) -> Record {
    let mut state = accepted(random, CURRENTS_CHIP);
    if random.one_in(2) {
        spoil(random, CURRENTS_CHIP, state.part(CURRENTS_CHIP));
    }
    state.chip = match random.below(2) {
        0 => random.other_chip(CURRENTS_CHIP),
        _ => random.chip_not_built(),
    };
    let operand = tick_in_turn(random, number);
    Record::Currents { state, operand }
}

/// Records that are all tried, once.
pub struct Sweep {
    pub name: &'static str,
    pub batches: fn(&mut Random) -> Vec<Batch>,
}

pub const SWEEPS: &[Sweep] = &[
    Sweep {
        name: "calls: every place at its largest and one above",
        batches: |random| vec![Batch::whole(every_place(random))],
    },
    Sweep {
        name: "calls: every chip byte",
        batches: |random| vec![Batch::whole(every_chip_byte(random))],
    },
    Sweep {
        name: "calls: every operand byte by itself",
        batches: |random| vec![Batch::whole(every_operand_byte(random))],
    },
    Sweep {
        name: "calls: every selector at every position",
        batches: |random| vec![Batch::whole(every_selector(random))],
    },
    Sweep {
        name: "calls: loads at every position",
        batches: |random| vec![Batch::whole(every_load(random))],
    },
    Sweep {
        name: "calls: every selection of the test register",
        batches: |_| vec![Batch::whole(every_selection())],
    },
    Sweep {
        name: "calls: currents, every code at every output",
        batches: |_| vec![Batch::whole(every_code())],
    },
    Sweep {
        name: "calls: every room of a save",
        batches: |random| vec![Batch::whole(every_room(random))],
    },
    Sweep {
        name: "calls: plans, every pair of neighbours",
        batches: |random| vec![Batch::whole(plans::every_pair(random))],
    },
    Sweep {
        name: "calls: plans, lengths of wanted bytes and room",
        batches: |random| vec![Batch::whole(plans::every_length(random))],
    },
    Sweep {
        name: "calls: nothing behind the end is played",
        batches: ends,
    },
    Sweep {
        name: "calls: in small pieces through a pipe",
        batches: in_pieces,
    },
];

/// A save event, which goes through every place, a save, the currents and a plan.
fn each_call(random: &mut Random, state: Whole) -> [Record; 4] {
    let event = Record::Event {
        state: state.clone(),
        event: save(),
    };
    let currents = Record::Currents {
        state: state.clone(),
        operand: random.tick(CURRENTS_CHIP).operand,
    };
    let plan = plans::of_black(random, state.clone());
    [
        event,
        currents,
        plan,
        save_record(random, state, END_BUFFER_BYTES),
    ]
}

fn every_place(random: &mut Random) -> Vec<Record> {
    let mut records = Vec::new();
    for chip in CHIPS {
        for place in 0..place_count(chip) {
            let most = largest(chip, place);
            for value in [Some(most), most.checked_add(1)].into_iter().flatten() {
                let mut state = Whole::fresh(chip);
                state.part(chip)[place] = value;
                records.extend(each_call(random, state));
            }
        }
    }
    records
}

fn every_chip_byte(random: &mut Random) -> Vec<Record> {
    let mut records = Vec::new();
    for chip in 0..=255 {
        let state = Whole::fresh(chip);
        records.extend(each_call(random, state));
        let snapshot = vec![chip, 0, 0];
        records.push(Record::Restore { snapshot });
    }
    records
}

/// A state of this chip with no place 0.
fn full(random: &mut Random, chip: u8) -> Whole {
    let mut state = Whole::fresh(chip);
    *state.part(chip) = random.full_places(chip);
    state
}

/// One operand byte set, least and largest, in events of every kind and of some
/// that no chip has, and in the currents.
fn every_operand_byte(random: &mut Random) -> Vec<Record> {
    let mut records = Vec::new();
    for chip in CHIPS {
        for (number, value) in (0..8).flat_map(|number| [(number, 1), (number, 255)]) {
            let mut operand = [0; 8];
            operand[number] = value;
            for kind in (0..=highest_kind(chip) + 1).chain([200, 255]) {
                let event = Event { kind, operand };
                let state = full(random, chip);
                records.push(Record::Event { state, event });
            }
            let state = full(random, chip);
            records.push(Record::Currents { state, operand });
        }
    }
    records
}

fn code_record((places, operand): (Vec<u8>, Operand)) -> Record {
    let mut state = Whole::fresh(CURRENTS_CHIP);
    *state.part(CURRENTS_CHIP) = places;
    Record::Currents { state, operand }
}

fn every_code() -> Vec<Record> {
    codes_at_outputs().into_iter().map(code_record).collect()
}

/// As few ticks as show every code in each of green, red and blue: codes of one
/// colour are 51 apart.
fn every_code_shown() -> Vec<Record> {
    let ticks = codes_at_outputs().into_iter();
    let five = ticks.filter(|(places, operand)| places[p1::COMMAND] == 0xC0 && operand[7] == 3);
    five.take(52).map(code_record).collect()
}

/// A state with no place 0 but, maybe, the counter of the parts of a colour or a
/// register: chip 1's and 2's position, chip 3's load position.
fn at_position(random: &mut Random, chip: u8, position: u8) -> Whole {
    let mut state = full(random, chip);
    state.part(chip)[position_place(chip)] = position;
    state
}

/// The counter that moves with every access to the table.
fn position_place(chip: u8) -> usize {
    let counters = counter_places(chip);
    counters[counters.len() - 1]
}

/// Writes and reads at each position of a triple, chip 2 set for writing and for
/// reading.
fn every_selector(random: &mut Random) -> Vec<Record> {
    let mut records = Vec::new();
    for chip in CHIPS {
        for (position, direction) in (0..3).flat_map(|position| [(position, 0), (position, 1)]) {
            for selector in 0..=4 {
                for event in [write(selector, random.byte()), read(selector)] {
                    let mut state = at_position(random, chip, position);
                    if chip == 2 {
                        state.part(chip)[p2::DIRECTION] = direction;
                    }
                    records.push(Record::Event { state, event });
                }
            }
        }
    }
    records
}

/// Loads at each position, right ones and such with an undefined bit.
fn every_load(random: &mut Random) -> Vec<Record> {
    let mut records = Vec::new();
    for chip in CHIPS {
        for position in 0..=largest(chip, position_place(chip)) {
            for event in [random.load(), random.odd_load()] {
                let state = at_position(random, chip, position);
                records.push(Record::Event { state, event });
            }
        }
    }
    records
}

/// Rooms round the least that is accepted, round what older programs lend, round
/// each chip's own longest snapshot, and at the ends.
fn every_room(random: &mut Random) -> Vec<Record> {
    let mut rooms = vec![0, 1, 2, 3, BUFFER_BYTES - 1, BUFFER_BYTES];
    rooms.extend(END_BUFFER_BYTES - 3..=END_BUFFER_BYTES + 3);
    rooms.extend(OLDER_END_BYTES - 1..=OLDER_END_BYTES + 1);
    for chip in CHIPS {
        let longest = 3 + 3 * place_count(chip);
        rooms.extend(longest - 1..=longest + 1);
    }
    let mut records = Vec::new();
    for chip in CHIPS {
        for &room in &rooms {
            for fill in [0, 0xFF, random.byte()] {
                let state = full(random, chip);
                records.push(Record::Save { state, room, fill });
            }
        }
    }
    records
}

fn some_records(random: &mut Random, count: usize) -> Vec<Record> {
    let some = |number| {
        let class = &RANDOM[random.below(RANDOM.len())];
        (class.make)(random, number)
    };
    (0..count).map(some).collect()
}

/// An input of nothing; records behind each byte that names no call.
fn ends(random: &mut Random) -> Vec<Batch> {
    let mut batches = vec![Batch::whole(Vec::new())];
    for end in CALLS..=255 {
        let count = random.below(3);
        let mut batch = Batch::whole(some_records(random, count));
        batch.tail.push(end);
        for record in some_records(random, 2) {
            batch.tail.extend(record.bytes());
        }
        batches.push(batch);
    }
    batches
}

fn in_pieces(random: &mut Random) -> Vec<Batch> {
    let state = Whole::fresh(CHIPS[0]).bytes().len();
    [1, 2, 7, 19, state - 1, state, 4097]
        .into_iter()
        .map(|piece| Batch {
            piece,
            ..Batch::whole(some_records(random, 11))
        })
        .collect()
}

#[cfg(test)]
mod tests {
    //! What the classes come to, by the model alone: they need no program.

    use super::{every_code_shown, every_selection, plans, samples, RANDOM, SWEEPS};
    use crate::calls::record::Record;
    use crate::calls::tables::TABLES;
    use crate::report::Shown;
    use kit::Random;
    use std::collections::BTreeSet;

    /// Of each class as many as three rounds have, and all of the sweeps.
    fn records(random: &mut Random) -> Vec<Record> {
        let mut records = Vec::new();
        for class in RANDOM {
            records.extend((0..3 * class.records).map(|number| (class.make)(random, number)));
        }
        for sweep in SWEEPS {
            let batches = (sweep.batches)(random).into_iter();
            records.extend(batches.flat_map(|batch| batch.records));
        }
        records
    }

    #[test]
    fn the_records_show_what_the_tables_list() {
        let records = records(&mut Random::seeded(1));
        for table in TABLES {
            let of_table = |record: &&Record| record.table().title == table.title;
            let records = records.iter().filter(of_table);
            let shown: BTreeSet<Shown> = records.flat_map(Record::shown).collect();
            let listed: BTreeSet<Shown> = table.rows.iter().map(|row| row.shown).collect();
            assert_eq!(shown, listed, "{}", table.title);
        }
    }

    #[test]
    fn nothing_is_free_in_the_samples_and_each_has_its_records() {
        for (name, records) in samples(&mut Random::seeded(1)) {
            assert!(records.iter().all(Record::is_settled), "{name}");
            assert!(!records.is_empty(), "{name}");
        }
    }

    #[test]
    fn some_plans_are_free_and_some_are_not() {
        let random = &mut Random::seeded(1);
        // Nothing, one run, several runs, any entries, all.
        let settled = (0..5).map(|number| plans::any(random, number).is_settled());
        let settled: Vec<bool> = settled.collect();
        assert_eq!(settled, [true, true, false, false, false]);
    }

    /// Of 12h 34h 56h: each half beside its selection, and none beside others.
    #[test]
    fn the_sample_of_selections_has_each_half() {
        let printed = every_selection()
            .iter()
            .map(Record::printed)
            .collect::<Vec<_>>();
        let byte = |line: &String| u8::from_str_radix(&line[2..4], 16).expect("a byte");
        let low_bytes: Vec<u8> = printed.iter().step_by(2).map(byte).collect();
        let expected = [
            0x00, 0x11, 0x32, 0x03, 0x54, 0x05, 0x06, 0x07, 0x08, 0x29, 0x4A, 0x0B, 0x6C, 0x0D,
            0x0E, 0x0F,
        ];
        assert_eq!(low_bytes, expected);
        let high_bytes: Vec<u8> = printed.iter().skip(1).step_by(2).map(byte).collect();
        assert_eq!(high_bytes, expected);
    }

    #[test]
    fn the_sample_of_codes_has_each_in_each_colour() {
        let mut seen = BTreeSet::new();
        for record in every_code_shown() {
            // Digits of the answer's codes: red, green, blue of each pixel.
            let digits = record.printed().into_bytes()[6..36].to_vec();
            for (output, code) in digits.chunks(2).enumerate() {
                seen.insert((output % 3, code.to_vec()));
            }
        }
        assert_eq!(seen.len(), 3 * 256);
    }
}
