//! Makes the inputs of the classes.

use crate::damage::{damaged_log, damaged_snapshot, several_faults, two_indexed_faults};
use crate::damage::{LOG_FAULTS, SNAPSHOT_FAULTS};
use crate::plan::wanted::{self, differing, in_run};
use crate::replay::very_long;
use crate::tool::input::{Input, Sort};
use crate::tool::{modelled, texts, Tool};
use kit::{chip_of_round, largest, log_bytes, nonzero, place_count, snapshot_bytes};
use kit::{table_places, vertical, Random, CHIPS, CURRENTS_CHIP, PLAN_CHIP, WANTED_ENTRIES};
use model::{Event, MOST_EVENTS};

/// An input, or why the tool gives nothing to make it of.
pub type Made = Result<Input, String>;

// ---- logs and texts

/// The most events of most logs.
const MOSTLY: usize = 60;

/// The built chips in turn. Each has a log of no event, one at the limit, one
/// with a long run of vertical periods and one in pieces among its first.
pub fn accepted_log(_: &Tool, random: &mut Random, number: usize) -> Made {
    let chip = chip_of_round(number);
    let turn = number / CHIPS.len();
    let count = match turn {
        0 => 0,
        1 => MOST_EVENTS,
        2 => random.below(MOSTLY + 1),
        _ => some_count(random),
    };
    let mut events = random.events(chip, count);
    if turn == 2 || random.one_in(30) {
        put_verticals(random, &mut events);
    }
    let log = Input::of(Sort::Log, log_bytes(chip, &events));
    if turn == 3 || random.one_in(60) {
        return Ok(log.in_pieces(random.pick(&[1, 2, 3, 7, 19, 4097])));
    }
    Ok(log)
}

fn some_count(random: &mut Random) -> usize {
    match random.below(250) {
        0 => 0,
        1 => MOST_EVENTS,
        2..=6 => random.below(MOST_EVENTS),
        _ => random.below(MOSTLY + 1),
    }
}

/// A run of vertical periods whose length needs more than a byte, as far as
/// there is room.
fn put_verticals(random: &mut Random, events: &mut Vec<Event>) {
    let room = MOST_EVENTS - events.len();
    let some = 256 + random.below(800);
    let run = random.pick(&[256, 257, some, some, room]).min(room);
    let at = random.index(events.len() + 1);
    events.splice(at..at, vec![vertical(); run]);
}

/// Each fault in turn.
pub fn refused_log(_: &Tool, random: &mut Random, number: usize) -> Made {
    let chip = random.chip();
    let fault = LOG_FAULTS[number % LOG_FAULTS.len()];
    Ok(Input::of(Sort::Log, damaged_log(random, chip, fault)))
}

/// What `list` prints of a log, damaged.
pub fn damaged_text(tool: &Tool, random: &mut Random, number: usize) -> Made {
    let chip = chip_of_round(number);
    let list = tool.on(&["list", "-"], &some_log(random, chip))?;
    let text = texts::damaged(random, list.done()?);
    Ok(Input::of(Sort::Text, text))
}

// ---- runs

/// Of each chip first a long one, in which events are refused for every reason.
pub fn accepted_run(_: &Tool, random: &mut Random, number: usize) -> Made {
    let chip = chip_of_round(number);
    let count = match number / CHIPS.len() {
        0 => MOST_EVENTS,
        _ => some_count(random),
    };
    let snapshot = random.snapshot(chip);
    let log = log_bytes(chip, &random.events(chip, count));
    Ok(Input::of(Sort::Snapshot, snapshot).and(Sort::Log, log))
}

/// Each fault of a snapshot and of a log in turn, then two chips, and twice
/// several faults at once.
pub fn refused_run(_: &Tool, random: &mut Random, number: usize) -> Made {
    const SINGLE: usize = SNAPSHOT_FAULTS.len() + LOG_FAULTS.len();
    let chip = random.chip();
    let (snapshot, log) = match number % (SINGLE + 3) {
        turn if turn < SNAPSHOT_FAULTS.len() => (
            damaged_snapshot(random, chip, SNAPSHOT_FAULTS[turn]),
            some_log(random, chip),
        ),
        turn if turn < SINGLE => (
            random.snapshot(chip),
            damaged_log(random, chip, LOG_FAULTS[turn - SNAPSHOT_FAULTS.len()]),
        ),
        SINGLE => {
            let other = random.other_chip(chip);
            (random.snapshot(chip), some_log(random, other))
        }
        _ => faults_at_once(random),
    };
    Ok(Input::of(Sort::Snapshot, snapshot).and(Sort::Log, log))
}

fn some_log(random: &mut Random, chip: u8) -> Vec<u8> {
    let count = random.below(20);
    log_bytes(chip, &random.events(chip, count))
}

/// The first case that is refused for more than its buffers.
fn faults_at_once(random: &mut Random) -> (Vec<u8>, Vec<u8>) {
    loop {
        let case = match random.one_in(2) {
            true => several_faults(random),
            false => two_indexed_faults(random),
        };
        if modelled::run(&case.snapshot, &case.log).is_err() {
            return (case.snapshot, case.log);
        }
    }
}

// ---- inputs longer than any buffer

/// Logs and snapshots in turn, each snapshot with a log for it.
pub fn long_input(_: &Tool, random: &mut Random, number: usize) -> Made {
    let turn = number / 2;
    if number % 2 == 0 {
        return Ok(Input::of(Sort::Log, very_long(random, turn)));
    }
    let chip = chip_of_round(turn / 4);
    let snapshot = long_snapshot(random, chip, turn);
    let log = some_log(random, chip);
    Ok(Input::of(Sort::Snapshot, snapshot).and(Sort::Log, log))
}

/// A snapshot or a header with much more behind it than belongs there.
fn long_snapshot(random: &mut Random, chip: u8, turn: usize) -> Vec<u8> {
    let mut bytes = match turn % 4 {
        0 => snapshot_bytes(chip, &nonzero(&random.full_places(chip))),
        1 => random.snapshot(chip),
        2 => vec![chip, 0xFF, 0xFF],
        _ => vec![random.chip_not_built(), 0, 0],
    };
    let more = random.pick(&[1, 3, 4_000, 70_000, 2_000_000]);
    bytes.resize(bytes.len() + more, random.pick(&[0, 1]));
    bytes
}

// ---- snapshots

/// Of one chip, the second one the first with some places changed. Of 8 pairs
/// one has a fault in the first, and one in the second.
pub fn two_snapshots(_: &Tool, random: &mut Random, number: usize) -> Made {
    // The chips change places from one round of faults to the next.
    let (round, turn) = (number / 8, number % 8);
    let chip = chip_of_round(number + round / SNAPSHOT_FAULTS.len());
    let places = some_places(random, chip);
    let changed = changed_places(random, chip, &places);
    let mut both = [places, changed].map(|places| snapshot_bytes(chip, &nonzero(&places)));
    if turn < both.len() {
        let fault = SNAPSHOT_FAULTS[round % SNAPSHOT_FAULTS.len()];
        both[turn] = damaged_snapshot(random, chip, fault);
    }
    let [first, second] = both;
    Ok(Input::of(Sort::Snapshot, first).and(Sort::Second, second))
}

fn some_places(random: &mut Random, chip: u8) -> Vec<u8> {
    match random.below(4) {
        0 => random.full_places(chip),
        _ => random.places(chip),
    }
}

/// Some places are changed, of the table or behind it, or all there are.
fn changed_places(random: &mut Random, chip: u8, places: &[u8]) -> Vec<u8> {
    if random.one_in(8) {
        return some_places(random, chip);
    }
    let mut changed = places.to_vec();
    let table = table_places(chip);
    for _ in 0..random.pick(&[1, 1, 2, 5, 40]) {
        let place = match random.one_in(2) {
            true => random.below(table),
            false => table + random.below(place_count(chip) - table),
        };
        changed[place] = random.up_to(largest(chip, place));
    }
    changed
}

// ---- currents

/// A snapshot of a TLC34058 and a tick, as a log of one event. Of 8 snapshots
/// one has a fault and one is another chip's; of 8 ticks one has odd bits.
pub fn snapshot_and_tick(_: &Tool, random: &mut Random, number: usize) -> Made {
    let (round, turn) = (number / 8, number % 8);
    let snapshot = match turn {
        0 => {
            let fault = SNAPSHOT_FAULTS[round % SNAPSHOT_FAULTS.len()];
            damaged_snapshot(random, CURRENTS_CHIP, fault)
        }
        1 => {
            let other = random.other_chip(CURRENTS_CHIP);
            random.snapshot(other)
        }
        _ => snapshot_bytes(CURRENTS_CHIP, &nonzero(&some_places(random, CURRENTS_CHIP))),
    };
    let tick = match turn {
        2 => random.odd_tick(CURRENTS_CHIP),
        _ => random.tick(CURRENTS_CHIP),
    };
    let log = log_bytes(CURRENTS_CHIP, &[tick]);
    Ok(Input::of(Sort::Snapshot, snapshot).and(Sort::Log, log))
}

// ---- plans

/// A snapshot of an HD153129 and wanted colours. Of 8 snapshots one has a fault and
/// one is another chip's; of 8 tables one is refused. In the others nothing
/// differs, all entries do, two about the end, runs, and any.
pub fn snapshot_and_wanted(_: &Tool, random: &mut Random, number: usize) -> Made {
    let (round, turn) = (number / 8, number % 8);
    let places = some_places(random, PLAN_CHIP);
    let snapshot = match turn {
        0 => {
            let fault = SNAPSHOT_FAULTS[round % SNAPSHOT_FAULTS.len()];
            damaged_snapshot(random, PLAN_CHIP, fault)
        }
        1 => {
            let other = random.other_chip(PLAN_CHIP);
            random.snapshot(other)
        }
        _ => snapshot_bytes(PLAN_CHIP, &nonzero(&places)),
    };
    let differs = match turn {
        3 => vec![false; WANTED_ENTRIES],
        4 => vec![true; WANTED_ENTRIES],
        5 => (0..WANTED_ENTRIES).map(|e| in_run(e, 255, 2)).collect(),
        6 => wanted::runs_and_gaps(random),
        _ => wanted::at_random(random),
    };
    let mut table = differing(random, &places, |entry| differs[entry]);
    if turn == 2 || (turn < 2 && random.one_in(2)) {
        spoil_table(random, &mut table);
    }
    Ok(Input::of(Sort::Snapshot, snapshot).and(Sort::Wanted, table))
}

/// Now and then much longer than any buffer.
fn spoil_table(random: &mut Random, table: &mut Vec<u8>) {
    match random.below(4) {
        0 => table.resize(random.pick(&[4_096, 70_000, 2_000_000]), 0),
        _ => wanted::spoil(random, table),
    }
}
