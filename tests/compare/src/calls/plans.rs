//! Records of plans, with no fault and with faults that are looked for behind one
//! another.

use crate::calls::faults::{accepted, spoil};
use crate::calls::record::{Record, Whole, BUFFER_BYTES};
use crate::plan::wanted::{self, differing, in_run};
use kit::{Random, PLAN_CHIP, WANTED_BYTES, WANTED_ENTRIES, WRITES_BYTES};

/// Wanted colours that differ, in turn, in no entry, in one run, in several, in
/// any entries, and in all.
fn some_wanted(random: &mut Random, places: &[u8], turn: usize) -> Vec<u8> {
    let differs = match turn % 5 {
        0 => vec![false; WANTED_ENTRIES],
        1 => one_run(random),
        2 => wanted::runs_and_gaps(random),
        3 => wanted::at_random(random),
        _ => vec![true; WANTED_ENTRIES],
    };
    differing(random, places, |entry| differs[entry])
}

fn one_run(random: &mut Random) -> Vec<bool> {
    let (first, count) = (
        random.index(WANTED_ENTRIES),
        random.pick(&[1, 2, 3, 40, 255]),
    );
    let entries = 0..WANTED_ENTRIES;
    entries.map(|entry| in_run(entry, first, count)).collect()
}

fn enough(random: &mut Random) -> usize {
    let most = BUFFER_BYTES;
    random.pick(&[WRITES_BYTES, WRITES_BYTES + 1, most - 1, most])
}

/// Among others the length of a list of two entries.
fn too_short(random: &mut Random) -> usize {
    let any = random.below(WRITES_BYTES);
    random.pick(&[0, 1, 2 * (1 + 3 * 2), any, WRITES_BYTES - 1])
}

fn record(random: &mut Random, state: Whole, wanted: Vec<u8>, room: usize) -> Record {
    Record::Plan {
        state,
        wanted,
        room,
        fill: random.byte(),
    }
}

pub fn any(random: &mut Random, number: usize) -> Record {
    let mut state = accepted(random, PLAN_CHIP);
    let wanted = some_wanted(random, state.part(PLAN_CHIP), number);
    let room = enough(random);
    record(random, state, wanted, room)
}

/// With the wanted bytes refused if bit 0 of the turn is 1, and with too little
/// room if bit 1 is.
fn faulty(random: &mut Random, turn: usize) -> (Whole, Vec<u8>, usize) {
    let mut state = accepted(random, PLAN_CHIP);
    let mut wanted = some_wanted(random, state.part(PLAN_CHIP), turn / 4);
    if turn & 1 != 0 {
        wanted::spoil(random, &mut wanted);
    }
    let room = match turn & 2 {
        0 => enough(random),
        _ => too_short(random),
    };
    (state, wanted, room)
}

/// 42, 43, and both.
pub fn refused(random: &mut Random, number: usize) -> Record {
    let turn = 4 * (number / 3) + 1 + number % 3;
    let (state, wanted, room) = faulty(random, turn);
    record(random, state, wanted, room)
}

/// 25, with and without others behind it.
pub fn too_large(random: &mut Random, number: usize) -> Record {
    let (mut state, wanted, room) = faulty(random, number);
    spoil(random, PLAN_CHIP, state.part(PLAN_CHIP));
    record(random, state, wanted, room)
}

/// Chips that are built and that aren't, with and without values above their
/// largest in the part of the chip that has plans, and others behind.
pub fn elsewhere(random: &mut Random, number: usize) -> Record {
    let (mut state, wanted, room) = faulty(random, number);
    if random.one_in(2) {
        spoil(random, PLAN_CHIP, state.part(PLAN_CHIP));
    }
    state.chip = match random.below(2) {
        0 => random.other_chip(PLAN_CHIP),
        _ => random.chip_not_built(),
    };
    record(random, state, wanted, room)
}

/// A plan of a table that is all black.
pub fn of_black(random: &mut Random, state: Whole) -> Record {
    record(random, state, vec![0; WANTED_BYTES], WRITES_BYTES)
}

fn one_run_record(random: &mut Random, first: usize, count: usize) -> Record {
    let mut state = accepted(random, PLAN_CHIP);
    let is = |entry| in_run(entry, first, count);
    let wanted = differing(random, state.part(PLAN_CHIP), is);
    record(random, state, wanted, WRITES_BYTES)
}

/// Each pair of neighbours.
pub fn every_pair(random: &mut Random) -> Vec<Record> {
    let firsts = 0..WANTED_ENTRIES;
    firsts
        .map(|first| one_run_record(random, first, 2))
        .collect()
}

/// One run, at both ends of the table and across them.
pub fn single_runs(random: &mut Random) -> Vec<Record> {
    let mut records = Vec::new();
    for first in [0, 1, 128, 254, 255] {
        for count in [1, 2, 3, 255] {
            records.push(one_run_record(random, first, count));
        }
    }
    records
}

/// Rooms and lengths at the ends and about what is asked for.
pub fn every_length(random: &mut Random) -> Vec<Record> {
    let lens = |least: usize| {
        let ends = [0, 1, 2, BUFFER_BYTES - 1, BUFFER_BYTES];
        let near = least - 2..=least + 2;
        ends.into_iter().chain(near).collect::<Vec<usize>>()
    };
    let mut records = Vec::new();
    for wanted_len in lens(WANTED_BYTES) {
        for room in lens(WRITES_BYTES) {
            let mut state = accepted(random, PLAN_CHIP);
            let turn = records.len();
            let mut wanted = some_wanted(random, state.part(PLAN_CHIP), turn);
            wanted.resize(wanted_len, random.up_to(wanted::LARGEST));
            records.push(record(random, state, wanted, room));
        }
    }
    records
}

#[cfg(test)]
mod tests {
    //! Plans as records, by the model alone.

    use crate::calls::record::{Record, Whole, BUFFER_BYTES};
    use kit::{place_count, CHIPS, WANTED_BYTES};

    const BLACK: [u8; WANTED_BYTES] = [0; WANTED_BYTES];

    fn plan(state: Whole, wanted: &[u8], room: usize) -> Record {
        Record::Plan {
            state,
            wanted: wanted.to_vec(),
            room,
            fill: 0xA5,
        }
    }

    /// A fresh chip 2, entries 9 and 255 to 0 wanted otherwise.
    fn two_runs() -> Record {
        let mut wanted = BLACK;
        (wanted[2], wanted[27], wanted[765]) = (3, 4, 5);
        plan(Whole::fresh(2), &wanted, 1540)
    }

    const RUN_FROM_9: &str = "0009010401000100";
    const RUN_FROM_255: &str = "00ff010501000100010001000103";

    /// A whole buffer that starts with these digits.
    fn buffer(digits: &str) -> String {
        format!("{digits}{}", "a5".repeat(BUFFER_BYTES - digits.len() / 2))
    }

    #[test]
    fn a_plan_as_a_record() {
        let places: usize = CHIPS.into_iter().map(place_count).sum();
        let state = [vec![2], vec![0; places]].concat();
        let record = plan(Whole::fresh(2), &[7, 8], 1538);
        let behind = [2, 0, 7, 8, 2, 6, 0xA5];
        assert_eq!(record.bytes(), [&[4][..], &state, &behind].concat());
        assert_eq!(record.printed(), format!("42 0\n{}\n", buffer("")));

        let list = format!("{RUN_FROM_9}{RUN_FROM_255}");
        assert_eq!(two_runs().printed(), format!("0 11\n{}\n", buffer(&list)));
    }

    #[test]
    fn a_plan_may_have_its_runs_in_any_order() {
        for runs in [[RUN_FROM_9, RUN_FROM_255], [RUN_FROM_255, RUN_FROM_9]] {
            assert_eq!(two_runs().wrong(["0 11", &buffer(&runs.concat())]), None);
        }
        assert!(!two_runs().is_settled());
    }

    #[test]
    fn what_is_wrong_with_a_plan_is_found() {
        let list = format!("{RUN_FROM_9}{RUN_FROM_255}");
        let wrong = |first: &str, digits: &str, words: &str| {
            let wrong = two_runs().wrong([first, &buffer(digits)]);
            let wrong = wrong.unwrap_or_else(|| panic!("'{words}' isn't found"));
            assert!(wrong.contains(words), "{wrong}");
        };
        wrong("0 22", &list, "prints 0 22, the model 0 11");
        wrong("0 11", &format!("{list}00"), "byte 22 of the buffer is 00");
        wrong("0 11", &list.replace("0104", "0105"), "plan: the list: ");
        wrong("0 11", &list.replace("00ff", "00fe"), "plan: the list: ");
        wrong("0 11", &list.replace("ff", "FF"), "lowercase");
        let short = two_runs().wrong(["0 11", &list]);
        assert!(short.is_some_and(|wrong| wrong.contains("44 characters")));
    }

    #[test]
    fn refused_plans_with_the_refusal_behind() {
        let too_large = |chip| {
            let mut state = Whole::fresh(chip);
            state.part(2)[0] = 64;
            state
        };
        let shown = |state, wanted, room| plan(state, wanted, room).shown();
        assert_eq!(shown(Whole::fresh(2), &BLACK, 1538), [(0, 0)]);
        assert_eq!(shown(Whole::fresh(2), &BLACK, 1537), [(43, 0)]);
        assert_eq!(shown(Whole::fresh(2), &[], 1538), [(42, 0)]);
        assert_eq!(shown(Whole::fresh(2), &[], 0), [(42, 0), (42, 43)]);
        assert_eq!(shown(too_large(2), &[], 0), [(25, 0), (25, 42)]);
        assert_eq!(shown(too_large(2), &BLACK, 0), [(25, 0), (25, 43)]);
        for chip in [0, 1, 3, 9] {
            assert_eq!(shown(Whole::fresh(chip), &BLACK, 1538), [(41, 0)]);
            assert_eq!(shown(Whole::fresh(chip), &[], 0), [(41, 0), (41, 42)]);
            assert_eq!(shown(too_large(chip), &[], 0), [(41, 0), (41, 25)]);
        }
    }
}
