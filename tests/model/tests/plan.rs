//! The fewest writes to a wanted table: counts and lists worked out by hand, the
//! properties of lists from random states, what is wrong with other lists, and
//! the refusals of the call on a state and of the call on byte strings.

use crate::common::{play, snapshot_with, Bench};
use kit::{not_built, p1, p2, p3, place_values, rs, snapshot_bytes, write, Random, NOT_BUILT};
use model::{fewest_accesses, plan, plan_fault, plan_into, save, State, Write};
use std::collections::{BTreeMap, BTreeSet};

const ENTRIES: usize = 256;
/// Bytes of a wanted table and of a result buffer.
const WANTED_BYTES: usize = 768;
const WRITES_BYTES: usize = 1538;
/// Accesses of the longest list.
const MOST_ACCESSES: usize = 769;

/// The list of these selectors and bytes.
fn list_of(pairs: &[(u8, u8)]) -> Vec<Write> {
    let writes = pairs.iter();
    writes
        .map(|&(selector, byte)| Write { selector, byte })
        .collect()
}

/// The list that writes these runs of entries one after the other.
fn list_of_runs(wanted: &[u8], runs: &[&[u8]]) -> Vec<Write> {
    let mut pairs = Vec::new();
    for run in runs {
        pairs.push((rs::WRITE_MODE, run[0]));
        for &entry in *run {
            let place = 3 * usize::from(entry);
            pairs.extend(wanted[place..place + 3].iter().map(|&byte| (rs::CLT, byte)));
        }
    }
    list_of(&pairs)
}

/// The colours of a state, as wanted bytes.
fn colours(state: &State) -> Vec<u8> {
    state.places()[..WANTED_BYTES].to_vec()
}

/// A black table but for these entries.
fn black_but(entries: &[(u8, [u8; 3])]) -> Vec<u8> {
    let mut wanted = vec![0; WANTED_BYTES];
    for &(entry, colour) in entries {
        wanted[3 * usize::from(entry)..][..3].copy_from_slice(&colour);
    }
    wanted
}

/// The planner's list, which must have no fault and this many accesses.
fn planned(state: &State, wanted: &[u8], count: usize) -> Vec<Write> {
    assert_eq!(fewest_accesses(state, wanted), Some(count));
    let list = plan(state, wanted, WRITES_BYTES).unwrap();
    assert_eq!(list.len(), count);
    assert_eq!(plan_fault(state, wanted, &list), None);
    list
}

/// 3 x the entries that differ plus their runs. The runs are counted on the ring
/// cut open at an entry that is equal, where there is one.
fn count_by_ring(state: &State, wanted: &[u8]) -> usize {
    let now = colours(state);
    let pairs = now.chunks_exact(3).zip(wanted.chunks_exact(3));
    let mut differ: Vec<bool> = pairs.map(|(now, wanted)| now != wanted).collect();
    if let Some(equal) = differ.iter().position(|differs| !differs) {
        differ.rotate_left(equal);
    }
    let runs = differ.split(|differs| !differs);
    let runs: Vec<usize> = runs.map(<[bool]>::len).filter(|&n| n > 0).collect();
    3 * runs.iter().sum::<usize>() + runs.len()
}

/// A chip 2 in which everything is random: colours, address, position,
/// direction, held bytes and mask.
fn random_chip(random: &mut Random) -> State {
    let mut places = random.places(2);
    places[p2::POSITION] = random.up_to(2);
    places[p2::DIRECTION] = random.up_to(1);
    places[p2::HELD_RED] = random.up_to(63);
    places[p2::HELD_GREEN] = random.up_to(63);
    places[p2::MASK] = random.byte();
    State::from_places(2, &places).unwrap()
}

/// The colours of the state but for these entries, which differ in one component
/// or more.
fn wanted_with(random: &mut Random, state: &State, entries: &BTreeSet<usize>) -> Vec<u8> {
    let mut wanted = colours(state);
    for entry in entries {
        let components = 1 + random.up_to(6);
        for component in (0..3).filter(|c| components >> c & 1 != 0) {
            let byte = &mut wanted[3 * entry + component];
            *byte = (*byte + 1 + random.up_to(62)) % 64;
        }
    }
    wanted
}

/// Which entries differ: the shapes of the tests at random.
const SHAPES: [&str; 10] = [
    "nothing",
    "one entry",
    "neighbours",
    "255 and 0",
    "a run across 255 and 0",
    "one equal entry between",
    "every other entry",
    "all but one",
    "all",
    "any",
];

fn entries_of_shape(random: &mut Random, shape: &str) -> BTreeSet<usize> {
    let first = usize::from(random.address());
    let ring = |range: std::ops::Range<usize>| range.map(|entry| entry % ENTRIES).collect();
    match shape {
        "nothing" => BTreeSet::new(),
        "one entry" => ring(first..first + 1),
        "neighbours" => ring(first..first + 2 + random.below(8)),
        "255 and 0" => ring(255..257),
        "a run across 255 and 0" => ring(255 - random.below(100)..257 + random.below(100)),
        "one equal entry between" => {
            let mut entries: BTreeSet<usize> = ring(first..first + 3 + random.below(20));
            entries.remove(&((first + 1) % ENTRIES));
            entries
        }
        "every other entry" => (first % 2..ENTRIES).step_by(2).collect(),
        "all but one" => ring(first + 1..first + ENTRIES),
        "all" => ring(0..ENTRIES),
        _ => {
            let percent = 1 + random.below(99);
            let entries = 0..ENTRIES;
            entries.filter(|_| random.below(100) < percent).collect()
        }
    }
}

#[test]
fn sizes() {
    assert_eq!(model::WANTED_BYTES, WANTED_BYTES);
    assert_eq!(model::MOST_ACCESSES, MOST_ACCESSES);
    assert_eq!(model::WRITES_BYTES, WRITES_BYTES);
}

#[test]
fn nothing_differs_and_the_list_is_empty() {
    assert_eq!(planned(&Bench::fresh(2).state, &[0; WANTED_BYTES], 0), []);
    // Whatever the counters and the held bytes are.
    let mut random = Random::seeded(0x5EED_0060);
    for _ in 0..20 {
        let state = random_chip(&mut random);
        assert_eq!(planned(&state, &colours(&state), 0), []);
    }
}

#[test]
fn one_run_is_one_address_and_its_triples() {
    let fresh = Bench::fresh(2).state;
    let wanted = black_but(&[(5, [1, 2, 3])]);
    let list = planned(&fresh, &wanted, 4);
    assert_eq!(list, list_of(&[(0, 5), (1, 1), (1, 2), (1, 3)]));

    let wanted = black_but(&[(5, [1, 2, 3]), (6, [63, 0, 62])]);
    let list = planned(&fresh, &wanted, 7);
    let second = [(1, 63), (1, 0), (1, 62)];
    let both = [&[(0, 5), (1, 1), (1, 2), (1, 3)], &second[..]].concat();
    assert_eq!(list, list_of(&both));
}

#[test]
fn one_component_takes_the_whole_triple() {
    let mut chip = Bench::fresh(2);
    chip.set_entry(200, [7, 8, 9]);
    for (colour, bytes) in [
        ([0, 8, 9], [(1, 0), (1, 8), (1, 9)]),
        ([7, 63, 9], [(1, 7), (1, 63), (1, 9)]),
        ([7, 8, 1], [(1, 7), (1, 8), (1, 1)]),
    ] {
        let list = planned(&chip.state, &black_but(&[(200, colour)]), 4);
        assert_eq!(list, list_of(&[&[(0, 200)], &bytes[..]].concat()));
    }
}

#[test]
fn entries_255_and_0_are_one_run() {
    let fresh = Bench::fresh(2).state;
    let wanted = black_but(&[(255, [1, 2, 3]), (0, [4, 5, 6])]);
    let list = planned(&fresh, &wanted, 7);
    let both = [(1, 1), (1, 2), (1, 3), (1, 4), (1, 5), (1, 6)];
    assert_eq!(list, list_of(&[&[(0, 255)], &both[..]].concat()));
    // With an equal entry at either side they are two.
    planned(&fresh, &black_but(&[(254, [1; 3]), (0, [1; 3])]), 8);
    planned(&fresh, &black_but(&[(255, [1; 3]), (1, [1; 3])]), 8);
    // Alone, each is one run.
    planned(&fresh, &black_but(&[(255, [1; 3])]), 4);
    planned(&fresh, &black_but(&[(0, [1; 3])]), 4);
}

#[test]
fn runs_with_one_equal_entry_between_take_an_address_each() {
    let fresh = Bench::fresh(2).state;
    let wanted = black_but(&[(7, [1, 2, 3]), (9, [4, 5, 6])]);
    planned(&fresh, &wanted, 8);
    // Every other entry: the most runs there are.
    let every_other: Vec<(u8, [u8; 3])> = (0..=255).step_by(2).map(|e| (e, [1; 3])).collect();
    planned(&fresh, &black_but(&every_other), 3 * 128 + 128);
}

#[test]
fn runs_come_by_rising_first_entry_and_one_across_255_and_0_last() {
    let fresh = Bench::fresh(2).state;
    let entries = [0, 1, 4, 9, 10, 200, 254, 255];
    let wanted = black_but(&entries.map(|entry| (entry, [entry / 4, 1, 2])));
    let list = planned(&fresh, &wanted, 3 * 8 + 4);
    let runs: [&[u8]; 4] = [&[4], &[9, 10], &[200], &[254, 255, 0, 1]];
    assert_eq!(list, list_of_runs(&wanted, &runs));
    // Without 255 the run from 0 on is the first.
    let wanted = black_but(&[0, 1, 4, 254].map(|entry| (entry, [1, 1, 2])));
    let list = planned(&fresh, &wanted, 3 * 4 + 3);
    let runs: [&[u8]; 3] = [&[0, 1], &[4], &[254]];
    assert_eq!(list, list_of_runs(&wanted, &runs));
}

#[test]
fn all_256_are_one_run_from_any_entry_on() {
    let fresh = Bench::fresh(2).state;
    let wanted: Vec<u8> = (0..768).map(|place| (1 + place % 61) as u8).collect();
    let round: Vec<u8> = (0..=255).collect();
    let list = planned(&fresh, &wanted, MOST_ACCESSES);
    assert_eq!(list, list_of_runs(&wanted, &[&round]));
    // Any other first entry would do as well.
    for first in (0..ENTRIES).step_by(15) {
        let mut round = round.clone();
        round.rotate_left(first);
        let list = list_of_runs(&wanted, &[&round]);
        assert_eq!(plan_fault(&fresh, &wanted, &list), None, "from {first}");
    }
}

#[test]
fn all_but_one_start_behind_it() {
    let fresh = Bench::fresh(2).state;
    for equal in 0..=255u8 {
        let mut wanted = vec![5; WANTED_BYTES];
        wanted[3 * usize::from(equal)..][..3].fill(0);
        assert_eq!(fewest_accesses(&fresh, &wanted), Some(3 * 255 + 1));
        let list = plan(&fresh, &wanted, WRITES_BYTES).unwrap();
        let run: Vec<u8> = (1..=255).map(|step| equal.wrapping_add(step)).collect();
        assert_eq!(list, list_of_runs(&wanted, &[&run]), "all but {equal}");
    }
}

#[test]
fn every_address_position_and_direction_and_any_held_bytes() {
    let wanted = black_but(&[(255, [1, 2, 3]), (0, [1, 2, 4]), (9, [1, 2, 3])]);
    for address in 0..=255 {
        for (position, direction, held) in [
            (0, 0, [0, 0]),
            (1, 0, [1, 0]),
            (2, 0, [1, 2]),
            (2, 0, [63, 63]),
            (0, 1, [1, 2]),
            (1, 1, [2, 1]),
            (2, 1, [1, 2]),
        ] {
            let chip = Bench::with_places(
                2,
                &[
                    (p2::ADDRESS, address),
                    (p2::POSITION, position),
                    (p2::DIRECTION, direction),
                    (p2::HELD_RED, held[0]),
                    (p2::HELD_GREEN, held[1]),
                ],
            );
            planned(&chip.state, &wanted, 11);
        }
    }
}

#[test]
fn every_shape_from_random_states() {
    let mut random = Random::seeded(0x5EED_0061);
    let mut counters = BTreeSet::new();
    for shape in SHAPES {
        let mut counts = BTreeSet::new();
        for _ in 0..40 {
            let state = random_chip(&mut random);
            let entries = entries_of_shape(&mut random, shape);
            let wanted = wanted_with(&mut random, &state, &entries);
            let count = count_by_ring(&state, &wanted);
            let list = planned(&state, &wanted, count);
            // Only address writes in write mode, and colours.
            assert!(list.iter().all(|write| write.selector < 2), "{shape}");
            let places = state.places();
            counters.insert((places[p2::POSITION], places[p2::DIRECTION]));
            counts.insert(count);
        }
        match shape {
            "nothing" => assert!(counts.iter().eq(&[0])),
            "one entry" => assert!(counts.iter().eq(&[4])),
            "255 and 0" => assert!(counts.iter().eq(&[7])),
            "every other entry" => assert!(counts.iter().eq(&[512])),
            "all but one" => assert!(counts.iter().eq(&[766])),
            "all" => assert!(counts.iter().eq(&[769])),
            _ => assert!(counts.len() > 5, "{shape} {counts:?}"),
        }
    }
    assert_eq!(counters.len(), 3 * 2);
}

/// First entries and lengths of random runs round the table, each with at least
/// one equal entry behind it.
fn random_runs(random: &mut Random) -> Vec<(usize, usize)> {
    let mut runs = Vec::new();
    let (turn, longest) = (random.below(ENTRIES), random.pick(&[2, 10, 60]));
    let mut at = 0;
    loop {
        let length = 1 + random.below(longest);
        if at + length >= ENTRIES {
            return runs;
        }
        runs.push(((turn + at) % ENTRIES, length));
        at += length + 1 + random.below(longest);
    }
}

#[test]
fn runs_laid_out_beforehand() {
    let mut random = Random::seeded(0x5EED_0062);
    let (mut across, mut most_runs) = (0, 0);
    for _ in 0..150 {
        let state = random_chip(&mut random);
        let runs = random_runs(&mut random);
        let round = |&(first, length)| (first..first + length).map(|entry| entry % ENTRIES);
        let entries: BTreeSet<usize> = runs.iter().flat_map(round).collect();
        let wanted = wanted_with(&mut random, &state, &entries);
        let count = 3 * entries.len() + runs.len();
        let list = planned(&state, &wanted, count);
        // The address writes are the runs' first entries.
        let addresses = list.iter().filter(|write| write.selector == 0);
        let addresses: BTreeSet<usize> = addresses.map(|write| usize::from(write.byte)).collect();
        let firsts: BTreeSet<usize> = runs.iter().map(|&(first, _)| first).collect();
        assert_eq!(addresses, firsts);
        let crosses = |&&(first, length): &&(usize, usize)| first + length > ENTRIES;
        across += runs.iter().filter(crosses).count();
        most_runs = most_runs.max(runs.len());
    }
    assert!(across > 20, "{across}");
    assert!(most_runs > 60, "{most_runs}");
}

#[test]
fn the_list_as_a_log_leaves_the_wanted_colours_and_the_mask() {
    let mut random = Random::seeded(0x5EED_0063);
    for shape in SHAPES {
        let state = random_chip(&mut random);
        let entries = entries_of_shape(&mut random, shape);
        let wanted = wanted_with(&mut random, &state, &entries);
        let list = plan(&state, &wanted, WRITES_BYTES).unwrap();
        let writes = list.iter().map(|w| write(w.selector, w.byte));
        let events: Vec<_> = writes.collect();
        let played = play(2, &save(&state).unwrap(), &events);
        assert!(played.answers.iter().all(|answer| answer[0] == 0));
        let mut places = vec![0; p2::COUNT];
        for (place, value) in place_values(&played.end) {
            places[usize::from(place)] = value;
        }
        assert_eq!(places[..WANTED_BYTES], wanted, "{shape}");
        assert_eq!(places[p2::MASK], state.places()[p2::MASK]);
    }
}

#[test]
fn fewest_accesses_is_for_chip_2_and_768_bytes() {
    let fresh = Bench::fresh(2).state;
    assert_eq!(fewest_accesses(&fresh, &[0; WANTED_BYTES]), Some(0));
    assert_eq!(fewest_accesses(&fresh, &[1; WANTED_BYTES]), Some(769));
    for length in [0, 3, 767, 769] {
        assert_eq!(fewest_accesses(&fresh, &vec![0; length]), None);
    }
    for other in [Bench::fresh(1), Bench::fresh(3), Bench::not_built(4)] {
        assert_eq!(fewest_accesses(&other.state, &[0; WANTED_BYTES]), None);
    }
}

/// The list must have this fault.
fn assert_fault(state: &State, wanted: &[u8], pairs: &[(u8, u8)], words: &str) {
    let fault = plan_fault(state, wanted, &list_of(pairs));
    assert_eq!(fault.as_deref(), Some(words), "{pairs:?}");
}

#[test]
fn each_fault_of_a_list_is_named() {
    // At entry 7's red, in direction write.
    let chip = Bench::with_places(2, &[(p2::ADDRESS, 7)]);
    let wanted = black_but(&[(7, [1, 2, 3]), (8, [1, 2, 3])]);
    let fault = |pairs: &[(u8, u8)], words| assert_fault(&chip.state, &wanted, pairs, words);
    let [r, g, b] = [(1, 1), (1, 2), (1, 3)];
    let good = [(0, 7), r, g, b, r, g, b];
    assert_eq!(plan_fault(&chip.state, &wanted, &list_of(&good)), None);

    // A run split in two leaves the wanted colours; so does a mask write more.
    let one_more = "8 accesses, the fewest being 7";
    fault(&[(0, 7), r, g, b, (0, 8), r, g, b], one_more);
    fault(&[&good[..], &[(2, 0)]].concat(), one_more);
    fault(&good[..6], "6 accesses, the fewest being 7");
    fault(&[], "0 accesses, the fewest being 7");
    let now = colours(&chip.state);
    let nothing = "1 accesses though nothing differs";
    assert_fault(&chip.state, &now, &[(0, 7)], nothing);

    // The wanted colours in 7 accesses, from where the address is.
    fault(
        &[r, g, b, r, g, b, (2, 9)],
        "starts with a write of selector 1",
    );
    fault(
        &[(2, 9), r, g, b, r, g, b],
        "starts with a write of selector 2",
    );

    // Dropped bits leave the wanted colours too.
    let blue = "write 3: byte 67 for place 23, where 3 is wanted";
    fault(&[(0, 7), r, g, (1, 0x43), r, g, b], blue);
    let red = "write 1: byte 129 for place 21, where 1 is wanted";
    fault(&[(0, 7), (1, 0x81), g, b, r, g, b], red);
    let green = "write 5: byte 1 for place 25, where 2 is wanted";
    fault(&[(0, 7), r, g, b, r, (1, 1), b], green);
    // Entry 6 shall be black.
    let elsewhere = "write 1: byte 1 for place 18, where 0 is wanted";
    fault(&[(0, 6), r, g, b, r, g, b], elsewhere);

    // In direction read, and with a selector that isn't there.
    fault(&[(3, 7), (1, 1), g, b, r, g, b], "write 1: refused with 3");
    fault(&[(0, 7), r, g, b, (4, 1), g, b], "write 4: refused with 1");

    // Entry 8 not written, the other writes being harmless; then entry 7.
    let mask = (2, 0);
    let eight = "place 24 is left 0, where 1 is wanted";
    fault(&[(0, 7), r, g, b, mask, mask, mask], eight);
    let seven = "place 21 is left 0, where 1 is wanted";
    fault(&[(3, 7), (0, 8), r, g, b, (0, 7), r], seven);
}

#[test]
fn no_list_is_right_where_the_call_is_refused() {
    let black = [0; WANTED_BYTES];
    for bench in [Bench::fresh(1), Bench::fresh(3), Bench::not_built(9)] {
        assert_fault(&bench.state, &black, &[], "refusal 41 and no list");
    }
    let unsound = Bench::with_places(2, &[(p2::POSITION, 3)]);
    assert_fault(&unsound.state, &black, &[], "refusal 25 and no list");
    let fresh = Bench::fresh(2).state;
    assert_fault(&fresh, &black[1..], &[], "refusal 42 and no list");
    // A list that would leave the byte's lower bits.
    let mut wanted = black;
    wanted[5] = 65;
    let list = [(0, 1), (1, 0), (1, 0), (1, 65)];
    assert_fault(&fresh, &wanted, &list, "refusal 42 and no list");
}

#[test]
fn runs_in_any_order_are_right() {
    let fresh = Bench::fresh(2).state;
    let wanted = black_but(&[3, 5, 255, 0].map(|entry| (entry, [1, 2, 3])));
    let runs: [&[u8]; 3] = [&[3], &[5], &[255, 0]];
    for order in [
        [0, 1, 2],
        [0, 2, 1],
        [1, 0, 2],
        [1, 2, 0],
        [2, 0, 1],
        [2, 1, 0],
    ] {
        let list = list_of_runs(&wanted, &order.map(|run| runs[run]));
        assert_eq!(plan_fault(&fresh, &wanted, &list), None, "{order:?}");
    }
}

#[test]
fn any_change_of_one_write_is_a_fault() {
    let mut random = Random::seeded(0x5EED_0064);
    let mut faults = BTreeMap::new();
    for _ in 0..600 {
        let state = random_chip(&mut random);
        let shape = random.pick(&[
            "one entry",
            "neighbours",
            "255 and 0",
            "one equal entry between",
        ]);
        let entries = entries_of_shape(&mut random, shape);
        let wanted = wanted_with(&mut random, &state, &entries);
        let mut list = plan(&state, &wanted, WRITES_BYTES).unwrap();
        let at = random.index(list.len());
        match random.below(4) {
            0 => list[at].byte = list[at].byte.wrapping_add(1 + random.up_to(254)),
            1 => list[at].selector = (list[at].selector + 1 + random.up_to(3)) % 5,
            2 => drop(list.remove(at)),
            _ => list.insert(at, list[at]),
        }
        let fault = plan_fault(&state, &wanted, &list);
        assert!(fault.is_some(), "{list:?}");
        // The fault without its numbers.
        let words = fault.unwrap().replace(|c: char| c.is_ascii_digit(), "");
        *faults.entry(words).or_insert(0) += 1;
    }
    assert!(faults.len() >= 4, "{faults:?}");
    assert!(faults.values().all(|&n| n > 5), "{faults:?}");
}

/// The call on a state must be refused with this number.
fn assert_refused(state: &State, wanted: &[u8], room: usize, number: u8) {
    let result = plan(state, wanted, room);
    assert_eq!(result.map_err(|refusal| refusal.number()), Err(number));
}

/// Wanted tables that are refused.
fn faulty_tables() -> [Vec<u8>; 3] {
    [vec![], vec![0; 767], vec![64; 768]]
}

#[test]
fn refusal_41_every_chip_but_2() {
    let mut chips = 0;
    for chip in (0..=255).filter(|&chip| chip != 2) {
        let state = State::fresh(chip).unwrap_or_else(|| Bench::not_built(chip).state);
        assert_eq!(state.chip(), chip);
        assert_refused(&state, &[0; WANTED_BYTES], WRITES_BYTES, 41);
        // 41 comes before 42 and 43.
        for wanted in faulty_tables() {
            assert_refused(&state, &wanted, WRITES_BYTES, 41);
            assert_refused(&state, &wanted, 0, 41);
        }
        assert_refused(&state, &[0; WANTED_BYTES], WRITES_BYTES - 1, 41);
        chips += 1;
    }
    assert_eq!(chips, 255);
    assert!(plan(&Bench::fresh(2).state, &[0; 768], 1538).is_ok());
}

#[test]
fn refusal_41_comes_before_25() {
    for (chip, place, value) in [
        (1, p1::POSITION, 3),
        (1, p1::BLINK_COUNT, 128),
        (3, 0, 16),
        (3, p3::LOAD_POSITION, 32),
    ] {
        let chip = Bench::with_places(chip, &[(place, value)]);
        assert_eq!(save(&chip.state).map_err(|r| r.number()), Err(25));
        assert_refused(&chip.state, &[0; WANTED_BYTES], WRITES_BYTES, 41);
    }
}

#[test]
fn refusal_25_values_above_their_largest() {
    for (place, most) in [
        (0, 63),
        (500, 63),
        (767, 63),
        (p2::POSITION, 2),
        (p2::DIRECTION, 1),
        (p2::HELD_RED, 63),
        (p2::HELD_GREEN, 63),
    ] {
        let chip = Bench::with_places(2, &[(place, most)]);
        planned(&chip.state, &colours(&chip.state), 0);
        for value in [most + 1, 255] {
            let chip = Bench::with_places(2, &[(place, value)]);
            assert_refused(&chip.state, &[0; WANTED_BYTES], WRITES_BYTES, 25);
            // 25 comes before 42 and 43.
            for wanted in faulty_tables() {
                assert_refused(&chip.state, &wanted, WRITES_BYTES, 25);
                assert_refused(&chip.state, &wanted, 0, 25);
            }
            assert_refused(&chip.state, &[0; WANTED_BYTES], WRITES_BYTES - 1, 25);
        }
    }
}

#[test]
fn refusal_42_lengths() {
    let fresh = Bench::fresh(2).state;
    for length in [0, 1, 3, 255, 765, 767, 769, 771, 774, 1536] {
        for byte in [0, 63, 64] {
            let wanted = vec![byte; length];
            assert_refused(&fresh, &wanted, WRITES_BYTES, 42);
            // 42 comes before 43.
            assert_refused(&fresh, &wanted, WRITES_BYTES - 1, 42);
            assert_refused(&fresh, &wanted, 0, 42);
        }
    }
}

#[test]
fn refusal_42_a_byte_over_63_in_any_place() {
    let fresh = Bench::fresh(2).state;
    for place in 0..WANTED_BYTES {
        let mut wanted = vec![0; WANTED_BYTES];
        wanted[place] = 63;
        assert!(plan(&fresh, &wanted, WRITES_BYTES).is_ok(), "{place}");
        // 128 + 63 would be held as 63.
        for byte in [64, 127, 128, 191, 255] {
            wanted[place] = byte;
            assert_refused(&fresh, &wanted, WRITES_BYTES, 42);
            assert_refused(&fresh, &wanted, 0, 42);
        }
    }
    planned(&fresh, &[63; WANTED_BYTES], 769);
}

#[test]
fn refusal_43_however_short_the_list() {
    let fresh = Bench::fresh(2).state;
    for (wanted, count) in [
        (black_but(&[]), 0),
        (black_but(&[(5, [1, 2, 3])]), 4),
        (vec![9; WANTED_BYTES], 769),
    ] {
        for room in [0, 1, 8, 768, 769, 1536, 1537] {
            assert_refused(&fresh, &wanted, room, 43);
        }
        for room in [1538, 1539, 5000, usize::MAX] {
            let list = plan(&fresh, &wanted, room).unwrap();
            assert_eq!(list.len(), count, "room {room}");
        }
    }
}

#[test]
fn every_combination_gives_the_first_refusal() {
    let sound = [
        Bench::fresh(1),
        Bench::fresh(2),
        Bench::fresh(3),
        Bench::not_built(NOT_BUILT),
    ];
    // A chip that isn't built has no places, so no value is too large.
    let unsound = [
        Bench::with_places(1, &[(p1::POSITION, 3)]),
        Bench::with_places(2, &[(p2::POSITION, 3)]),
        Bench::with_places(3, &[(p3::LOAD_POSITION, 32)]),
    ];
    let mut tried = 0;
    for (benches, value_fault) in [(&sound[..], 0), (&unsound[..], 25)] {
        for bench in benches {
            let chip_fault = if bench.state.chip() == 2 { 0 } else { 41 };
            for (byte, wanted_fault) in [(1, 0), (64, 42)] {
                for (room, room_fault) in [(WRITES_BYTES, 0), (WRITES_BYTES - 1, 43)] {
                    let wanted = [byte; WANTED_BYTES];
                    let faults = [chip_fault, value_fault, wanted_fault, room_fault];
                    match faults.into_iter().find(|&fault| fault != 0) {
                        Some(number) => assert_refused(&bench.state, &wanted, room, number),
                        None => assert_eq!(planned(&bench.state, &wanted, 769).len(), 769),
                    }
                    tried += 1;
                }
            }
        }
    }
    assert_eq!(tried, 7 * 2 * 2);
}

/// Calls on byte strings with a buffer of this size; gives the result and the
/// buffer.
fn call_with(snapshot: &[u8], wanted: &[u8], room: usize) -> (u64, Vec<u8>) {
    let mut writes = vec![0xA5; room];
    let result = plan_into(snapshot, wanted, &mut writes);
    (result, writes)
}

/// The call on byte strings must be refused with this number, count 0, no byte
/// changed.
fn assert_call_refused(snapshot: &[u8], wanted: &[u8], room: usize, number: u8) {
    let (result, writes) = call_with(snapshot, wanted, room);
    assert_eq!(result, 65_536 * u64::from(number));
    assert_eq!(writes, vec![0xA5; room]);
}

/// The call on byte strings must give these bytes, two for each access, and
/// change none past them.
fn assert_call_gives(snapshot: &[u8], wanted: &[u8], room: usize, bytes: &[u8]) {
    let (result, writes) = call_with(snapshot, wanted, room);
    assert_eq!(2 * result, bytes.len() as u64);
    assert_eq!(writes[..bytes.len()], *bytes);
    assert_eq!(writes[bytes.len()..], vec![0xA5; room - bytes.len()]);
}

#[test]
fn byte_strings_worked_out_by_hand() {
    let fresh = [2, 0, 0];
    let wanted = black_but(&[(5, [1, 2, 3])]);
    for room in [WRITES_BYTES, WRITES_BYTES + 1, 5000] {
        assert_call_gives(&fresh, &wanted, room, &[0, 5, 1, 1, 1, 2, 1, 3]);
        assert_call_gives(&fresh, &black_but(&[]), room, &[]);
    }
    // Entry 255's green and entry 0's red differ; address 9, blue, direction
    // read, held 1 and 2, mask 255.
    let places = [(0, 7), (766, 8), (768, 9), (769, 2), (770, 1)];
    let counters = [(771, 1), (772, 2), (773, 255)];
    let snapshot = snapshot_bytes(2, &[&places[..], &counters].concat());
    let bytes = [0, 255, 1, 0, 1, 9, 1, 0, 1, 6, 1, 0, 1, 0];
    let wanted = black_but(&[(255, [0, 9, 0]), (0, [6, 0, 0])]);
    assert_call_gives(&snapshot, &wanted, WRITES_BYTES, &bytes);
}

#[test]
fn the_longest_list_fills_the_buffer() {
    let wanted: Vec<u8> = (0..768).map(|place| (1 + place % 63) as u8).collect();
    let mut bytes = vec![0, 0];
    bytes.extend(wanted.iter().flat_map(|&byte| [1, byte]));
    assert_eq!(bytes.len(), WRITES_BYTES);
    for room in [WRITES_BYTES, WRITES_BYTES + 1, WRITES_BYTES + 100] {
        assert_call_gives(&[2, 0, 0], &wanted, room, &bytes);
    }
    assert_call_refused(&[2, 0, 0], &wanted, WRITES_BYTES - 1, 43);
}

#[test]
fn refusal_43_of_the_call_however_short_the_list() {
    for wanted in [black_but(&[]), black_but(&[(5, [1, 2, 3])])] {
        for room in [0, 1, 8, 769, 1536, 1537] {
            assert_call_refused(&[2, 0, 0], &wanted, room, 43);
        }
    }
}

#[test]
fn every_combination_of_faults_gives_the_first_refusal_of_the_call() {
    // The snapshot without a fault has 9 in entry 1's blue.
    let good = black_but(&[(1, [0, 0, 8])]);
    let mut over = good.clone();
    over[767] = 64;
    let longer = [&good[..], &[0]].concat();
    let wanteds = [
        (&good[..], 0),
        (&good[..767], 42),
        (&longer, 42),
        (&over, 42),
        (&[], 42),
    ];
    let rooms = [(WRITES_BYTES, 0), (WRITES_BYTES - 1, 43), (0, 43)];
    let mut tried = 0;
    for (chip, chip_fault) in [(1, 41), (2, 0), (3, 41)] {
        for snapshot_fault in [0, 20, 21, 22, 23, 24, 25] {
            let snapshot = snapshot_with(snapshot_fault, chip);
            for (wanted, wanted_fault) in wanteds {
                for (room, room_fault) in rooms {
                    let faults = [snapshot_fault, chip_fault, wanted_fault, room_fault];
                    match faults.into_iter().find(|&fault| fault != 0) {
                        Some(number) => assert_call_refused(&snapshot, wanted, room, number),
                        None => {
                            let bytes = [0, 1, 1, 0, 1, 0, 1, 8];
                            assert_call_gives(&snapshot, wanted, room, &bytes);
                        }
                    }
                    tried += 1;
                }
            }
        }
    }
    assert_eq!(tried, 3 * 7 * 5 * 3);
}

#[test]
fn neighbours_in_the_order_of_the_calls_refusals() {
    let mut longer = snapshot_bytes(2, &[(774, 1)]);
    longer.push(1);
    let (black, short) = (vec![0; WANTED_BYTES], vec![0; WANTED_BYTES - 1]);
    let (enough, less) = (WRITES_BYTES, WRITES_BYTES - 1);
    // The number given, and behind it the other fault.
    let cases = [
        (vec![NOT_BUILT, 0], &black, enough, [20, 21]),
        (vec![NOT_BUILT, 0xFF, 0xFF], &black, enough, [21, 22]),
        (vec![2, 0xFF, 0xFF], &black, enough, [22, 23]),
        (longer, &black, enough, [23, 24]),
        (snapshot_bytes(2, &[(774, 0)]), &black, enough, [24, 25]),
        (snapshot_bytes(1, &[(781, 3)]), &black, enough, [25, 41]),
        (snapshot_bytes(3, &[(5, 16)]), &black, enough, [25, 41]),
        (snapshot_bytes(2, &[(5, 64)]), &short, enough, [25, 42]),
        (vec![1, 0, 0], &short, enough, [41, 42]),
        (vec![3, 0, 0], &short, enough, [41, 42]),
        (vec![1, 0, 0], &black, less, [41, 43]),
        (vec![2, 0, 0], &short, less, [42, 43]),
    ];
    for (snapshot, wanted, room, [number, _]) in cases {
        assert_call_refused(&snapshot, wanted, room, number);
    }
    // At the lower index a bad value comes before a bad place, as in a run.
    let snapshot = snapshot_bytes(2, &[(5, 0), (5, 1)]);
    assert_call_refused(&snapshot, &black, enough, 25);
}

#[test]
fn refusal_41_of_the_call_is_chip_1s_and_3s_and_21_every_other_chips() {
    let black = [0; WANTED_BYTES];
    for chip in not_built() {
        assert_call_refused(&[chip, 0, 0], &black, WRITES_BYTES, 21);
    }
    let painted = snapshot_bytes(1, &[(0, 255), (788, 127)]);
    let loaded = snapshot_bytes(3, &[(0, 15), (85, 15)]);
    for snapshot in [&[1, 0, 0], &[3, 0, 0], &painted[..], &loaded] {
        assert_call_refused(snapshot, &black, WRITES_BYTES, 41);
        assert_call_refused(snapshot, &[], 0, 41);
    }
}

#[test]
fn the_call_on_byte_strings_is_the_call_on_a_state() {
    let mut random = Random::seeded(0x5EED_0065);
    let (mut lists, mut empty) = (0, 0);
    for _ in 0..400 {
        let state = random_chip(&mut random);
        let shape = random.pick(&SHAPES);
        let entries = entries_of_shape(&mut random, shape);
        let wanted = wanted_with(&mut random, &state, &entries);
        let list = plan(&state, &wanted, WRITES_BYTES).unwrap();
        let bytes: Vec<u8> = list.iter().flat_map(|w| [w.selector, w.byte]).collect();
        let snapshot = save(&state).unwrap();
        let room = WRITES_BYTES + random.below(9);
        assert_call_gives(&snapshot, &wanted, room, &bytes);
        if list.is_empty() {
            empty += 1;
        } else {
            lists += 1;
        }
        // Cut short, the snapshot is refused and nothing is written.
        let cut = random.below(snapshot.len());
        let number = if cut < 3 { 20 } else { 23 };
        assert_call_refused(&snapshot[..cut], &wanted, room, number);
    }
    assert!(lists > 300, "{lists}");
    assert!(empty > 20, "{empty}");
}
