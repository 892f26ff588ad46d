//! That no list of accesses to a wanted table is shorter than document 02's Note
//! 6 has it: a search through lists on small cases, by brute force. The search
//! knows chip 2 by the model's events alone, and nothing of the planner.
//!
//! A rival is any list of accesses, with reads, loads, refused ones and mask
//! writes among them, that starts with a write of selector 0 or 3.

use crate::common::Bench;
use kit::{load, nonzero, p2, read, rs, write};
use model::{event, fewest_accesses, kind, plan, plan_fault, Event, State, Write};
use std::collections::{BTreeSet, HashSet};

/// Bytes of a result buffer.
const WRITES_BYTES: usize = 1538;

/// A state: the places that aren't 0, and their values.
type Key = Vec<(u16, u8)>;

/// Lists of accesses to wanted colours from any of the starts.
struct Search {
    starts: Vec<State>,
    wanted: Vec<u8>,
    /// What a list may start with.
    first: Vec<Event>,
    /// What may follow.
    later: Vec<Event>,
    /// Whether states too far from the wanted colours are passed over.
    pruned: bool,
}

impl Search {
    /// The least number of accesses, up to `most`, after which the colours are
    /// the wanted ones. Breadth first; a state met before is passed over, as it
    /// was met after as many accesses or fewer and every list may go on from it.
    fn shortest(&self, most: usize) -> Option<usize> {
        let mut level = self.first_level(most - 1);
        let mut met = level.clone();
        for count in 1..=most {
            if level.iter().any(|key| self.differing(&places(key)) == 0) {
                return Some(count);
            }
            if count < most {
                level = self.next_level(&level, most - count - 1);
                level.retain(|key| met.insert(key.clone()));
            }
        }
        None
    }

    /// The states after one access, `left` more being left.
    fn first_level(&self, left: usize) -> HashSet<Key> {
        let steps = |start| self.steps(start, &self.first, left);
        self.starts.iter().flat_map(steps).collect()
    }

    /// The states one access further on, `left` more being left.
    fn next_level(&self, level: &HashSet<Key>, left: usize) -> HashSet<Key> {
        let states = level
            .iter()
            .map(|key| State::from_places(2, &places(key)).unwrap());
        let steps = |state| self.steps(&state, &self.later, left);
        states.flat_map(steps).collect()
    }

    /// The states that each access leads to, but those that are passed over.
    ///
    /// That rests on one fact, which is required of every access tried: it
    /// lessens the number of entries that differ by 1 at most. So with more
    /// entries that differ than accesses left, no list gets there in time.
    fn steps(&self, state: &State, accesses: &[Event], left: usize) -> Vec<Key> {
        let before = self.differing(&state.places());
        let mut keys = Vec::new();
        for access in accesses {
            let (_, next) = event(state, access.kind, &access.operand);
            let places = next.places();
            let after = self.differing(&places);
            assert!(after + 1 >= before, "{access:?}");
            if after <= left || !self.pruned {
                keys.push(nonzero(&places));
            }
        }
        keys
    }

    /// How many entries aren't as wanted.
    fn differing(&self, places: &[u8]) -> usize {
        let entries = places.chunks_exact(3).zip(self.wanted.chunks_exact(3));
        entries.filter(|(now, wanted)| now != wanted).count()
    }
}

fn places(key: &Key) -> Vec<u8> {
    let mut places = vec![0; p2::COUNT];
    for &(place, value) in key {
        places[usize::from(place)] = value;
    }
    places
}

/// Address writes of both selectors from one before each entry to one behind it.
fn address_writes(entries: &[u8]) -> Vec<Event> {
    let near: BTreeSet<u8> = entries
        .iter()
        .flat_map(|entry| [entry.wrapping_sub(1), *entry, entry.wrapping_add(1)])
        .collect();
    let modes = [rs::WRITE_MODE, rs::READ_MODE];
    let writes = modes.map(|mode| near.iter().map(move |&address| write(mode, address)));
    writes.into_iter().flatten().collect()
}

/// Address writes near the entries, and accesses of every other sort: colour
/// writes of these bytes, one of them with a bit set that is dropped, a mask
/// write, every read, a load, and selectors that are refused.
fn all_accesses(entries: &[u8], bytes: &BTreeSet<u8>) -> Vec<Event> {
    let mut accesses = address_writes(entries);
    accesses.extend(bytes.iter().map(|&byte| write(rs::CLT, byte)));
    accesses.extend(bytes.last().map(|&byte| write(rs::CLT, 0x40 | byte)));
    accesses.push(write(rs::PIXEL_MASK, 0xAD));
    accesses.extend((0..=4).map(read));
    accesses.extend([write(4, 0), load(1, 2)]);
    accesses
}

/// Colours of entries, the other entries being black.
type Colours<'a> = &'a [(u8, [u8; 3])];

fn table(colours: Colours) -> Vec<u8> {
    let mut table = vec![0; 768];
    for &(entry, colour) in colours {
        table[3 * usize::from(entry)..][..3].copy_from_slice(&colour);
    }
    table
}

/// A chip with these colours, ready for this entry and component, in this
/// direction.
fn chip(now: Colours, [address, position, direction]: [u8; 3], held: [u8; 2]) -> State {
    let mut chip = Bench::with_places(
        2,
        &[
            (p2::ADDRESS, address),
            (p2::POSITION, position),
            (p2::DIRECTION, direction),
            (p2::HELD_RED, held[0]),
            (p2::HELD_GREEN, held[1]),
        ],
    );
    for &(entry, colour) in now {
        chip.set_entry(usize::from(entry), colour);
    }
    chip.state
}

/// Chips with these colours: addresses before, at and behind the entries, every
/// position, both directions; held bytes black or already as wanted.
fn starts(now: Colours, wanted: Colours) -> Vec<State> {
    let mut starts = Vec::new();
    for &(entry, [red, green, _]) in wanted {
        for address in [entry.wrapping_sub(1), entry, entry.wrapping_add(1)] {
            for position in 0..3 {
                for direction in 0..2 {
                    let counters = [address, position, direction];
                    starts.push(chip(now, counters, [0, 0]));
                    starts.push(chip(now, counters, [red, green]));
                }
            }
        }
    }
    starts
}

/// All lists from these starts to the wanted colours, the first access being an
/// address write. Colour bytes are those of the wanted table.
fn rivals(starts: Vec<State>, wanted: Colours) -> Search {
    let entries: Vec<u8> = wanted.iter().map(|&(entry, _)| entry).collect();
    let wanted = table(wanted);
    let bytes = wanted.iter().copied().collect();
    Search {
        starts,
        wanted,
        first: address_writes(&entries),
        later: all_accesses(&entries, &bytes),
        pruned: true,
    }
}

/// From every start, the planner's list has this many accesses and no fault; and
/// the search finds a list of this many and none shorter.
fn assert_fewest(now: Colours, wanted: Colours, fewest: usize) {
    let starts = starts(now, wanted);
    let wanted_bytes = table(wanted);
    for start in &starts {
        assert_eq!(fewest_accesses(start, &wanted_bytes), Some(fewest));
        let list = plan(start, &wanted_bytes, WRITES_BYTES).unwrap();
        assert_eq!(list.len(), fewest, "{wanted:?}");
        assert_eq!(plan_fault(start, &wanted_bytes, &list), None);
    }
    let shortest = rivals(starts, wanted).shortest(fewest);
    assert_eq!(shortest, Some(fewest), "{now:?} {wanted:?}");
}

#[test]
fn one_entry_takes_4() {
    for entry in [7, 0, 255] {
        assert_fewest(&[], &[(entry, [1, 2, 3])], 4);
    }
    // Back to black.
    assert_fewest(&[(7, [1, 2, 3])], &[(7, [0, 0, 0])], 4);
}

#[test]
fn one_component_takes_4() {
    for colour in [[9, 2, 3], [1, 9, 3], [1, 2, 9]] {
        assert_fewest(&[(7, [1, 2, 3])], &[(7, colour)], 4);
    }
}

#[test]
fn two_neighbours_take_7() {
    assert_fewest(&[], &[(7, [1, 2, 3]), (8, [1, 2, 3])], 7);
    assert_fewest(&[], &[(7, [1, 1, 2]), (8, [2, 1, 1])], 7);
    // The second differs in its blue alone.
    assert_fewest(&[(8, [1, 1, 2])], &[(7, [1, 1, 2]), (8, [1, 1, 1])], 7);
}

#[test]
fn entries_255_and_0_are_neighbours_and_take_7() {
    assert_fewest(&[], &[(255, [1, 1, 2]), (0, [2, 1, 1])], 7);
    // Entry 0 differs in its red alone.
    assert_fewest(&[(0, [2, 1, 1])], &[(255, [1, 1, 1]), (0, [1, 1, 1])], 7);
}

#[test]
fn two_entries_with_an_equal_one_between_take_8() {
    assert_fewest(&[], &[(7, [1, 1, 2]), (9, [2, 1, 1])], 8);
    assert_fewest(&[], &[(255, [1, 1, 1]), (1, [1, 1, 1])], 8);
    // The one between has the colour that its neighbours shall have.
    let between = (8, [1, 1, 1]);
    let wanted = [(7, [1, 1, 1]), between, (9, [1, 1, 1])];
    assert_fewest(&[between], &wanted, 8);
}

#[test]
fn three_in_a_row_across_255_and_0_take_10() {
    let grey = [1, 1, 1];
    assert_fewest(&[], &[(254, grey), (255, grey), (0, grey)], 10);
}

#[test]
fn passing_states_over_changes_no_result() {
    let grey = [1, 1, 1];
    let cases: [(Colours, usize); 3] = [
        (&[(7, [1, 2, 3])], 4),
        (&[(7, [0, 0, 3])], 4),
        (&[(7, grey), (8, grey)], 7),
    ];
    for (wanted, fewest) in cases {
        let mut search = rivals(starts(&[], wanted), wanted);
        search.pruned = false;
        assert_eq!(search.shortest(fewest), Some(fewest), "{wanted:?}");
        assert_eq!(search.shortest(fewest - 1), None, "{wanted:?}");
    }
}

#[test]
fn without_an_address_write_at_its_start_a_list_can_be_shorter() {
    let one: Colours = &[(7, [1, 2, 3])];
    let apart: Colours = &[(7, [1, 1, 1]), (9, [1, 1, 1])];
    // Wanted; address, position and direction; held bytes; how many accesses a
    // list takes that starts with anything, and one that starts with an address
    // write.
    let cases = [
        (one, [7, 2, 0], [1, 2], [1, 4]),
        (one, [7, 1, 0], [1, 0], [2, 4]),
        (one, [7, 0, 0], [0, 0], [3, 4]),
        // Held bytes that aren't wanted, another entry, direction read.
        (one, [7, 2, 0], [1, 0], [4, 4]),
        (one, [7, 1, 0], [0, 2], [4, 4]),
        (one, [8, 2, 0], [1, 2], [4, 4]),
        (one, [7, 2, 1], [1, 2], [4, 4]),
        (apart, [7, 2, 0], [1, 1], [5, 8]),
        (apart, [9, 0, 0], [0, 0], [7, 8]),
    ];
    for (wanted, counters, held, [shortest, fewest]) in cases {
        let start = chip(&[], counters, held);
        assert_eq!(fewest_accesses(&start, &table(wanted)), Some(fewest));
        let mut search = rivals(vec![start], wanted);
        assert_eq!(
            search.shortest(shortest),
            (shortest == fewest).then_some(fewest)
        );
        search.first = search.later.clone();
        assert_eq!(search.shortest(shortest), Some(shortest), "{counters:?}");
    }
    // The one write of the first case. Note 6 rules it out.
    let start = chip(&[], [7, 2, 0], [1, 2]);
    let (answer, end) = event(&start, kind::WRITE, &write(rs::CLT, 3).operand);
    assert_eq!((answer[0], &end.places()[..768]), (0, &table(one)[..]));
    let blue = Write {
        selector: rs::CLT,
        byte: 3,
    };
    assert!(plan_fault(&start, &table(one), &[blue]).is_some());
}
