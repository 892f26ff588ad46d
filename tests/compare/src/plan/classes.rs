//! The classes of the plan. Each makes cases; a case decides nothing about what
//! is right, the model does.

use crate::classes::{places_alone, scramble};
use crate::compared::{class, Class, Sweep};
use crate::damage::{damaged_snapshot, snapshot_with_two_faults, SNAPSHOT_FAULTS};
use crate::damage::{one_and_two, some_faults};
use crate::plan::case::Case;
use crate::plan::faults::{accepted, planted, BEHIND_THE_SNAPSHOT};
use crate::plan::wanted::{self, another, differing, in_run, LARGEST};
use kit::{nonzero, p2, snapshot_bytes, Random, CHIPS};
use kit::{PLAN_CHIP, WANTED_BYTES, WANTED_ENTRIES, WRITES_BYTES};
use model::Refusal;

pub const RANDOM: &[Class<Case>] = &[
    class("plan: colours of another state", 40, accepted),
    class("plan: nothing differs", 30, nothing),
    class("plan: entries that differ at random", 60, at_random),
    class("plan: runs with gaps of any length", 80, runs_and_gaps),
    class("plan: another chip", 40, |random| {
        planted(random, &[Refusal::PlanChip])
    }),
    class("plan: wanted bytes that are refused", 40, |random| {
        planted(random, &[Refusal::Wanted])
    }),
    class("plan: damaged snapshot", 120, |random| {
        let (chip, fault) = (random.chip(), random.pick(&SNAPSHOT_FAULTS));
        let snapshot = damaged_snapshot(random, chip, fault);
        with_snapshot(random, snapshot)
    }),
    class("plan: two faults of a snapshot", 60, |random| {
        let chip = random.chip();
        let snapshot = snapshot_with_two_faults(random, chip);
        with_snapshot(random, snapshot)
    }),
    class("plan: several faults at once", 150, several_faults),
    class("plan: buffers exact and longer", 60, longer_buffers),
    class("plan: any bytes", 100, any_bytes),
];

/// Some wanted colours from this snapshot.
fn with_snapshot(random: &mut Random, snapshot: Vec<u8>) -> Case {
    Case {
        snapshot,
        ..accepted(random)
    }
}

/// The wanted colours differ from those of the places in just these entries.
fn from(random: &mut Random, places: &[u8], is: impl Fn(usize) -> bool) -> Case {
    let wanted = differing(random, places, is);
    let snapshot = snapshot_bytes(PLAN_CHIP, &nonzero(places));
    Case::exact(snapshot, wanted, random)
}

/// The same from some state.
fn from_any(random: &mut Random, is: impl Fn(usize) -> bool) -> Case {
    let places = random.places(PLAN_CHIP);
    from(random, &places, is)
}

fn nothing(random: &mut Random) -> Case {
    from_any(random, |_| false)
}

fn at_random(random: &mut Random) -> Case {
    let differs = wanted::at_random(random);
    from_any(random, |entry| differs[entry])
}

fn runs_and_gaps(random: &mut Random) -> Case {
    let differs = wanted::runs_and_gaps(random);
    from_any(random, |entry| differs[entry])
}

fn several_faults(random: &mut Random) -> Case {
    let faults = some_faults(random, &BEHIND_THE_SNAPSHOT);
    planted(random, &faults)
}

fn longer_buffers(random: &mut Random) -> Case {
    let mut case = at_random(random);
    case.writes_len += random.pick(&[0, 1, 2, 18, 400]);
    case
}

/// Accepted bytes with some changed, cut or added, or no sense at all.
fn any_bytes(random: &mut Random) -> Case {
    let mut case = accepted(random);
    if random.one_in(2) {
        scramble(random, &mut case.snapshot);
    } else {
        scramble(random, &mut case.wanted);
    }
    case
}

pub const SWEEPS: &[Sweep<Case>] = &[
    Sweep {
        name: "plan: every entry by itself",
        cases: every_entry,
    },
    Sweep {
        name: "plan: every component by itself",
        cases: every_component,
    },
    Sweep {
        name: "plan: every pair of neighbours",
        cases: every_pair,
    },
    Sweep {
        name: "plan: runs about 255 and 0",
        cases: about_the_end,
    },
    Sweep {
        name: "plan: one run from every entry on",
        cases: every_run,
    },
    Sweep {
        name: "plan: runs with one equal entry between them",
        cases: one_equal_between,
    },
    Sweep {
        name: "plan: all 256 entries, and all but one",
        cases: all_and_all_but_one,
    },
    Sweep {
        name: "plan: every address, position and direction",
        cases: every_start,
    },
    Sweep {
        name: "plan: every wanted byte: largest value, one more",
        cases: every_wanted_byte,
    },
    Sweep {
        name: "plan: every place: largest value, one more, 0",
        cases: every_place,
    },
    Sweep {
        name: "plan: every chip byte",
        cases: every_chip_byte,
    },
    Sweep {
        name: "plan: lengths of wanted bytes and buffer",
        cases: every_length,
    },
    Sweep {
        name: "plan: room for the list alone",
        cases: own_length,
    },
    Sweep {
        name: "plan: empty byte strings, null or not",
        cases: empty_strings,
    },
    Sweep {
        name: "plan: each refusal alone and before each later one",
        cases: each_refusal,
    },
];

fn every_entry(random: &mut Random) -> Vec<Case> {
    let entries = 0..WANTED_ENTRIES;
    entries.map(|n| from_any(random, |e| e == n)).collect()
}

fn every_component(random: &mut Random) -> Vec<Case> {
    let mut cases = Vec::new();
    for place in 0..WANTED_BYTES {
        let mut case = nothing(random);
        case.wanted[place] = another(random, case.wanted[place]);
        cases.push(case);
    }
    cases
}

fn every_pair(random: &mut Random) -> Vec<Case> {
    let firsts = 0..WANTED_ENTRIES;
    firsts
        .map(|first| from_any(random, |e| in_run(e, first, 2)))
        .collect()
}

/// Any of 253 to 255 and 0 to 2, and of the other entries none, some or all.
fn about_the_end(random: &mut Random) -> Vec<Case> {
    const FIRST: usize = WANTED_ENTRIES - 3;
    let mut cases = Vec::new();
    for ends in 0..64 {
        for rest in 0..3 {
            let others = random.next();
            cases.push(from_any(random, |entry| {
                match (entry + WANTED_ENTRIES - FIRST) % WANTED_ENTRIES {
                    end @ 0..=5 => ends >> end & 1 == 1,
                    other => [false, others >> (other % 61) & 1 == 1, true][rest],
                }
            }));
        }
    }
    cases
}

/// Mostly short ones: a long list takes its time.
fn every_run(random: &mut Random) -> Vec<Case> {
    let mut cases = Vec::new();
    for first in 0..WANTED_ENTRIES {
        let long = random.pick(&[32, 127, 128, 254]);
        let counts = if first % 8 == 0 {
            vec![3, long]
        } else {
            vec![3]
        };
        for count in counts {
            cases.push(from_any(random, |e| in_run(e, first, count)));
        }
    }
    cases
}

/// Two runs about each entry that is equal; then every second and every third
/// entry, from each of the first on.
fn one_equal_between(random: &mut Random) -> Vec<Case> {
    let mut cases = Vec::new();
    for equal in 0..WANTED_ENTRIES {
        let count = random.pick(&[3, 5, 9]);
        let first = (equal + WANTED_ENTRIES - count / 2) % WANTED_ENTRIES;
        cases.push(from_any(random, |e| e != equal && in_run(e, first, count)));
    }
    for (apart, from) in [(2, 0), (2, 1), (3, 0), (3, 1), (3, 2)] {
        cases.push(from_any(random, |e| e % apart == from));
        cases.push(from_any(random, |e| e % apart != from));
    }
    cases
}

fn all_and_all_but_one(random: &mut Random) -> Vec<Case> {
    let mut cases = Vec::new();
    for equal in 0..WANTED_ENTRIES {
        cases.push(from_any(random, |e| e != equal));
        if equal % 16 == 0 {
            cases.push(from_any(random, |_| true));
        }
    }
    cases
}

/// With any held bytes and any mask.
fn every_start(random: &mut Random) -> Vec<Case> {
    let mut cases = Vec::new();
    for address in 0..=255 {
        for (position, direction) in (0..3).flat_map(|position| [(position, 0), (position, 1)]) {
            let mut places = random.places(PLAN_CHIP);
            places[p2::ADDRESS] = address;
            places[p2::POSITION] = position;
            places[p2::DIRECTION] = direction;
            places[p2::HELD_RED] = random.up_to(LARGEST);
            places[p2::HELD_GREEN] = random.up_to(LARGEST);
            places[p2::MASK] = random.byte();
            let first = random.below(WANTED_ENTRIES);
            let counts = [random.below(4), random.below(4)];
            cases.push(from(random, &places, |e| {
                in_run(e, first, counts[0]) || in_run(e, address.into(), counts[1])
            }));
        }
    }
    cases
}

fn every_wanted_byte(random: &mut Random) -> Vec<Case> {
    let mut values = Vec::new();
    for place in 0..WANTED_BYTES {
        values.extend([LARGEST, LARGEST + 1].map(|byte| (place, byte)));
    }
    for byte in 0..=255 {
        let any = random.below(WANTED_BYTES);
        values.extend([0, any, WANTED_BYTES - 1].map(|place| (place, byte)));
    }
    let mut cases = Vec::new();
    for (place, byte) in values {
        let mut case = nothing(random);
        case.wanted[place] = byte;
        cases.push(case);
    }
    cases
}

/// All wanted colours are black.
fn every_place(random: &mut Random) -> Vec<Case> {
    let snapshots = places_alone().into_iter();
    let black = |snapshot| Case::exact(snapshot, vec![0; WANTED_BYTES], random);
    snapshots.map(black).collect()
}

/// With nothing else at fault, and with each fault that is looked for behind
/// the chip's.
fn every_chip_byte(random: &mut Random) -> Vec<Case> {
    let behind = BEHIND_THE_SNAPSHOT[1..].iter().map(|&fault| vec![fault]);
    let faults: Vec<Vec<Refusal>> = behind.chain([vec![]]).collect();
    let mut cases = Vec::new();
    for chip in 0..=255 {
        for faults in &faults {
            let mut case = planted(random, faults);
            case.snapshot = vec![chip, 0, 0];
            cases.push(case);
        }
    }
    cases
}

/// Lengths at the ends, about what is asked for, and so for other sizes that a
/// list or a table might be taken to have.
fn every_length(random: &mut Random) -> Vec<Case> {
    let mut wanted = vec![0, 1, 3, 255, 256, 257, 2 * WANTED_BYTES, 4096];
    wanted.extend(WANTED_BYTES - 3..=WANTED_BYTES + 3);
    let mut writes = vec![0, 1, 2, WANTED_BYTES, 769, 2 * WANTED_BYTES, 4096];
    writes.extend(WRITES_BYTES - 3..=WRITES_BYTES + 3);
    let mut cases = Vec::new();
    for chip in CHIPS {
        for &wanted_len in &wanted {
            for &writes_len in &writes {
                let snapshot = random.snapshot(chip);
                let mut case = with_snapshot(random, snapshot);
                case.wanted.resize(wanted_len, random.up_to(LARGEST));
                case.writes_len = writes_len;
                cases.push(case);
            }
        }
    }
    cases
}

/// Runs of no entry to all 256, with room for just their list: too little but
/// for the longest.
fn own_length(random: &mut Random) -> Vec<Case> {
    let mut cases = Vec::new();
    for count in 0..=WANTED_ENTRIES {
        let first = random.below(WANTED_ENTRIES);
        let list = 2 * (3 * count + usize::from(count > 0));
        for writes_len in [list, list + 1] {
            cases.push(Case {
                writes_len,
                ..from_any(random, |e| in_run(e, first, count))
            });
        }
    }
    cases
}

/// Each of the three byte strings empty or not, as a null pointer or not.
fn empty_strings(random: &mut Random) -> Vec<Case> {
    let mut cases = Vec::new();
    for (chip, null_if_empty) in CHIPS
        .into_iter()
        .flat_map(|chip| [(chip, false), (chip, true)])
    {
        for empty in 0..8 {
            let mut case = with_snapshot(random, vec![chip, 0, 0]);
            case.null_if_empty = null_if_empty;
            if empty & 1 != 0 {
                case.snapshot.clear();
            }
            if empty & 2 != 0 {
                case.wanted.clear();
            }
            if empty & 4 != 0 {
                case.writes_len = 0;
            }
            cases.push(case);
        }
    }
    cases
}

fn each_refusal(random: &mut Random) -> Vec<Case> {
    const TIMES: usize = 20;
    let mut cases = Vec::new();
    for faults in one_and_two(&BEHIND_THE_SNAPSHOT) {
        cases.extend((0..TIMES).map(|_| planted(random, &faults)));
    }
    cases
}

#[cfg(test)]
mod tests {
    //! What the sweeps come to, by the model alone: they need no library.

    use super::*;
    use crate::compared::Compared;
    use crate::report::{Shown, PLANS};
    use kit::MOST_ACCESSES;
    use model::restore;
    use std::collections::{BTreeMap, BTreeSet};

    /// How many cases of a sweep have a list of each length, and how many are
    /// refused for each reason.
    fn results(cases: &[Case]) -> BTreeMap<u64, usize> {
        let mut results = BTreeMap::new();
        for case in cases {
            *results.entry(case.run_model().result).or_insert(0) += 1;
        }
        results
    }

    /// The components in which an entry differs, as bits.
    fn components(case: &Case, entry: usize) -> u8 {
        let places = restore(&case.snapshot).state.places();
        let differs = |&bit: &usize| places[3 * entry + bit] != case.wanted[3 * entry + bit];
        (0..3).filter(differs).map(|bit| 1 << bit).sum()
    }

    #[test]
    fn just_the_named_entries_differ_in_any_components() {
        let mut seen = BTreeSet::new();
        for (first, case) in every_pair(&mut Random::seeded(1)).iter().enumerate() {
            for entry in 0..WANTED_ENTRIES {
                let is = entry == first || entry == (first + 1) % WANTED_ENTRIES;
                assert_eq!(components(case, entry) != 0, is, "{first}: {entry}");
                seen.insert(components(case, entry));
            }
        }
        assert!(seen.into_iter().eq(0..8));
    }

    #[test]
    fn sweeps_of_known_lists() {
        let mut random = Random::seeded(1);
        let mut of = |sweep: fn(&mut Random) -> Vec<Case>| results(&sweep(&mut random));
        assert_eq!(of(every_entry), BTreeMap::from([(4, 256)]));
        assert_eq!(of(every_component), BTreeMap::from([(4, 768)]));
        assert_eq!(of(every_pair), BTreeMap::from([(7, 256)]));
        let all_but_one = (3 * 255 + 1, 256);
        let all = (MOST_ACCESSES as u64, 16);
        assert_eq!(of(all_and_all_but_one), BTreeMap::from([all_but_one, all]));
        // Too little room but for the longest list, with and without a byte more.
        let refused = (43 << 16, 2 * 256);
        let longest = (MOST_ACCESSES as u64, 2);
        assert_eq!(of(own_length), BTreeMap::from([refused, longest]));
    }

    #[test]
    fn entries_about_the_end_differ_in_every_way_beside_others_and_alone() {
        let mut seen = BTreeSet::new();
        for case in about_the_end(&mut Random::seeded(1)) {
            let differs = |entry: usize| components(&case, entry) != 0;
            let others = (3..253).filter(|&entry| differs(entry)).count();
            let rest = match others {
                0 => "none",
                250 => "all",
                _ => "some",
            };
            seen.insert(([253, 254, 255, 0, 1, 2].map(differs), rest));
        }
        assert_eq!(seen.len(), 64 * 3);
    }

    #[test]
    fn every_start_is_one_of_its_own() {
        let cases = every_start(&mut Random::seeded(1));
        let starts = cases.iter().map(|case| {
            let places = restore(&case.snapshot).state.places();
            places[p2::ADDRESS..=p2::DIRECTION].to_vec()
        });
        assert_eq!(starts.collect::<BTreeSet<_>>().len(), 256 * 3 * 2);
        let empty = results(&cases).get(&0).copied().unwrap_or(0);
        assert!(empty < cases.len() / 8, "{empty} lists are empty");
    }

    #[test]
    fn the_refusals_that_are_planted_are_those_of_the_table() {
        let listed: BTreeSet<Shown> = PLANS.rows.iter().map(|row| row.shown).collect();
        for seed in 0..5 {
            let cases = each_refusal(&mut Random::seeded(seed));
            let shown = cases.iter().flat_map(|case| case.shown(&case.run_model()));
            let mut shown: BTreeSet<Shown> = shown.collect();
            // None of these cases is accepted.
            assert!(shown.insert((0, 0)));
            assert_eq!(shown, listed, "seed {seed}");
        }
    }
}
