//! Demand 3, checked on the library itself: two logs with the same accesses in
//! the same order and the same display events in the same order, shuffled
//! together freely, saves anywhere, give every access but 07h reads the same answer
//! and leave the same values in all places that ticks don't move. If painting
//! accesses that belong together have equally many display events before them,
//! every tick is answered alike too, and so is each 07h read that has equally many
//! before it in both logs; of the others, and without the condition, a half of a
//! code may differ. The end snapshots are the same if the condition holds, and
//! without it on chips that ticks don't move.
//!
//! The library's own answers are compared with each other. The model only says
//! which accesses paint and which are 07h reads, for that is a matter of the log
//! and not of its run.

use crate::case::Case;
use crate::classes::test_register::{diagnostics, places_at_07h};
use crate::compared::Compared;
use kit::{before_painting, free_shuffle, hexadecimal, log_bytes, painting_shuffle};
use kit::{c, p1, read, taken_together, write};
use kit::{is_access, is_display, is_save, is_tick, only, save, with_saves, Random, Sort};
use kit::{nonzero, p3, place_values, places_that_ticks_move, snapshot_bytes, tick};
use model::{painting_accesses, test_register_reads};
use model::{Event, ANSWER_BYTES, END_BUFFER_BYTES, MOST_EVENTS};

/// A sort of pair of logs.
pub struct Shuffle {
    pub name: &'static str,
    /// Pairs in a round.
    pub pairs: usize,
    pub make: fn(&mut Random) -> Pair,
}

pub const SHUFFLES: &[Shuffle] = &[
    Shuffle {
        name: "demand 3: free shuffles, chip 1",
        pairs: 60,
        make: |random| free(random, 1),
    },
    Shuffle {
        name: "demand 3: free shuffles, chip 2",
        pairs: 60,
        make: |random| free(random, 2),
    },
    Shuffle {
        name: "demand 3: free shuffles, chip 3",
        pairs: 60,
        make: |random| free(random, 3),
    },
    Shuffle {
        name: "demand 3: painting kept, chip 1",
        pairs: 60,
        make: |random| painting_kept(random, 1),
    },
    Shuffle {
        name: "demand 3: painting kept, chip 2",
        pairs: 60,
        make: |random| painting_kept(random, 2),
    },
    Shuffle {
        name: "demand 3: painting kept, chip 3",
        pairs: 60,
        make: |random| painting_kept(random, 3),
    },
    Shuffle {
        name: "demand 3: 07h reads shuffled freely",
        pairs: 60,
        make: |random| diagnosed(random, Keep::Nothing),
    },
    Shuffle {
        name: "demand 3: 07h reads, painting kept",
        pairs: 60,
        make: |random| diagnosed(random, Keep::Painting),
    },
    Shuffle {
        name: "demand 3: 07h reads, painting and one of them kept",
        pairs: 60,
        make: |random| diagnosed(random, Keep::PaintingAndOneRead),
    },
    Shuffle {
        name: "demand 3: painting and all 07h reads kept, taken together",
        pairs: 60,
        make: |random| diagnosed(random, Keep::PaintingAndReads),
    },
    Shuffle {
        name: "demand 3: a 07h read past the last tick",
        pairs: 20,
        make: read_past_tick,
    },
    Shuffle {
        name: "demand 3: the last tick past the last painting write, chip 1",
        pairs: 20,
        make: tick_past_write,
    },
    Shuffle {
        name: "demand 3: the last tick past the last second load, chip 3",
        pairs: 20,
        make: tick_past_load,
    },
    Shuffle {
        name: "demand 3: saves moved",
        pairs: 60,
        make: saves_moved,
    },
    Shuffle {
        name: "demand 3: saves added",
        pairs: 60,
        make: saves_added,
    },
    Shuffle {
        name: "demand 3: saves removed",
        pairs: 60,
        make: saves_removed,
    },
    Shuffle {
        name: "demand 3: logs near the limit",
        pairs: 1,
        make: near_the_limit,
    },
];

/// Two logs from one snapshot.
#[derive(Clone)]
pub struct Pair {
    pub chip: u8,
    pub snapshot: Vec<u8>,
    pub one: Vec<Event>,
    pub two: Vec<Event>,
    pub layout: u64,
}

/// What pairs must have shown, so that no condition is there for nothing and none
/// holds of nothing.
pub const SHOWN: &[&str] = &[
    TICKS_COMPARED,
    TICK_DIFFERS,
    END_DIFFERS_1,
    END_DIFFERS_3,
    READ_COMPARED,
    READS_TOGETHER,
    READ_DIFFERS,
    READ_SEES_PAINTING,
];

const TICKS_COMPARED: &str = "demand 3: painting kept, ticks compared";
const TICK_DIFFERS: &str = "demand 3: painting not kept, a tick differs";
/// At the places that ticks move, and nowhere else.
const END_DIFFERS_1: &str = "demand 3: painting not kept, an end differs in 789 to 791, chip 1";
const END_DIFFERS_3: &str = "demand 3: painting not kept, an end differs in 83 to 85, chip 3";
/// Of 07h reads that show a half which isn't 0.
const READ_COMPARED: &str = "demand 3: painting and a 07h read kept, its byte compared";
const READS_TOGETHER: &str = "demand 3: painting and 07h reads taken together, all bytes compared";
const READ_DIFFERS: &str = "demand 3: painting kept and a 07h read not, its byte differs";
const READ_SEES_PAINTING: &str = "demand 3: a 07h read kept and painting not, its byte differs";

/// How often saves are put between events: many, or one now and then.
const OFTEN: [usize; 3] = [2, 4, 20];

fn start(random: &mut Random, chip: u8) -> (Vec<u8>, Vec<Event>) {
    let snapshot = random.snapshot(chip);
    let count = random.pick(&[6, 20, 45]);
    let events = random.events_without_saves(chip, count);
    (snapshot, events)
}

fn free(random: &mut Random, chip: u8) -> Pair {
    let (snapshot, events) = start(random, chip);
    let shuffled = free_shuffle(random, &events);
    pair(random, chip, snapshot, events, shuffled)
}

fn painting_kept(random: &mut Random, chip: u8) -> Pair {
    let (snapshot, events) = start(random, chip);
    let painting = painting(chip, &snapshot, &events);
    let shuffled = painting_shuffle(random, &events, &painting);
    pair(random, chip, snapshot, events, shuffled)
}

/// Which accesses keep their display events in a shuffle.
#[derive(Clone, Copy)]
enum Keep {
    Nothing,
    Painting,
    PaintingAndOneRead,
    PaintingAndReads,
}

/// Chip 1: 07h reads between ticks and painting. Some have saves in the other log.
fn diagnosed(random: &mut Random, keep: Keep) -> Pair {
    let snapshot = snapshot_bytes(1, &nonzero(&places_at_07h(random)));
    let count = random.pick(&[6, 20, 45]);
    let events = diagnostics(random, count);
    let painting = painting(1, &snapshot, &events);
    let reads = reads(1, &snapshot, &events);
    let kept = match keep {
        Keep::Nothing => vec![],
        Keep::Painting => painting,
        Keep::PaintingAndOneRead if reads.is_empty() => painting,
        Keep::PaintingAndOneRead => taken_together(&painting, &[random.pick(&reads)]),
        Keep::PaintingAndReads => taken_together(&painting, &reads),
    };
    let mut shuffled = painting_shuffle(random, &events, &kept);
    if random.one_in(3) {
        shuffled = with_saves(random, &shuffled, 4);
    }
    pair(random, 1, snapshot, events, shuffled)
}

/// Chip 1: display events, then a 07h read and a tick, before it or behind it. No
/// access paints, so the end is the same.
fn read_past_tick(random: &mut Random) -> Pair {
    let snapshot = snapshot_bytes(1, &nonzero(&places_at_07h(random)));
    let count = random.below(6);
    let before: Vec<Event> = (0..count).map(|_| random.display(1)).collect();
    let (read, shown) = (read(c::CONTROL), random.tick(1));
    let one = [&before[..], &[read, shown]].concat();
    let two = [&before[..], &[shown, read]].concat();
    pair(random, 1, snapshot, one, two)
}

/// Chip 1: display events, then a painting write and a tick that shows what it
/// paints, behind the write or before it; then a 07h read.
fn tick_past_write(random: &mut Random) -> Pair {
    let mut places = places_at_07h(random);
    // No plane blinks, and what is painted has a colour of its own.
    places[p1::BLINK_MASK] = 0;
    for place in [p1::HELD_RED, p1::HELD_GREEN, 3, 4, 5] {
        places[place] = random.byte();
    }
    let shown = tick([1, 1, 1, 1, 1, 0, 0, 1]);
    let painting = if random.one_in(2) {
        (places[p1::ADDRESS], places[p1::POSITION]) = (1, 2);
        write(c::PALETTE, random.byte())
    } else {
        places[p1::ADDRESS] = 6;
        write(c::CONTROL, places[p1::COMMAND] ^ 0x40)
    };
    let snapshot = snapshot_bytes(1, &nonzero(&places));
    let count = random.below(6);
    let before: Vec<Event> = (0..count).map(|_| random.display(1)).collect();
    let behind = [write(c::ADDRESS, 7), read(c::CONTROL)];
    let one = [&before[..], &[painting, shown], &behind].concat();
    let two = [&before[..], &[shown, painting], &behind].concat();
    pair(random, 1, snapshot, one, two)
}

/// Chip 3: display events, then a register's two loads and a tick that shows it,
/// behind the second load or before it.
fn tick_past_load(random: &mut Random) -> Pair {
    let register = random.up_to(15);
    let mut places = random.places(3);
    places[p3::LOAD_POSITION] = 2 * register;
    let snapshot = snapshot_bytes(3, &nonzero(&places));
    let count = random.below(6);
    let before: Vec<Event> = (0..count).map(|_| random.display(3)).collect();
    let [first, second] = [random.load(), random.load()];
    let shown = tick([register, register, 0, 0, 0, 0, 0, 1]);
    let one = [&before[..], &[first, second, shown]].concat();
    let two = [&before[..], &[first, shown, second]].concat();
    pair(random, 3, snapshot, one, two)
}

/// As many saves in both logs, at other places.
fn saves_moved(random: &mut Random) -> Pair {
    let chip = random.chip();
    let (snapshot, events) = start(random, chip);
    let saves = 1 + random.below(8);
    let (mut one, mut two) = (events.clone(), events);
    for _ in 0..saves {
        one.insert(random.below(one.len() + 1), save());
        two.insert(random.below(two.len() + 1), save());
    }
    pair(random, chip, snapshot, one, two)
}

fn saves_added(random: &mut Random) -> Pair {
    let chip = random.chip();
    let (snapshot, one) = start(random, chip);
    let often = random.pick(&OFTEN);
    let mut two = with_saves(random, &one, often);
    two.push(save());
    pair(random, chip, snapshot, one, two)
}

fn saves_removed(random: &mut Random) -> Pair {
    let chip = random.chip();
    let (snapshot, events) = start(random, chip);
    let often = random.pick(&OFTEN);
    let mut one = with_saves(random, &events, often);
    one.insert(0, save());
    pair(random, chip, snapshot, one, events)
}

/// Saves fill one log up to the limit; the other has none.
fn near_the_limit(random: &mut Random) -> Pair {
    let chip = random.chip();
    let snapshot = random.snapshot(chip);
    let mut one = random.events_without_saves(chip, MOST_EVENTS - 100);
    let painting = painting(chip, &snapshot, &one);
    let two = painting_shuffle(random, &one, &painting);
    while one.len() < MOST_EVENTS {
        one.insert(random.below(one.len() + 1), save());
    }
    pair(random, chip, snapshot, one, two)
}

fn pair(
    random: &mut Random,
    chip: u8,
    snapshot: Vec<u8>,
    one: Vec<Event>,
    two: Vec<Event>,
) -> Pair {
    Pair {
        chip,
        snapshot,
        one,
        two,
        layout: random.next(),
    }
}

fn painting(chip: u8, snapshot: &[u8], events: &[Event]) -> Vec<usize> {
    // Shrinking keeps pairs accepted, so this isn't refused.
    painting_accesses(snapshot, &log_bytes(chip, events)).unwrap_or_default()
}

/// The 07h reads of a log.
fn reads(chip: u8, snapshot: &[u8], events: &[Event]) -> Vec<usize> {
    test_register_reads(snapshot, &log_bytes(chip, events)).unwrap_or_default()
}

/// One of the two runs, by the library: the answers.
struct Played {
    /// Of all accesses but 07h reads.
    accesses: Vec<u8>,
    /// Of each 07h read.
    reads: Vec<Vec<u8>>,
    ticks: Vec<u8>,
    end: Vec<u8>,
}

/// The display events of one of the two logs before the accesses that demand 3
/// speaks of.
struct Displays {
    before_painting: Vec<usize>,
    before_reads: Vec<usize>,
    /// Before painting accesses and 07h reads, taken together.
    before_both: Vec<usize>,
}

/// A 07h read's answer but the half of a code that it shows.
fn without_half(answer: &[u8]) -> Vec<u8> {
    let mut rest = answer.to_vec();
    rest[1] &= 0x0F;
    rest
}

/// Whether a 07h read's answer shows a half that isn't 0.
fn shows_half(answer: &[u8]) -> bool {
    answer[1] >> 4 != 0
}

/// The 07h reads one by one, each kept or not: which of `SHOWN` they showed, or what
/// is wrong.
fn shown_by_reads(
    one: &Played,
    two: &Played,
    painting_kept: bool,
    reads_kept: &[bool],
) -> Result<Vec<&'static str>, String> {
    if one.reads.len() != two.reads.len() {
        return Err("not as many 07h reads in both logs".into());
    }
    let mut shown = Vec::new();
    for ((one, two), &read_kept) in one.reads.iter().zip(&two.reads).zip(reads_kept) {
        if without_half(one) != without_half(two) {
            return Err("a 07h read differs in more than a half of a code".into());
        }
        match (one == two, painting_kept, read_kept) {
            (false, true, true) => {
                let what = "a 07h read is answered differently although painting and it are kept";
                return Err(what.into());
            }
            (false, true, false) => shown.push(READ_DIFFERS),
            (false, false, true) => shown.push(READ_SEES_PAINTING),
            (true, true, true) if shows_half(one) => shown.push(READ_COMPARED),
            _ => {}
        }
    }
    shown.sort_unstable();
    shown.dedup();
    Ok(shown)
}

impl Pair {
    pub fn case(&self, events: &[Event]) -> Case {
        Case {
            snapshot: self.snapshot.clone(),
            log: log_bytes(self.chip, events),
            answers_len: ANSWER_BYTES * events.len(),
            end_len: END_BUFFER_BYTES,
            layout: self.layout,
            null_if_empty: false,
        }
    }

    fn play(&self, events: &[Event]) -> Result<Played, String> {
        let outcome = self.case(events).run_library();
        if outcome.result >> 16 != 0 {
            return Err(format!("refused with {}", outcome.result >> 16));
        }
        let reads = reads(self.chip, &self.snapshot, events);
        let answers: Vec<&[u8]> = outcome.answers().chunks_exact(ANSWER_BYTES).collect();
        let answers_to = |sort: Sort| -> Vec<u8> {
            let wanted = |&index: &usize| sort(&events[index]) && !reads.contains(&index);
            let indices = (0..events.len()).filter(wanted);
            indices.flat_map(|index| answers[index].to_vec()).collect()
        };
        let length = (outcome.result as usize).min(outcome.end().len());
        Ok(Played {
            accesses: answers_to(is_access),
            reads: reads.iter().map(|&index| answers[index].to_vec()).collect(),
            ticks: answers_to(is_tick),
            end: outcome.end()[..length].to_vec(),
        })
    }

    fn displays(&self, events: &[Event]) -> Displays {
        let painting = painting(self.chip, &self.snapshot, events);
        let reads = reads(self.chip, &self.snapshot, events);
        let before = |accesses: &[usize]| before_painting(events, accesses, is_display);
        Displays {
            before_painting: before(&painting),
            before_reads: before(&reads),
            before_both: before(&taken_together(&painting, &reads)),
        }
    }

    /// Demand 3 on the library: which of `SHOWN` the pair showed, or what is wrong.
    pub fn check(&self) -> Result<Vec<&'static str>, String> {
        let (one, two) = (self.play(&self.one)?, self.play(&self.two)?);
        let of_one = self.displays(&self.one);
        let of_two = self.displays(&self.two);
        let painting_kept = of_one.before_painting == of_two.before_painting;
        if one.accesses != two.accesses {
            return Err("accesses that belong together are answered differently".into());
        }
        if settled(self.chip, &one.end) != settled(self.chip, &two.end) {
            return Err("the ends differ at a place that ticks don't move".into());
        }
        let ticks_differ = one.ticks != two.ticks;
        if painting_kept && ticks_differ {
            return Err("ticks are answered differently although painting is kept".into());
        }
        let ends_differ = one.end != two.end;
        if ends_differ && (painting_kept || places_that_ticks_move(self.chip).is_empty()) {
            return Err("the end snapshots differ".into());
        }
        let both_kept = of_one.before_both == of_two.before_both;
        if both_kept && one.reads != two.reads {
            return Err("07h reads are answered differently although all are kept".into());
        }
        let reads_kept = of_one.before_reads.iter().zip(&of_two.before_reads);
        let reads_kept: Vec<bool> = reads_kept.map(|(one, two)| one == two).collect();
        let mut shown = shown_by_reads(&one, &two, painting_kept, &reads_kept)?;
        let witnessed = [
            (painting_kept, TICKS_COMPARED),
            (ticks_differ, TICK_DIFFERS),
            (ends_differ && self.chip == 1, END_DIFFERS_1),
            (ends_differ && self.chip == 3, END_DIFFERS_3),
            (
                both_kept && one.reads.iter().any(|answer| shows_half(answer)),
                READS_TOGETHER,
            ),
        ];
        shown.extend(witnessed.iter().filter(|(seen, _)| *seen).map(|(_, s)| s));
        Ok(shown)
    }

    /// A smaller pair that still fails: events are taken out of both logs one
    /// by one, each try being taken off `tries`.
    pub fn shrunk(&self, tries: &mut usize) -> Pair {
        let mut best = self.clone();
        for sort in [is_access as Sort, is_display, is_save] {
            let mut number = only(&best.one, sort).len().max(only(&best.two, sort).len());
            while number > 0 && *tries > 0 {
                number -= 1;
                *tries -= 1;
                let mut candidate = best.clone();
                remove(&mut candidate.one, sort, number);
                remove(&mut candidate.two, sort, number);
                if candidate.check().is_err() {
                    best = candidate;
                }
            }
        }
        best
    }

    /// The bytes of its inputs.
    pub fn size(&self) -> usize {
        self.snapshot.len() + 10 + 9 * (self.one.len() + self.two.len())
    }

    pub fn described(&self) -> String {
        format!(
            "  snapshot {}\n  log one {}\n  log two {}\n",
            hexadecimal(&self.snapshot),
            hexadecimal(&log_bytes(self.chip, &self.one)),
            hexadecimal(&log_bytes(self.chip, &self.two))
        )
    }
}

/// What an end snapshot has at the places that ticks don't move.
fn settled(chip: u8, end: &[u8]) -> Vec<(u16, u8)> {
    let moved = places_that_ticks_move(chip);
    let mut values = place_values(end);
    values.retain(|&(place, _)| !moved.contains(&usize::from(place)));
    values
}

/// Takes the event with this number among its sort out of a log.
fn remove(events: &mut Vec<Event>, sort: Sort, number: usize) {
    let mut indices = (0..events.len()).filter(|&index| sort(&events[index]));
    if let Some(index) = indices.nth(number) {
        events.remove(index);
    }
}

#[cfg(test)]
mod tests {
    use super::{painting, read_past_tick, settled, shows_half, tick_past_load};
    use super::{tick_past_write, without_half, Pair};
    use kit::{log_bytes, place_values, snapshot_bytes, Random};
    use model::{Event, ANSWER_BYTES, END_BUFFER_BYTES};

    #[test]
    fn chips_1_and_3_have_places_that_ticks_move() {
        let pairs = [(0, 1), (80, 2), (82, 3), (83, 4), (85, 5)];
        for chip in [1, 2] {
            assert_eq!(settled(chip, &snapshot_bytes(chip, &pairs)), pairs);
        }
        assert_eq!(settled(3, &snapshot_bytes(3, &pairs)), pairs[..3]);
        let pairs = [(0, 1), (787, 2), (788, 3), (789, 4), (790, 5), (791, 6)];
        assert_eq!(settled(1, &snapshot_bytes(1, &pairs)), pairs[..3]);
    }

    #[test]
    fn place_values_are_those_of_the_snapshot() {
        let pairs = [(0, 1), (5, 2), (788, 3)];
        assert_eq!(place_values(&snapshot_bytes(1, &pairs)), pairs);
        assert_eq!(place_values(&[2, 0, 0]), []);
        assert_eq!(place_values(&[]), []);
    }

    /// The model's run of one of a pair's logs: answers and end.
    fn play(pair: &Pair, events: &[Event]) -> (Vec<u8>, Vec<u8>) {
        let log = log_bytes(pair.chip, events);
        let mut end = vec![0; END_BUFFER_BYTES];
        let mut answers = vec![0; ANSWER_BYTES * events.len()];
        let length = model::run(&pair.snapshot, &log, &mut answers, &mut end);
        end.truncate(length as usize);
        (answers, end)
    }

    fn paintings(pair: &Pair) -> usize {
        painting(pair.chip, &pair.snapshot, &pair.one).len()
    }

    /// By the model: the moved tick shows another colour, and so may the end.
    #[test]
    fn a_tick_moved_past_a_load_or_a_write_often_changes_the_end() {
        for make in [tick_past_load, tick_past_write] {
            let random = &mut Random::seeded(7);
            let mut differ = 0;
            for _ in 0..100 {
                let pair = make(random);
                assert_eq!(paintings(&pair), 1);
                let (_, one) = play(&pair, &pair.one);
                let (_, two) = play(&pair, &pair.two);
                assert_eq!(settled(pair.chip, &one), settled(pair.chip, &two));
                differ += usize::from(one != two);
            }
            assert!(differ > 40, "{differ} of 100");
        }
    }

    /// By the model: the read sees another pixel, and the end is the same.
    #[test]
    fn a_07h_read_moved_past_a_tick_often_changes_its_byte() {
        let random = &mut Random::seeded(7);
        let mut differ = 0;
        for _ in 0..100 {
            let pair = read_past_tick(random);
            assert_eq!(paintings(&pair), 0);
            let (one, one_end) = play(&pair, &pair.one);
            let (two, two_end) = play(&pair, &pair.two);
            assert_eq!(one_end, two_end);
            // The read is last but one, and last.
            let read = one.rchunks(ANSWER_BYTES).nth(1);
            differ += usize::from(read != two.rchunks(ANSWER_BYTES).next());
        }
        assert!(differ > 40, "{differ} of 100");
    }

    #[test]
    fn a_half_of_a_code_is_all_that_is_left_out() {
        assert_eq!(without_half(&[0, 0xB9, 0xF0, 0]), [0, 0x09, 0xF0, 0]);
        assert!(shows_half(&[0, 0x19, 0]));
        assert!(!shows_half(&[0, 0x0F, 0xFF]));
    }
}
