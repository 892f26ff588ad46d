//! Demand 3 on seeded random logs: two logs with the same accesses in the same
//! order and the same display events in the same order, shuffled together
//! freely, with saves anywhere, give every access but a 07h read the same answer.
//! On chip 2 they end with the same snapshot. If every painting access also has
//! the same display events before it, every tick gets the same answer too, a 07h
//! read that has the same display events before it does, and logs of chips 1 and
//! 3 end with the same snapshot. Without that, their ends may differ at places
//! 789 to 791, the last pixel's codes, or 83 to 85, the colour before, and nowhere
//! else.

use crate::common::{painted_answer, play, Played};
use kit::{before_painting, free_shuffle, painting_shuffle, taken_together, with_saves};
use kit::{is_access, is_display, is_save, is_tick, log_bytes, only, p2, p3};
use kit::{load, read, save as save_event, tick, vertical, write, ANSWER_BYTES, MOST_EVENTS};
use kit::{places_that_ticks_move, snapshot_bytes, Random, Sort};
use model::{kind, painting_accesses, restore, save, test_register_reads, Answer, Event};
use std::collections::BTreeMap;

/// How much of each class the random logs held, so that no test passes by
/// being empty.
#[derive(Default)]
struct Census {
    pairs: usize,
    moved: usize,
    saves_differ: usize,
    /// Answers with each refusal.
    refused: BTreeMap<u8, usize>,
    painting: usize,
    /// Painting writes, by the number in their answers.
    painted: BTreeMap<u16, usize>,
    /// Painting accesses at another index in the other log.
    painting_moved: usize,
    ticks_with_colour: usize,
    vertical_periods: usize,
    pairs_with_other_ticks: usize,
    pairs_with_other_ends: usize,
    pairs_breaking_the_condition: usize,
    loads: usize,
    /// Saves between a register's two loads.
    saves_inside_a_register: usize,
    /// Ticks between a register's two loads.
    ticks_inside_a_register: usize,
    /// Pixels of registers with REP 1, DATEN high.
    repeated_pixels: usize,
    /// Those that show a colour other than the register's and not black.
    repeated_colours: usize,
    /// 07h reads.
    reads: usize,
    /// Those whose half of a code isn't 0.
    reads_of_colour: usize,
    /// Those at another index in the other log that must agree.
    reads_kept: usize,
    /// Those that differ.
    other_reads: usize,
    /// Pairs whose painting accesses and 07h reads, taken together, keep their
    /// display events.
    pairs_together: usize,
}

impl Census {
    /// Counts the refusals of a log's answers and the colours of its ticks.
    fn count_answers(&mut self, answers: &[Answer], ticks: &[Answer]) {
        for answer in answers.iter().filter(|answer| answer[0] != 0) {
            *self.refused.entry(answer[0]).or_insert(0) += 1;
        }
        let coloured = |answer: &&Answer| answer[0] == 0 && answer[3..] != [0; ANSWER_BYTES - 3];
        self.ticks_with_colour += ticks.iter().filter(coloured).count();
    }

    /// Counts the numbers that painting accesses answer. Every painting write must
    /// have one; chip 3's loads have none.
    fn count_painted(&mut self, events: &[Event], answers: &[Answer], painting: &[usize]) {
        for &index in painting {
            let answer = answers[index];
            if events[index].kind == kind::LOAD {
                assert_eq!(answer, [0; ANSWER_BYTES]);
                continue;
            }
            let number = u16::from_le_bytes([answer[2], answer[3]]);
            assert_eq!(answer, painted_answer(number));
            *self.painted.entry(number).or_insert(0) += 1;
        }
    }

    /// Counts the 07h reads of two logs; these must agree, those may.
    fn count_reads(&mut self, one: &Reads, two: &Reads, must_agree: &[bool]) {
        let shows_colour = |answer: &&Answer| answer[1] >> 4 != 0;
        self.reads += one.answers.len();
        self.reads_of_colour += one.answers.iter().filter(shows_colour).count();
        let moved = one.indices.iter().zip(&two.indices).map(|(a, b)| a != b);
        let kept = moved
            .zip(must_agree)
            .filter(|&(moved, &must)| moved && must);
        self.reads_kept += kept.count();
        let pairs = one.answers.iter().zip(&two.answers);
        self.other_reads += pairs.filter(|(a, b)| a != b).count();
    }

    /// Counts the pixels of chip 3 that repeat, event by event.
    fn count_repeats(&mut self, snapshot: &[u8], events: &[Event]) {
        let mut state = restore(snapshot).state;
        for event in events {
            let places = state.places();
            let (answer, next) = model::event(&state, event.kind, &event.operand);
            state = next;
            if !is_tick(event) || answer[0] != 0 || answer[2] == 0 {
                continue;
            }
            let shown = answer[3..9].chunks_exact(3);
            for (&pixel, shown) in event.operand.iter().zip(shown) {
                let first = p3::REGISTER_PLACES * usize::from(pixel);
                if places[first + p3::REP] == 1 {
                    let other = shown != &places[first..first + 3] && shown != [0; 3];
                    self.repeated_pixels += 1;
                    self.repeated_colours += usize::from(other);
                }
            }
        }
    }

    /// Counts what stands between an unrefused load and the next, if that one
    /// paints.
    fn count_inside_registers(&mut self, events: &[Event], answers: &[Answer], painting: &[usize]) {
        for &second in painting {
            let inside = events[..second].iter().zip(answers).rev();
            let first = |event: &Event, answer: &Answer| event.kind == kind::LOAD && answer[0] == 0;
            for (event, _) in inside.take_while(|(event, answer)| !first(event, answer)) {
                self.saves_inside_a_register += usize::from(is_save(event));
                self.ticks_inside_a_register += usize::from(is_tick(event));
            }
        }
    }
}

/// The end state's places, those that ticks move left out.
fn other_places(chip: u8, end: &[u8]) -> Vec<(usize, u8)> {
    let restored = restore(end);
    assert_eq!(restored.refusal, None);
    assert_eq!(restored.state.chip(), chip);
    let moved = places_that_ticks_move(chip);
    let places = restored.state.places().into_iter().enumerate();
    places.filter(|(place, _)| !moved.contains(place)).collect()
}

fn answers_of(events: &[Event], played: &Played, wanted: Sort) -> Vec<Answer> {
    let pairs = events.iter().zip(&played.answers);
    pairs
        .filter(|(event, _)| wanted(event))
        .map(|(_, &answer)| answer)
        .collect()
}

/// The answers of the accesses that aren't 07h reads.
fn other_accesses(events: &[Event], played: &Played, reads: &Reads) -> Vec<Answer> {
    let numbered = events.iter().zip(&played.answers).enumerate();
    numbered
        .filter(|(index, (event, _))| is_access(event) && !reads.indices.contains(index))
        .map(|(_, (_, &answer))| answer)
        .collect()
}

/// The 07h reads of a log.
struct Reads {
    indices: Vec<usize>,
    answers: Vec<Answer>,
    /// The display events before each.
    displays: Vec<usize>,
}

impl Reads {
    fn of(chip: u8, snapshot: &[u8], events: &[Event], played: &Played) -> Reads {
        let indices = test_register_reads(snapshot, &log_bytes(chip, events)).unwrap();
        Reads {
            answers: indices.iter().map(|&i| played.answers[i]).collect(),
            displays: before_painting(events, &indices, is_display),
            indices,
        }
    }
}

/// What demand 3 says about 07h reads: those that have the same display events
/// before them must agree if painting accesses have. Gives which.
fn check_reads(one: &Reads, two: &Reads, painting_keeps: bool) -> Vec<bool> {
    let displays = one.displays.iter().zip(&two.displays);
    let must_agree: Vec<bool> = displays.map(|(a, b)| painting_keeps && a == b).collect();
    let answers = one.answers.iter().zip(&two.answers);
    for ((a, b), &must) in answers.zip(&must_agree) {
        if must {
            assert_eq!(a, b);
        }
        // Only the half of a code can differ.
        let rest = |answer: &Answer| (answer[0], answer[1] & 15, answer[2..].to_vec());
        assert_eq!(rest(a), rest(b));
    }
    must_agree
}

/// One pair of logs: what demand 3 says about them must hold.
fn check_pair(census: &mut Census, chip: u8, snapshot: &[u8], one: &[Event], two: &[Event]) {
    assert_eq!(only(one, is_access), only(two, is_access));
    assert_eq!(only(one, is_display), only(two, is_display));
    let played_one = play(chip, snapshot, one);
    let played_two = play(chip, snapshot, two);
    let reads_one = Reads::of(chip, snapshot, one, &played_one);
    let reads_two = Reads::of(chip, snapshot, two, &played_two);
    // Which accesses are 07h reads is a matter of the accesses alone.
    assert_eq!(
        before_painting(one, &reads_one.indices, is_access),
        before_painting(two, &reads_two.indices, is_access)
    );
    assert_eq!(
        other_accesses(one, &played_one, &reads_one),
        other_accesses(two, &played_two, &reads_two)
    );
    assert_eq!(
        other_places(chip, &played_one.end),
        other_places(chip, &played_two.end)
    );
    let painting = |events| painting_accesses(snapshot, &log_bytes(chip, events)).unwrap();
    let (painting_one, painting_two) = (painting(one), painting(two));
    // Which accesses paint is a matter of the accesses alone.
    assert_eq!(
        before_painting(one, &painting_one, is_access),
        before_painting(two, &painting_two, is_access)
    );

    let ticks_one = answers_of(one, &played_one, is_tick);
    let ticks_two = answers_of(two, &played_two, is_tick);
    let displays_one = before_painting(one, &painting_one, is_display);
    let condition = displays_one == before_painting(two, &painting_two, is_display);
    if condition {
        assert_eq!(ticks_one, ticks_two);
    } else {
        census.pairs_breaking_the_condition += 1;
    }
    if condition || places_that_ticks_move(chip).is_empty() {
        assert_eq!(played_one.end, played_two.end);
    }
    let must_agree = check_reads(&reads_one, &reads_two, condition);
    // The request's own words: painting accesses and 07h reads taken together.
    let together_one = taken_together(&painting_one, &reads_one.indices);
    let together_two = taken_together(&painting_two, &reads_two.indices);
    let displays_one = before_painting(one, &together_one, is_display);
    if displays_one == before_painting(two, &together_two, is_display) {
        assert_eq!(
            answers_of(one, &played_one, is_access),
            answers_of(two, &played_two, is_access)
        );
        census.pairs_together += 1;
    }

    let plain = |events| only(events, |event| !is_save(event));
    census.pairs += 1;
    census.moved += usize::from(plain(one) != plain(two));
    census.saves_differ += usize::from(one.len() != two.len());
    census.painting += painting_one.len();
    census.count_painted(one, &played_one.answers, &painting_one);
    let moved = painting_one
        .iter()
        .zip(&painting_two)
        .filter(|(a, b)| a != b);
    census.painting_moved += moved.count();
    census.pairs_with_other_ticks += usize::from(ticks_one != ticks_two);
    census.vertical_periods += one.iter().filter(|e| e.kind == kind::VERTICAL).count();
    census.pairs_with_other_ends += usize::from(played_one.end != played_two.end);
    census.loads += one.iter().filter(|e| e.kind == kind::LOAD).count();
    census.count_answers(&played_one.answers, &ticks_one);
    census.count_reads(&reads_one, &reads_two, &must_agree);
    if chip == 3 {
        census.count_inside_registers(one, &played_one.answers, &painting_one);
        census.count_repeats(snapshot, one);
    }
}

/// Which accesses keep their display events in a shuffle.
#[derive(Clone, Copy)]
enum Keep {
    Nothing,
    Painting,
    /// Painting accesses and one 07h read.
    PaintingAndOneRead,
    PaintingAndReads,
}

/// The indices of the accesses to keep.
fn kept(
    random: &mut Random,
    keep: Keep,
    chip: u8,
    snapshot: &[u8],
    events: &[Event],
) -> Vec<usize> {
    let log = log_bytes(chip, events);
    let painting = painting_accesses(snapshot, &log).unwrap();
    let reads = test_register_reads(snapshot, &log).unwrap();
    match keep {
        Keep::Nothing => Vec::new(),
        Keep::Painting => painting,
        Keep::PaintingAndOneRead if reads.is_empty() => painting,
        Keep::PaintingAndOneRead => taken_together(&painting, &[random.pick(&reads)]),
        Keep::PaintingAndReads => taken_together(&painting, &reads),
    }
}

/// Runs `pairs` pairs on one chip, shuffled so that these keep their display
/// events.
fn census_of(seed: u64, chip: u8, pairs: usize, count: usize, keep: Keep) -> Census {
    let mut random = Random::seeded(seed);
    let mut census = Census::default();
    for _ in 0..pairs {
        let snapshot = save(&random.state(chip)).unwrap();
        let events = random.events_without_saves(chip, count);
        let kept = kept(&mut random, keep, chip, &snapshot, &events);
        let shuffled = painting_shuffle(&mut random, &events, &kept);
        let mut saved = |events| {
            let often = random.pick(&[2, 5, 1000]);
            with_saves(&mut random, events, often)
        };
        let (one, two) = (saved(&events), saved(&shuffled));
        check_pair(&mut census, chip, &snapshot, &one, &two);
    }
    census
}

/// Enough answers of painting writes, of every sort that the chip has, and enough
/// painting accesses that stand at two indices.
fn assert_well_painted(census: &Census, chip: u8) {
    let sorts: &[_] = match chip {
        1 => &[0..=255, 256..=259, 260..=260, 261..=261, 262..=262],
        2 => &[0..=255, 260..=260],
        3 => &[],
        _ => panic!("what chip {chip} paints isn't listed"),
    };
    let mut listed = 0;
    for numbers in sorts {
        let times: usize = census.painted.range(numbers.clone()).map(|(_, n)| n).sum();
        assert!(times > census.pairs / 2, "{numbers:?}: {times}");
        listed += times;
    }
    assert_eq!(listed, census.painted.values().sum());
    assert_eq!(listed, if chip == 3 { 0 } else { census.painting });
    assert!(census.painting_moved > census.painting / 2);
}

/// Enough of everything that a chip's logs can hold.
fn assert_well_mixed(census: &Census, chip: u8) {
    assert!(census.moved > census.pairs / 2);
    assert!(census.saves_differ > census.pairs / 2);
    assert!(census.painting > 2 * census.pairs);
    assert_well_painted(census, chip);
    assert!(census.ticks_with_colour > 2 * census.pairs);
    assert!(census.vertical_periods > census.pairs);
    let possible: &[u8] = match chip {
        1 => &[1, 2, 4, 5],
        2 => &[1, 3, 4, 5],
        3 => &[4, 5],
        _ => panic!("the refusals of chip {chip} aren't listed"),
    };
    assert!(census.refused.keys().eq(possible));
    assert!(census.refused.values().all(|&n| n > census.pairs / 4));
    assert!(census.loads > census.pairs / 4);
    if chip == 1 {
        assert!(census.reads > census.pairs, "{}", census.reads);
        let coloured = census.reads_of_colour;
        assert!(coloured > census.pairs / 4, "{coloured}");
    } else {
        assert_eq!(census.reads, 0);
    }
    if chip == 3 {
        assert!(census.loads > 20 * census.pairs);
        assert!(census.saves_inside_a_register > census.pairs);
        assert!(census.ticks_inside_a_register > census.pairs);
        assert!(census.repeated_pixels > 5 * census.pairs);
        assert!(census.repeated_colours > 2 * census.pairs);
    }
}

#[test]
fn free_shuffles_on_chip_1_keep_accesses_and_the_end_but_the_last_pixel() {
    let census = census_of(0xD3_0001, 1, 300, 85, Keep::Nothing);
    assert_eq!(census.pairs, 300);
    assert_well_mixed(&census, 1);
    // Not so 07h reads and the last pixel's places.
    assert!(census.other_reads > 50, "{}", census.other_reads);
    // These differ only where the last unblanked pixel shows what was moved past it.
    let other_ends = census.pairs_with_other_ends;
    assert!(other_ends > 8, "{other_ends}");
}

#[test]
fn free_shuffles_on_chip_2_keep_accesses_and_end() {
    let census = census_of(0xD3_0002, 2, 300, 85, Keep::Nothing);
    assert_eq!(census.pairs, 300);
    assert_well_mixed(&census, 2);
}

#[test]
fn painting_shuffles_on_chip_1_keep_ticks_and_the_end_too() {
    let census = census_of(0xD3_0003, 1, 300, 85, Keep::Painting);
    assert_eq!(census.pairs_breaking_the_condition, 0);
    assert_eq!(census.pairs_with_other_ticks, 0);
    assert_eq!(census.pairs_with_other_ends, 0);
    assert_well_mixed(&census, 1);
    // The condition doesn't reach to 07h reads.
    assert!(census.other_reads > 15, "{}", census.other_reads);
}

#[test]
fn painting_shuffles_that_keep_a_07h_read_keep_its_answer() {
    let census = census_of(0xD3_000D, 1, 300, 85, Keep::PaintingAndOneRead);
    assert_eq!(census.pairs_breaking_the_condition, 0);
    assert_well_mixed(&census, 1);
    // One in each log, by and large; others move and differ.
    assert!(census.reads_kept > 150, "{}", census.reads_kept);
    assert!(census.other_reads > 15, "{}", census.other_reads);
}

#[test]
fn painting_shuffles_that_keep_all_07h_reads_keep_every_access() {
    let census = census_of(0xD3_000E, 1, 300, 85, Keep::PaintingAndReads);
    assert_eq!(census.pairs_breaking_the_condition, 0);
    assert_eq!(census.pairs_together, 300);
    assert_eq!(census.other_reads, 0);
    assert!(census.reads_kept > 300, "{}", census.reads_kept);
    assert_well_mixed(&census, 1);
}

#[test]
fn painting_shuffles_on_chip_2_keep_ticks_too() {
    let census = census_of(0xD3_0004, 2, 300, 85, Keep::Painting);
    assert_eq!(census.pairs_breaking_the_condition, 0);
    assert_eq!(census.pairs_with_other_ticks, 0);
    assert_well_mixed(&census, 2);
}

#[test]
fn free_shuffles_on_chip_3_keep_accesses_and_the_end_but_the_colour_before() {
    let census = census_of(0xD3_0009, 3, 300, 85, Keep::Nothing);
    assert_eq!(census.pairs, 300);
    assert_well_mixed(&census, 3);
    // The colour before differs only where the last pixels show a register that
    // was moved past them, or repeat one.
    assert!(census.pairs_with_other_ends > 15);
}

#[test]
fn painting_shuffles_on_chip_3_keep_ticks_and_the_end_too() {
    let census = census_of(0xD3_000A, 3, 300, 85, Keep::Painting);
    assert_eq!(census.pairs_breaking_the_condition, 0);
    assert_eq!(census.pairs_with_other_ticks, 0);
    assert_eq!(census.pairs_with_other_ends, 0);
    assert_well_mixed(&census, 3);
}

#[test]
fn the_painting_condition_matters() {
    for (seed, chip) in [(0xD3_0005, 1), (0xD3_0006, 2), (0xD3_000B, 3)] {
        let census = census_of(seed, chip, 100, 85, Keep::Nothing);
        // Only pairs that break the condition can have other ticks, and many
        // of them do (check_pair has compared the rest).
        assert!(census.pairs_breaking_the_condition > 75);
        assert!(census.pairs_with_other_ticks > 50);
        assert!(census.pairs_with_other_ticks <= census.pairs_breaking_the_condition);
        // The end of a chip that ticks don't move never differs.
        let moved = !places_that_ticks_move(chip).is_empty();
        assert_eq!(census.pairs_with_other_ends > 0, moved);
        assert!(census.pairs_with_other_ends <= census.pairs_breaking_the_condition);
    }
}

#[test]
fn logs_near_the_limit_shuffle_alike() {
    for (seed, chip) in [(0xD3_0007, 1), (0xD3_0008, 2), (0xD3_000C, 3)] {
        let mut random = Random::seeded(seed);
        let mut census = Census::default();
        for _ in 0..3 {
            let snapshot = save(&random.state(chip)).unwrap();
            let mut events = random.events_without_saves(chip, MOST_EVENTS - 500);
            let painting = painting_accesses(&snapshot, &log_bytes(chip, &events)).unwrap();
            let mut kept = painting_shuffle(&mut random, &events, &painting);
            let free = free_shuffle(&mut random, &events);
            // Saves fill one log up to the limit; the other has none.
            events.resize(MOST_EVENTS, save_event());
            check_pair(&mut census, chip, &snapshot, &events, &kept);
            kept.insert(0, save_event());
            check_pair(&mut census, chip, &snapshot, &free, &kept);
        }
        assert_eq!(census.pairs, 6);
        assert!(census.painting > 1000);
    }
}

/// One swap by hand: a tick on either side of a blue write.
#[test]
fn a_tick_before_or_after_a_blue_write_on_chip_1() {
    // Read mask FFh and command 40h, position 2, RREG 1 and GREG 2.
    let snapshot = snapshot_bytes(1, &[(781, 2), (782, 1), (783, 2), (784, 255), (786, 0x40)]);
    let shown = tick([0, 0, 0, 0, 0, 0, 0, 1]);
    let before = play(1, &snapshot, &[shown, write(1, 3)]);
    let after = play(1, &snapshot, &[write(1, 3), shown]);
    assert_eq!(before.answers[0][3..6], [0, 0, 0]);
    assert_eq!(after.answers[1][3..6], [1, 2, 3]);
    assert_eq!(before.answers[1], after.answers[0]);
    assert_eq!(before.answers[1], painted_answer(0));
    // The ends differ at the last pixel's places alone.
    let painted = [
        (0, 1),
        (1, 2),
        (2, 3),
        (780, 1),
        (782, 1),
        (783, 2),
        (784, 255),
        (786, 0x40),
    ];
    let last_pixel = [(789, 1), (790, 2), (791, 3)];
    assert_eq!(before.end, snapshot_bytes(1, &painted));
    let both = [&painted[..], &last_pixel].concat();
    assert_eq!(after.end, snapshot_bytes(1, &both));
}

/// The same with ends of one length: entry 0 had a colour already.
#[test]
fn ends_of_chip_1_can_differ_in_their_bytes_alone() {
    let start = [(0, 9), (1, 8), (2, 7), (781, 2), (782, 1), (783, 2)];
    let shown_palette = [(784, 255), (786, 0x40)];
    let snapshot = snapshot_bytes(1, &[&start[..], &shown_palette].concat());
    let shown = tick([0, 0, 0, 0, 0, 0, 0, 1]);
    let before = play(1, &snapshot, &[shown, write(1, 3)]);
    let after = play(1, &snapshot, &[write(1, 3), save_event(), shown]);
    assert_eq!(before.end.len(), after.end.len());
    let end = |red, green, blue| {
        let painted = [(0, 1), (1, 2), (2, 3), (780, 1), (782, 1), (783, 2)];
        let last_pixel = [(789, red), (790, green), (791, blue)];
        snapshot_bytes(1, &[&painted[..], &shown_palette, &last_pixel].concat())
    };
    assert_eq!(before.end, end(9, 8, 7));
    assert_eq!(after.end, end(1, 2, 3));
}

/// A later blanked tick makes the ends agree again, though the painting condition
/// fails; the condition is enough, and not needed.
#[test]
fn ends_of_chip_1_can_agree_without_the_condition() {
    let snapshot = snapshot_bytes(1, &[(781, 2), (782, 1), (784, 255), (786, 0x40)]);
    let shown = tick([0, 0, 0, 0, 0, 0, 0, 1]);
    let blanked = tick([0, 0, 0, 0, 0, 0, 0, 0]);
    let before = play(1, &snapshot, &[shown, write(1, 3), blanked]);
    let after = play(1, &snapshot, &[write(1, 3), shown, blanked]);
    assert_ne!(before.answers[0], after.answers[1]);
    assert_eq!(before.end, after.end);
}

/// Address 7 and this test byte; overlay 0, which every pixel shows, is B4h 5Ah
/// C3h.
fn at_07h(test: u8) -> Vec<u8> {
    let overlay_0 = [(768, 0xB4), (769, 0x5A), (770, 0xC3)];
    let registers = [(780, 7), (787, test)];
    snapshot_bytes(1, &[&overlay_0[..], &registers].concat())
}

/// One swap by hand: a tick on either side of a 07h read. No access paints, so the
/// tick and the end agree, and the read doesn't.
#[test]
fn a_07h_read_before_or_after_a_tick() {
    let shown = tick([0, 0, 0, 0, 0, 0, 0, 1]);
    // Test byte, and what is read before the tick and after it.
    for (test, black, coloured) in [
        (0x01, 0x01, 0xB1),
        (0x02, 0x02, 0x52),
        (0x04, 0x04, 0xC4),
        (0x09, 0x09, 0x49),
        (0x0A, 0x0A, 0xAA),
        (0x0C, 0x0C, 0x3C),
        // No colour selected, and two: nothing to differ in.
        (0xF0, 0x00, 0x00),
        (0x03, 0x03, 0x03),
    ] {
        let first = play(1, &at_07h(test), &[read(2), shown]);
        let last = play(1, &at_07h(test), &[shown, read(2)]);
        assert_eq!(first.answers[0][..2], [0, black]);
        assert_eq!(last.answers[1][..2], [0, coloured]);
        assert_eq!(first.answers[1], last.answers[0]);
        assert_eq!(first.end, last.end);
    }
}

/// One swap by hand: the read has the same tick before it, and a painting write
/// has not.
#[test]
fn a_07h_read_sees_a_painting_write_that_moved() {
    // Red of entry 0, whose blue is written; then address 7.
    let start = [(781, 2), (782, 0xE5), (784, 255), (786, 0x40), (787, 1)];
    let snapshot = snapshot_bytes(1, &start);
    let shown = tick([0, 0, 0, 0, 0, 0, 0, 1]);
    let one = [shown, write(1, 3), write(0, 7), read(2)];
    let two = [write(1, 3), shown, write(0, 7), read(2)];
    let [one, two] = [one, two].map(|events| play(1, &snapshot, &events));
    assert_eq!(one.answers[3][..2], [0, 0x01]);
    assert_eq!(two.answers[3][..2], [0, 0xE1]);
}

/// By hand: a 07h read that keeps its ticks agrees, whatever becomes of another
/// and of accesses that don't paint.
#[test]
fn a_07h_read_agrees_though_another_moved() {
    let ticks = [
        tick([0, 0, 0, 0, 0, 0, 0, 1]),
        tick([0, 0, 0, 0, 0, 0, 0, 0]),
    ];
    let colour = write(2, 0x0A);
    let one = [read(2), ticks[0], colour, read(2), ticks[1]];
    let two = [ticks[0], save_event(), read(2), colour, read(2), ticks[1]];
    let (one, two) = (play(1, &at_07h(1), &one), play(1, &at_07h(1), &two));
    assert_eq!(one.answers[0][..2], [0, 0x01]);
    assert_eq!(two.answers[2][..2], [0, 0xB1]);
    assert_eq!(one.answers[3][..2], [0, 0xAA]);
    assert_eq!(one.answers[3], two.answers[4]);
    assert_eq!(one.end, two.end);
}

/// By hand: vertical periods and refused ticks are display events, but leave the
/// codes, so no answer need differ where they alone move.
#[test]
fn a_07h_read_does_not_see_vertical_periods_and_refused_ticks() {
    let shown = tick([0, 0, 0, 0, 0, 0, 0, 1]);
    let refused = tick([0, 0, 0, 0, 0, 32, 0, 1]);
    let one = [shown, read(2), vertical(), refused];
    let two = [shown, vertical(), refused, read(2)];
    let (one, two) = (play(1, &at_07h(1), &one), play(1, &at_07h(1), &two));
    assert_eq!(one.answers[1][..2], [0, 0xB1]);
    assert_eq!(one.answers[1], two.answers[3]);
    assert_eq!(one.end, two.end);
}

/// By hand: whatever stands before them, painting writes answer the same number.
#[test]
fn painting_writes_answer_alike_wherever_they_stand() {
    // Address FEh and position 2 on chip 1: entry 254, then the registers.
    let snapshot = snapshot_bytes(1, &[(780, 0xFE), (781, 2)]);
    let accesses = [
        write(1, 9),
        write(0, 4),
        write(2, 0xFF),
        write(0, 6),
        write(2, 0x40),
    ];
    let quiet = [0; ANSWER_BYTES];
    let (entry, mask, command) = (254, 260, 262);
    let expected = [
        painted_answer(entry),
        quiet,
        painted_answer(mask),
        quiet,
        painted_answer(command),
    ];
    let displays = [tick([254, 0, 0, 0, 0, 0, 0, 1]), vertical()];
    let last = play(1, &snapshot, &[&displays[..], &accesses].concat());
    assert_eq!(last.answers[2..], expected);
    let first = play(1, &snapshot, &[&accesses[..], &displays].concat());
    assert_eq!(first.answers[..5], expected);
    let between = accesses.map(|access| [displays[0], access, displays[1], save_event()]);
    let between = play(1, &snapshot, &between.concat());
    let answers = between.answers.iter().skip(1).step_by(4).copied();
    assert!(answers.eq(expected));
}

/// One swap by hand: a red write doesn't paint, so the tick stays as it is.
#[test]
fn a_tick_before_or_after_a_red_write_on_chip_2() {
    let snapshot = snapshot_bytes(2, &[(0, 9), (1, 8), (2, 7), (p2::MASK as u16, 255)]);
    let shown = tick([0, 0, 0, 0, 0, 0, 0, 1]);
    let before = play(2, &snapshot, &[shown, write(1, 3)]);
    let after = play(2, &snapshot, &[write(1, 3), save_event(), shown]);
    assert_eq!(before.answers[0][..6], [0, 1, 1, 9, 8, 7]);
    assert_eq!(after.answers[2], before.answers[0]);
    assert_eq!(before.end, after.end);
}

/// Chip 3: register 0 waits for its second load, with held red 5.
fn second_load_to_come() -> Vec<u8> {
    snapshot_bytes(3, &[(80, 1), (81, 5)])
}

/// One swap by hand: a tick on either side of a register's second load. The
/// accesses agree, and neither the tick nor the end snapshot does, not even its
/// length.
#[test]
fn a_tick_before_or_after_a_second_load_on_chip_3() {
    let shown = tick([0, 0, 0, 0, 0, 0, 0, 1]);
    let before = play(3, &second_load_to_come(), &[shown, load(6, 7)]);
    let after = play(3, &second_load_to_come(), &[load(6, 7), shown]);
    assert_eq!(before.answers[1], after.answers[0]);
    assert_eq!(before.answers[0][..9], [0, 2, 1, 0, 0, 0, 0, 0, 0]);
    assert_eq!(after.answers[1][..9], [0, 2, 1, 5, 6, 7, 5, 6, 7]);
    let loaded = [(0, 5), (1, 6), (2, 7), (80, 2), (81, 5)];
    let colour_before = [(83, 5), (84, 6), (85, 7)];
    assert_eq!(before.end, snapshot_bytes(3, &loaded));
    let both = [&loaded[..], &colour_before].concat();
    assert_eq!(after.end, snapshot_bytes(3, &both));
    assert_eq!([before.end.len(), after.end.len()], [18, 27]);
}

/// The same with ends of one length: register 0 had a colour already.
#[test]
fn ends_of_chip_3_can_differ_in_their_bytes_alone() {
    let start = [(0, 1), (1, 2), (2, 3), (80, 1), (81, 5)];
    let snapshot = snapshot_bytes(3, &start);
    let shown = tick([9, 0, 0, 0, 0, 0, 0, 1]);
    let before = play(3, &snapshot, &[shown, load(6, 7)]);
    let after = play(3, &snapshot, &[load(6, 7), save_event(), shown]);
    assert_eq!(before.end.len(), after.end.len());
    let end = |red, green, blue| {
        let loaded = [(0, 5), (1, 6), (2, 7), (80, 2), (81, 5)];
        let colour_before = [(83, red), (84, green), (85, blue)];
        snapshot_bytes(3, &[&loaded[..], &colour_before].concat())
    };
    assert_eq!(before.end, end(1, 2, 3));
    assert_eq!(after.end, end(5, 6, 7));
}

/// One swap by hand: a first load and refused accesses don't paint, so ticks and
/// the end stay as they are.
#[test]
fn a_tick_before_or_after_a_first_load_on_chip_3() {
    let snapshot = snapshot_bytes(3, &[(0, 1), (1, 2), (2, 3), (3, 1)]);
    let accesses = [load(16, 0), load(9, 3), write(0, 1)];
    let shown = [tick([0, 0, 0, 0, 0, 0, 0, 1]), vertical()];
    let before = play(3, &snapshot, &[&shown[..], &accesses].concat());
    let after = play(
        3,
        &snapshot,
        &[&accesses[..], &[save_event()], &shown].concat(),
    );
    assert_eq!(before.answers[0][..9], [0, 2, 7, 1, 2, 3, 1, 2, 3]);
    assert_eq!(before.answers[..2], after.answers[4..]);
    assert_eq!(before.answers[2..], after.answers[..3]);
    let refusals: Vec<u8> = before.answers.iter().map(|answer| answer[0]).collect();
    assert_eq!(refusals, [0, 5, 4, 0, 5]);
    assert_eq!(before.end, after.end);
}

/// A later tick with its own colours makes the ends agree again, though the
/// painting condition fails; the condition is enough, and not needed.
#[test]
fn ends_of_chip_3_can_agree_without_the_condition() {
    let ticks = [
        tick([0, 0, 0, 0, 0, 0, 0, 1]),
        tick([1, 2, 0, 0, 0, 0, 0, 0]),
    ];
    let one = [ticks[0], load(6, 7), ticks[1]];
    let two = [load(6, 7), ticks[0], ticks[1]];
    let before = play(3, &second_load_to_come(), &one);
    let after = play(3, &second_load_to_come(), &two);
    assert_ne!(before.answers[0], after.answers[1]);
    assert_eq!(before.end, after.end);
}

/// Vertical periods move past any access; the count at the end is the same.
#[test]
fn vertical_periods_pass_any_access() {
    let accesses = [write(0, 6), write(2, 0x7F), write(0, 4), write(2, 0xFF)];
    let periods = [vertical(); 20];
    let one = play(1, &[1, 0, 0], &[&accesses[..], &periods[..]].concat());
    let two = play(1, &[1, 0, 0], &[&periods[..], &accesses[..]].concat());
    assert_eq!(one.end, two.end);
    // Places 780, 784, 786 and 788: address 4, masks FFh and 7Fh, count 20.
    assert_eq!(
        one.end,
        snapshot_bytes(1, &[(780, 4), (784, 0xFF), (786, 0x7F), (788, 20)])
    );
}
