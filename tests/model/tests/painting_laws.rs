//! Two laws of painting writes on seeded random states: a write's answer says
//! that it painted if and only if it paints, and its number names what may look
//! different.

use crate::common::{number_painted, Bench};
use kit::{counter_places, is_access, log_bytes, p1, p2, table_places};
use kit::{tick, write, Random, ANSWER_BYTES};
use model::{event, kind, painting_accesses, save, Answer, Event, State};
use std::collections::BTreeMap;
use std::ops::RangeInclusive;

/// The chips that have writes.
const WRITTEN_CHIPS: [u8; 2] = [1, 2];

/// The number in a write's answer, if the answer says that it painted.
fn number_in(answer: &Answer) -> Option<u16> {
    let number = u16::from(answer[2]) + 256 * u16::from(answer[3]);
    (answer[0] == 0 && answer[1] == 1).then_some(number)
}

/// How often writes of each sort came, so that no law holds for want of cases.
#[derive(Debug, Default)]
struct Census {
    /// Writes that painted, by their number.
    numbers: BTreeMap<u16, usize>,
    /// Refused writes, by their refusal.
    refused: BTreeMap<u8, usize>,
    /// Writes that weren't refused and didn't paint.
    quiet: usize,
}

impl Census {
    fn count(&mut self, answer: &Answer) {
        match (number_in(answer), answer[0]) {
            (Some(number), _) => *self.numbers.entry(number).or_insert(0) += 1,
            (None, 0) => self.quiet += 1,
            (None, refusal) => *self.refused.entry(refusal).or_insert(0) += 1,
        }
    }

    fn painted(&self, numbers: RangeInclusive<u16>) -> usize {
        self.numbers.range(numbers).map(|(_, times)| times).sum()
    }

    /// At least `least` writes of every sort that the chip has.
    fn assert_well_mixed(&self, chip: u8, least: usize) {
        let (sorts, refusals): (&[_], &[_]) = match chip {
            1 => (
                &[0..=255, 256..=259, 260..=260, 261..=261, 262..=262],
                &[1, 2],
            ),
            2 => (&[0..=255, 260..=260], &[1, 3]),
            _ => panic!("chip {chip} has no writes"),
        };
        for numbers in sorts {
            assert!(self.painted(numbers.clone()) >= least, "{self:?}");
        }
        let listed: usize = sorts.iter().map(|sort| self.painted(sort.clone())).sum();
        assert_eq!(listed, self.painted(0..=u16::MAX), "{self:?}");
        assert!(self.refused.keys().eq(refusals), "{self:?}");
        assert!(self.refused.values().all(|&n| n >= least), "{self:?}");
        assert!(self.quiet >= 2 * least, "{self:?}");
    }
}

/// A write's answer has 1 in byte 1 if the write paints, and 0 there and behind if
/// not; bytes 4 to 17 are always 0. Whether it paints is the model's definition,
/// and the number is the papers'.
fn check_first_law(state: &State, write: &Event, answer: &Answer) {
    let snapshot = save(state).unwrap();
    let log = log_bytes(state.chip(), &[*write]);
    let paints = painting_accesses(&snapshot, &log).unwrap() == [0];
    assert_eq!(answer[1], u8::from(paints), "{write:?}");
    assert_eq!(answer[4..], [0; ANSWER_BYTES - 4], "{write:?}");
    if paints {
        assert_eq!(answer[0], 0, "{write:?}");
    } else {
        assert_eq!(answer[2..4], [0, 0], "{write:?}");
    }
    let number = number_painted(state, write.operand[0]);
    assert_eq!(number_in(answer), number, "{write:?}");
}

#[test]
fn a_write_answers_1_in_byte_1_if_and_only_if_it_paints() {
    let mut random = Random::seeded(0x5EED_0050);
    for chip in WRITTEN_CHIPS {
        let mut census = Census::default();
        for _ in 0..150 {
            let mut state = random.state(chip);
            for access in (0..30).flat_map(|_| random.burst(chip)).collect::<Vec<_>>() {
                assert!(is_access(&access));
                let (answer, next) = event(&state, access.kind, &access.operand);
                if access.kind == kind::WRITE {
                    check_first_law(&state, &access, &answer);
                    census.count(&answer);
                } else {
                    assert_eq!(answer[2..], [0; ANSWER_BYTES - 2]);
                }
                state = next;
            }
        }
        census.assert_well_mixed(chip, 100);
    }
}

/// Ticks that have every pixel value with every pair of overlay bits, unblanked.
fn every_pixel(chip: u8) -> Vec<Event> {
    let on = |bit: bool| if bit { 31 } else { 0 };
    match chip {
        // Pixels A to D have the next four values, E another one.
        1 => (0..=255)
            .step_by(4)
            .flat_map(|p| (0..4).map(move |ol| (p, ol)))
            .map(|(p, ol)| {
                let (ol0, ol1) = (on(ol & 1 == 1), on(ol & 2 == 2));
                tick([p, p + 1, p + 2, p + 3, 255 - p, ol0, ol1, 1])
            })
            .collect(),
        2 => (0..=255).map(|p| tick([p, 0, 0, 0, 0, 0, 0, 1])).collect(),
        _ => panic!("chip {chip} has no writes"),
    }
}

/// The answers of all those ticks.
fn screen(state: &State) -> Vec<Answer> {
    let ticks = every_pixel(state.chip());
    let answers = ticks
        .iter()
        .map(|tick| event(state, tick.kind, &tick.operand).0);
    answers.collect()
}

/// The codes of a screen's pixels, one after the other.
fn pixels(screen: &[Answer]) -> Vec<[u8; 3]> {
    let counted = |answer: &Answer| {
        let codes = answer[3..].chunks_exact(3).take(usize::from(answer[1]));
        let pixels = codes.map(|codes| [codes[0], codes[1], codes[2]]);
        pixels.collect::<Vec<_>>()
    };
    screen.iter().flat_map(counted).collect()
}

/// The entry that each of a screen's pixels shows: what is seen on the same chip
/// with every entry's own number as its colour, in two parts below 64.
fn entries_shown(state: &State) -> Vec<u16> {
    let mut places = state.places();
    let colours = &mut places[..table_places(state.chip())];
    for (entry, colour) in (0u16..).zip(colours.chunks_exact_mut(3)) {
        colour.copy_from_slice(&[(entry % 64) as u8, (entry / 64) as u8, 0]);
    }
    let labelled = State::from_places(state.chip(), &places).unwrap();
    let pixels = pixels(&screen(&labelled));
    let entries = pixels
        .iter()
        .map(|pixel| u16::from(pixel[0]) + 64 * u16::from(pixel[1]));
    entries.collect()
}

/// On a chip 1 with full masks each of the 1,024 pairs is there, and each of its
/// entries is shown; on chip 2 each of the 256 pixel values.
#[test]
fn the_ticks_of_the_second_law_show_every_pixel() {
    let full = [(p1::READ_MASK, 0xFF), (p1::COMMAND, 0x43)];
    let shown = entries_shown(&Bench::with_places(1, &full).state);
    assert_eq!(shown.len(), 1024);
    for entry in 0..256 {
        assert_eq!(shown.iter().filter(|&&shown| shown == entry).count(), 1);
    }
    for overlay in 257..260 {
        assert_eq!(shown.iter().filter(|&&shown| shown == overlay).count(), 256);
    }
    let shown = entries_shown(&Bench::with_places(2, &[(p2::MASK, 0xFF)]).state);
    assert_eq!(shown, (0..256).collect::<Vec<u16>>());
}

/// What the writes of the second law did to the screen.
#[derive(Debug, Default)]
struct Seen {
    /// Pixels that show another entry than the painted one, not black.
    others_with_colour: usize,
    /// Entries painted that changed a pixel.
    entries_seen: usize,
    /// Registers painted that changed a pixel.
    registers_seen: usize,
}

/// A write that paints entry `number` leaves every pixel as it was that shows
/// another entry, and pixel counts and levels too.
fn check_painted_entry(seen: &mut Seen, before: &State, after: &State, number: u16) {
    let (was, is) = (screen(before), screen(after));
    let head = |answer: &Answer| [answer[0], answer[1], answer[2]];
    assert!(was.iter().map(head).eq(is.iter().map(head)));
    let pairs = pixels(&was).into_iter().zip(pixels(&is));
    for (entry, (pixel_was, pixel_is)) in entries_shown(before).into_iter().zip(pairs) {
        if entry != number {
            assert_eq!(pixel_was, pixel_is, "{number} painted, {entry} shown");
            seen.others_with_colour += usize::from(pixel_was != [0; 3]);
        }
    }
    seen.entries_seen += usize::from(was != is);
}

/// A state in which writes often paint, as often as not with colours in all
/// entries.
fn state_to_paint(random: &mut Random, chip: u8) -> State {
    let mut places = if random.one_in(2) {
        random.full_places(chip)
    } else {
        random.places(chip)
    };
    let counters = counter_places(chip);
    let address = random.address();
    places[counters[0]] = random.pick(&[address, address % 4, 4 + address % 4]);
    places[counters[1]] = random.pick(&[0, 1, 2, 2, 2, 2]);
    if chip == 2 {
        places[p2::DIRECTION] = random.pick(&[0, 0, 0, 1]);
    }
    if random.one_in(2) {
        let_every_pixel_through(chip, &mut places);
    }
    State::from_places(chip, &places).unwrap()
}

/// Masks and enables with which ticks can show every palette entry, and overlays 1
/// to 3.
fn let_every_pixel_through(chip: u8, places: &mut [u8]) {
    match chip {
        1 => {
            places[p1::READ_MASK] = 0xFF;
            places[p1::COMMAND] |= 0x43;
        }
        2 => places[p2::MASK] = 0xFF,
        _ => panic!("chip {chip} has no writes"),
    }
}

/// A write of any selector, of registers more often than an access is.
fn random_write(random: &mut Random) -> Event {
    let access = random.access();
    if access.kind == kind::WRITE {
        access
    } else {
        write(random.pick(&[1, 2, 2, 3]), random.byte())
    }
}

#[test]
fn a_write_changes_no_pixel_but_those_of_what_it_painted() {
    let mut random = Random::seeded(0x5EED_0051);
    for chip in WRITTEN_CHIPS {
        let (mut census, mut seen) = (Census::default(), Seen::default());
        for _ in 0..600 {
            let before = state_to_paint(&mut random, chip);
            let write = random_write(&mut random);
            let (answer, after) = event(&before, write.kind, &write.operand);
            census.count(&answer);
            match number_in(&answer) {
                None => assert_eq!(screen(&before), screen(&after), "{write:?}"),
                Some(number @ 0..=259) => {
                    check_painted_entry(&mut seen, &before, &after, number);
                }
                // A register may touch any pixel.
                Some(_) => {
                    let changed = screen(&before) != screen(&after);
                    seen.registers_seen += usize::from(changed);
                }
            }
        }
        census.assert_well_mixed(chip, 8);
        assert!(census.painted(0..=259) >= 50, "{census:?}");
        assert!(seen.others_with_colour >= 5000, "{seen:?}");
        assert!(seen.entries_seen >= 30, "{seen:?}");
        assert!(seen.registers_seen >= 15, "{seen:?}");
    }
}
