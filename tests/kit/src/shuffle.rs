//! Shuffles of a log that demand 3 speaks of.

use crate::events::{is_access, is_display, only, save, Sort};
use crate::random::Random;
use model::Event;

/// Both lists riffled together, each keeping its order.
pub fn riffle(random: &mut Random, accesses: &[Event], displays: &[Event]) -> Vec<Event> {
    let (mut a, mut d) = (accesses.iter(), displays.iter());
    let mut riffled = Vec::new();
    while a.len() + d.len() > 0 {
        let from_a = random.below(a.len() + d.len()) < a.len();
        let next = if from_a { a.next() } else { d.next() };
        riffled.extend(next.copied());
    }
    riffled
}

/// Any shuffle that keeps the accesses and the display events in their order.
/// Saves are left out.
pub fn free_shuffle(random: &mut Random, events: &[Event]) -> Vec<Event> {
    riffle(random, &only(events, is_access), &only(events, is_display))
}

/// A shuffle that also keeps the display events before every painting access, or
/// before whichever accesses are given: each stretch between them is riffled by
/// itself.
pub fn painting_shuffle(random: &mut Random, events: &[Event], painting: &[usize]) -> Vec<Event> {
    let mut shuffled = Vec::new();
    let mut start = 0;
    for &stop in painting {
        shuffled.extend(free_shuffle(random, &events[start..stop]));
        shuffled.push(events[stop]);
        start = stop + 1;
    }
    shuffled.extend(free_shuffle(random, &events[start..]));
    shuffled
}

/// Saves put anywhere, the first and the last place too, any number of them:
/// at each place another follows one time in `often`.
pub fn with_saves(random: &mut Random, events: &[Event], often: usize) -> Vec<Event> {
    let mut saved = Vec::new();
    let mut put_saves = |saved: &mut Vec<Event>| {
        while random.one_in(often) {
            saved.push(save());
        }
    };
    for &event in events {
        put_saves(&mut saved);
        saved.push(event);
    }
    put_saves(&mut saved);
    saved
}

/// For each painting access, or each of whichever are given, the events of one
/// sort that stand before it.
pub fn before_painting(events: &[Event], painting: &[usize], sort: Sort) -> Vec<usize> {
    let mut counts = Vec::new();
    let (mut start, mut count) = (0, 0);
    for &index in painting {
        count += only(&events[start..index], sort).len();
        counts.push(count);
        start = index;
    }
    counts
}

/// Two lists of indices taken together, such as painting accesses and 07h reads.
pub fn taken_together(one: &[usize], two: &[usize]) -> Vec<usize> {
    let mut both = [one, two].concat();
    both.sort_unstable();
    both.dedup();
    both
}
