//! Damage to the text of a log, and shorter texts.

use kit::{Random, MOST_EVENTS};
use std::ops::Range;

/// A fault put into a text.
type Damage = fn(&mut Random, &mut Vec<u8>);

/// Lines come more often: the others mostly leave no text of a log.
const DAMAGES: &[Damage] = &[
    change_bytes,
    remove_bytes,
    repeat_bytes,
    drop_line,
    drop_line,
    repeat_line,
    repeat_line,
    put_random_bytes,
    put_zeros,
];

/// What a text may be damaged with and still have a meaning.
const PLAIN: &[u8] = b"0123456789abcdefABCDEFhlorstw-# \t\r\n";

/// The text with one to three faults, some of which leave it a text of a log.
pub fn damaged(random: &mut Random, text: &[u8]) -> Vec<u8> {
    let mut text = text.to_vec();
    for _ in 0..random.pick(&[1, 1, 1, 2, 3]) {
        let damage = random.pick(DAMAGES);
        damage(random, &mut text);
    }
    text
}

/// Some bytes that stand together, at most this many.
fn stretch(random: &mut Random, text: &[u8], most: usize) -> Range<usize> {
    let start = random.below(text.len() + 1);
    let len = 1 + random.below(most);
    start..text.len().min(start + len)
}

fn put(random: &mut Random, text: &mut Vec<u8>, bytes: Vec<u8>) {
    let at = random.index(text.len() + 1);
    text.splice(at..at, bytes);
}

fn change_bytes(random: &mut Random, text: &mut Vec<u8>) {
    let odd = random.one_in(3);
    let changed = stretch(random, text, 2);
    for byte in &mut text[changed] {
        *byte = match odd {
            true => random.byte(),
            false => random.pick(PLAIN),
        };
    }
}

fn remove_bytes(random: &mut Random, text: &mut Vec<u8>) {
    let removed = stretch(random, text, 6);
    text.drain(removed);
}

/// Some bytes twice, or so often that a word or a line becomes long.
fn repeat_bytes(random: &mut Random, text: &mut Vec<u8>) {
    let stretch = stretch(random, text, 8);
    let more = random.pick(&[1, 1, 2, 30, 31, 32, 400]);
    let repeated = text[stretch.clone()].repeat(more);
    text.splice(stretch.start..stretch.start, repeated);
}

fn lines(text: &[u8]) -> Vec<&[u8]> {
    text.split_inclusive(|&byte| byte == b'\n').collect()
}

fn drop_line(random: &mut Random, text: &mut Vec<u8>) {
    let mut lines = lines(text);
    if !lines.is_empty() {
        lines.remove(random.below(lines.len()));
    }
    *text = lines.concat();
}

/// A line again, now and then more often than a log has events.
fn repeat_line(random: &mut Random, text: &mut Vec<u8>) {
    let mut lines = lines(text);
    if lines.is_empty() {
        return;
    }
    let at = random.below(lines.len());
    let more = match random.below(24) {
        0 => MOST_EVENTS,
        n => 1 + n % 3,
    };
    lines.splice(at..at, vec![lines[at]; more]);
    *text = lines.concat();
}

/// In the text or instead of it.
fn put_random_bytes(random: &mut Random, text: &mut Vec<u8>) {
    let count = 1 + random.below(40);
    let bytes = random.bytes(count);
    if random.one_in(6) {
        text.clear();
    }
    put(random, text, bytes);
}

fn put_zeros(random: &mut Random, text: &mut Vec<u8>) {
    let zeros = vec![0; 1 + random.below(4)];
    put(random, text, zeros);
}

/// A text of fewer lines that still fails, found in at most `tries` tries,
/// which are taken off.
pub fn shrunk(text: &[u8], tries: &mut usize, fails: &dyn Fn(&[u8]) -> bool) -> Vec<u8> {
    let mut best = lines(text);
    let mut run = best.len();
    while run > 0 {
        let mut start = 0;
        while start + run <= best.len() && *tries > 0 {
            *tries -= 1;
            let fewer = [&best[..start], &best[start + run..]].concat();
            if fails(&fewer.concat()) {
                best = fewer;
            } else {
                start += run;
            }
        }
        run /= 2;
    }
    best.concat()
}
