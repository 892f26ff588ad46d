//! Wanted colours that differ from a state's in chosen entries, and such as are
//! refused.

use kit::{largest, Random, PLAN_CHIP, WANTED_BYTES, WANTED_ENTRIES};

/// The largest value of a colour.
pub const LARGEST: u8 = 63;

/// The colours of these places, other than they are in just these entries, each
/// in one, two or three components.
pub fn differing(random: &mut Random, places: &[u8], is: impl Fn(usize) -> bool) -> Vec<u8> {
    let mut wanted = places[..WANTED_BYTES].to_vec();
    for (_, colour) in wanted.chunks_mut(3).enumerate().filter(|&(n, _)| is(n)) {
        let components = 1 + random.below(7);
        for (number, code) in colour.iter_mut().enumerate() {
            if components >> number & 1 == 1 {
                *code = another(random, *code);
            }
        }
    }
    wanted
}

/// Another code, often one that differs in a single bit.
pub fn another(random: &mut Random, code: u8) -> u8 {
    match random.one_in(2) {
        true => code ^ random.bit_of(LARGEST),
        false => (code + 1 + random.up_to(LARGEST - 1)) & LARGEST,
    }
}

/// Whether an entry is one of so many from the first on, 0 following 255.
pub fn in_run(entry: usize, first: usize, count: usize) -> bool {
    (entry + WANTED_ENTRIES - first) % WANTED_ENTRIES < count
}

/// Which entries differ: from few of 256 to nearly all.
pub fn at_random(random: &mut Random) -> Vec<bool> {
    let percent = random.pick(&[1, 5, 25, 50, 75, 95, 99]);
    let differs = |_| random.below(100) < percent;
    (0..WANTED_ENTRIES).map(differs).collect()
}

/// Which entries differ: one or many in a run, and so in a gap, from any entry
/// on.
pub fn runs_and_gaps(random: &mut Random) -> Vec<bool> {
    let (longest, widest) = (random.pick(&[1, 3, 40, 255]), random.pick(&[1, 3, 40]));
    let mut differs = Vec::new();
    while differs.len() < WANTED_ENTRIES {
        let (run, gap) = (1 + random.below(longest), 1 + random.below(widest));
        differs.extend(vec![true; run]);
        differs.extend(vec![false; gap]);
    }
    differs.truncate(WANTED_ENTRIES);
    differs.rotate_left(random.below(WANTED_ENTRIES));
    differs
}

/// Wanted bytes that are refused: another length than there must be, or one to
/// three bytes over the largest.
pub fn spoil(random: &mut Random, wanted: &mut Vec<u8>) {
    if random.one_in(2) {
        let len = another_length(random);
        wanted.resize(len, random.up_to(LARGEST));
        return;
    }
    for _ in 0..random.pick(&[1, 1, 2, 3]) {
        let place = random.index(wanted.len());
        let any = LARGEST + 1 + random.up_to(u8::MAX - LARGEST - 1);
        wanted[place] = random.pick(&[LARGEST + 1, 128, u8::MAX, any]);
    }
}

fn another_length(random: &mut Random) -> usize {
    let shorter = random.below(WANTED_BYTES);
    let longer = WANTED_BYTES + 1 + random.below(WANTED_BYTES);
    let near = random.pick(&[WANTED_BYTES - 1, WANTED_BYTES + 1]);
    random.pick(&[0, near, shorter, longer, 2 * WANTED_BYTES])
}

/// As many wanted bytes as there must be, those that are too large made largest.
pub fn mend(wanted: &mut Vec<u8>) {
    wanted.resize(WANTED_BYTES, 0);
    for (place, byte) in wanted.iter_mut().enumerate() {
        *byte = largest(PLAN_CHIP, place).min(*byte);
    }
}
