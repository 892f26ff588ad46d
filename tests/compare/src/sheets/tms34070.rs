//! The TMS34070's paragraphs on its registers, on REP and on EXT, and what it
//! refuses.

use super::{example, Example, Places, NOTHING};
use kit::{load, read, save, tick, vertical, write};
use model::Event;

impl Example {
    /// Loads: DA and DB.
    fn loads(mut self, pins: &[(u8, u8)]) -> Example {
        for &(da, db) in pins {
            self = self.event(load(da, db), NOTHING);
        }
        self
    }

    /// A tick with DATEN high: EXT and codes of both pixels.
    fn shows_both(self, pixels: [u8; 2], ext: [u8; 2], codes: [[u8; 3]; 2]) -> Example {
        let [da, db] = pixels;
        let answer = [&[0, 2, 1 + 2 * ext[0] + 4 * ext[1]][..], &codes.concat()].concat();
        self.event(tick([da, db, 0, 0, 0, 0, 0, 1]), &answer)
    }

    /// A tick with DATEN low.
    fn blanked(self, pixels: [u8; 2]) -> Example {
        let [da, db] = pixels;
        self.event(tick([da, db, 0, 0, 0, 0, 0, 0]), &[0, 2, 0])
    }
}

/// Register n's places with these values.
fn register(n: u16, values: [u8; 5]) -> Places {
    (5 * n..).zip(values).collect()
}

/// What the loads of the sheets store in register n: red, green, blue, EXT, REP.
fn loaded(n: u8) -> [u8; 5] {
    [15 - n, n, (n + 7) % 16, n % 2, n / 2 % 2]
}

/// Both halves of register n: red on DA with EXT and REP on DB, then green and
/// blue. DB's bits 2 and 3 have something to ignore.
fn halves(n: u8) -> [(u8, u8); 2] {
    let [red, green, blue, ext, rep] = loaded(n);
    [(red, ext + 2 * rep + 4 * (n % 4)), (green, blue)]
}

/// A chip 3 whose registers are those of `loaded` or, for `rep`, all have it so.
fn loaded_chip(name: &str, rep: Option<u8>, more: &[(u16, u8)]) -> Example {
    let mut start = Vec::new();
    for n in 0..16 {
        let mut values = loaded(n);
        values[4] = rep.unwrap_or(values[4]);
        start.extend(register(n.into(), values));
    }
    start.extend(more);
    start.retain(|&(_, value)| value != 0);
    example(name, 3, &start)
}

pub fn loads() -> Vec<Example> {
    let all: Vec<(u8, u8)> = (0..16).flat_map(halves).collect();
    let registers: Places = (0..16)
        .flat_map(|n| register(n.into(), loaded(n)))
        .collect();
    // Register 15's red is 0; EXT and REP stay held.
    let filled = |name: &str| {
        let filled = example(name, 3, &[]).loads(&all);
        filled.ends(&registers).ends(&[(82, 3)])
    };
    let mut rows = vec![
        filled("32 loads"),
        filled("32 loads and a register")
            .loads(&[(9, 12), (10, 11)])
            .ends(&register(0, [9, 10, 11, 0, 0]))
            .ends(&[(80, 2), (81, 9), (82, 0)]),
        filled("64 loads").loads(&all),
        filled("saves between the halves")
            .event(save(), NOTHING)
            .loads(&[(6, 3)])
            .event(save(), NOTHING)
            .event(save(), NOTHING)
            .loads(&[(5, 4)])
            .event(save(), NOTHING)
            .ends(&register(0, [6, 5, 4, 1, 1]))
            .ends(&[(80, 2), (81, 6), (82, 3)]),
    ];
    for n in 0..16u8 {
        rows.extend(each_half(n));
    }
    rows
}

/// The colour before, as values of its places.
fn before([red, green, blue]: [u8; 3]) -> [(u16, u8); 3] {
    [(83, red), (84, green), (85, blue)]
}

/// Register n's halves one by one, then the register shown: it changes with its
/// second half.
fn each_half(n: u8) -> Vec<Example> {
    let [red, green, blue, ext, _] = loaded(n);
    let at = |position: u8| {
        // Held: red 4, EXT 0, REP 1.
        let more = [&[(80, position), (81, 4), (82, 2)][..], &before([1, 2, 3])].concat();
        loaded_chip("one half", Some(0), &more)
    };
    let first = || {
        let row = at(2 * n).loads(&[(9, 13)]);
        row.ends(&[(80, 2 * n + 1), (81, 9), (82, 1)])
    };
    let second = || {
        let row = at(2 * n + 1).loads(&[(6, 7)]);
        let stored = register(n.into(), [4, 6, 7, 0, 1]);
        row.ends(&stored).ends(&[(80, (2 * n + 2) % 32)])
    };
    let old = [red, green, blue];
    vec![
        first(),
        second(),
        first()
            .shows_both([n, n], [ext; 2], [old; 2])
            .ends(&before(old)),
        second().shows_both([n, n], [0; 2], [[1, 2, 3]; 2]),
    ]
}

const BLACK: [u8; 3] = [0; 3];
const BEFORE: [u8; 3] = [13, 14, 15];
const COLOUR_0: [u8; 3] = [1, 2, 3];
const COLOUR_1: [u8; 3] = [4, 5, 6];

/// Registers 0 and 1 have their colours, 2 and 3 have others and REP, 3 EXT
/// besides.
fn repeating(name: &str) -> Example {
    let start = [
        register(0, [1, 2, 3, 0, 0]),
        register(1, [4, 5, 6, 0, 0]),
        register(2, [7, 8, 9, 0, 1]),
        register(3, [10, 11, 12, 1, 1]),
        before(BEFORE).to_vec(),
    ];
    let mut start = start.concat();
    start.retain(|&(_, value)| value != 0);
    example(name, 3, &start)
}

pub fn rep() -> Vec<Example> {
    // Pixels, EXT, codes; the second code becomes the colour before.
    let table = [
        ([0, 1], [0, 0], [COLOUR_0, COLOUR_1]),
        ([1, 0], [0, 0], [COLOUR_1, COLOUR_0]),
        ([0, 2], [0, 0], [COLOUR_0, COLOUR_0]),
        ([1, 3], [0, 1], [COLOUR_1, COLOUR_1]),
        ([2, 0], [0, 0], [BEFORE, COLOUR_0]),
        ([3, 1], [1, 0], [BEFORE, COLOUR_1]),
        ([2, 2], [0, 0], [BEFORE, BEFORE]),
        ([2, 3], [0, 1], [BEFORE, BEFORE]),
        ([3, 2], [1, 0], [BEFORE, BEFORE]),
    ];
    let one_tick = table.into_iter().map(|(pixels, ext, codes)| {
        let row = repeating("one tick").shows_both(pixels, ext, codes);
        row.ends(&before(codes[1]))
    });
    one_tick.chain(chains()).collect()
}

fn chains() -> [Example; 3] {
    const NINES: [u8; 3] = [9; 3];
    [
        repeating("a chain over ticks, loads and saves")
            .shows_both([2, 3], [0, 1], [BEFORE, BEFORE])
            .shows_both([3, 1], [1, 0], [BEFORE, COLOUR_1])
            .shows_both([2, 2], [0, 0], [COLOUR_1, COLOUR_1])
            .event(save(), NOTHING)
            .loads(&[(9, 0), (9, 9)])
            .shows_both([3, 3], [1, 1], [COLOUR_1, COLOUR_1])
            .shows_both([2, 0], [0, 0], [COLOUR_1, NINES])
            .shows_both([3, 2], [1, 0], [NINES, NINES])
            .ends(&register(0, [9, 9, 9, 0, 0]))
            .ends(&[(80, 2), (81, 9)])
            .ends(&before(NINES)),
        repeating("black after DATEN low")
            .blanked([0, 1])
            .shows_both([2, 3], [0, 1], [BLACK, BLACK])
            .shows_both([3, 1], [1, 0], [BLACK, COLOUR_1])
            .blanked([2, 2])
            .blanked([0, 0])
            .shows_both([2, 2], [0, 0], [BLACK, BLACK])
            .ends(&before(BLACK)),
        repeating("a register loaded anew leaves the colour that was shown")
            .shows_both([1, 0], [0, 0], [COLOUR_1, COLOUR_0])
            .loads(&[(9, 2), (9, 9)])
            .shows_both([0, 0], [0, 0], [COLOUR_0, COLOUR_0])
            .ends(&register(0, [9, 9, 9, 0, 1]))
            .ends(&[(80, 2), (81, 9), (82, 2)])
            .ends(&before(COLOUR_0)),
    ]
}

/// EXT of every pair of registers, whether or not they repeat.
pub fn ext() -> Vec<Example> {
    let mut rows = Vec::new();
    for da in 0..16u8 {
        for (db, rep) in (0..16).flat_map(|db| [(db, 0), (db, 1)]) {
            let colour = |n: u8| match rep {
                0 => [15 - n, n, (n + 7) % 16],
                _ => [8, 9, 10],
            };
            rows.push(
                loaded_chip("EXT", Some(rep), &before([8, 9, 10]))
                    .shows_both([da, db], [da % 2, db % 2], [colour(da), colour(db)])
                    .blanked([da, db])
                    .ends(&before(BLACK)),
            );
        }
    }
    rows
}

pub fn refused() -> Vec<Example> {
    let start = [(80, 3), (81, 5), (82, 1), (83, 6), (84, 7), (85, 8)];
    let row = |event: Event, refusal: u8| {
        let row = loaded_chip("refused", None, &start).event(event, &[refusal]);
        // Nothing changed: register 1's second load stores what was held.
        let stored = register(1, [5, 9, 10, 1, 0]);
        row.loads(&[(9, 10)]).ends(&stored).ends(&[(80, 4)])
    };
    let mut rows = vec![row(vertical(), 5)];
    for selector in [0, 1, 2, 3, 4, 255] {
        rows.push(row(write(selector, 1), 5));
        rows.push(row(read(selector), 5));
    }
    for pins in [(16, 0), (0, 16), (15, 16), (16, 15), (255, 255)] {
        rows.push(row(load(pins.0, pins.1), 4));
        for daten in [0, 1] {
            rows.push(row(tick([pins.0, pins.1, 0, 0, 0, 0, 0, daten]), 4));
        }
    }
    for levels in [2, 3, 128, 255] {
        rows.push(row(tick([15, 15, 0, 0, 0, 0, 0, levels]), 4));
    }
    for chip in [1, 2] {
        for pins in [(0, 0), (15, 15), (16, 255)] {
            rows.push(example("a load elsewhere", chip, &[]).event(load(pins.0, pins.1), &[5]));
        }
    }
    rows
}
