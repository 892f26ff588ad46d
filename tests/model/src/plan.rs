//! The fewest writes to a wanted table: lists of writes through chip 2's port
//! that leave wanted colours, and what is wrong with a list.

use crate::chip2::{Chip2, COLOUR_BITS, ENTRIES};
use crate::event::{event, kind};
use crate::refusal::Refusal;
use crate::run::returned;
use crate::snapshot::try_restore;
use crate::state::State;

/// Red, green, blue.
const COMPONENTS: usize = 3;
/// Bytes of a wanted table, in place order.
pub const WANTED_BYTES: usize = COMPONENTS * ENTRIES;
/// Accesses of the longest list: every entry, in one run.
pub const MOST_ACCESSES: usize = WANTED_BYTES + 1;
/// Bytes of the longest list. Every buffer for a list must have this size,
/// whatever it will hold (43).
pub const WRITES_BYTES: usize = 2 * MOST_ACCESSES;

/// The selectors 2 x RS1 + RS0 of Table 2 but the pixel mask register's.
const ADDRESS_WRITE_MODE: u8 = 0;
const CLT: u8 = 1;
const ADDRESS_READ_MODE: u8 = 3;

/// One write of a list.
#[derive(Clone, Copy, Debug, PartialEq, Eq)]
pub struct Write {
    /// 2 x RS1 + RS0.
    pub selector: u8,
    /// D7 to D0.
    pub byte: u8,
}

/// Red, green, blue of the wanted entries.
type Table = [[u8; COMPONENTS]; ENTRIES];

/// A shortest list of writes that leaves the wanted colours: empty if none
/// differ, otherwise one that starts with an address write. The runs come by
/// rising first entry, one across 255 and 0 last; if all 256 entries differ the
/// one run starts at 0. `room` is the length of the result buffer. Looks for 41,
/// 25, 42, then 43.
pub fn plan(state: &State, wanted: &[u8], room: usize) -> Result<Vec<Write>, Refusal> {
    let (chip, table) = accepted(state, wanted)?;
    if room < WRITES_BYTES {
        return Err(Refusal::WritesBuffer);
    }
    Ok(shortest_list(chip, &table))
}

/// The same from a snapshot, into a lent buffer: selector and byte of each write
/// start `writes`. Looks for 20 to 25, 41, 42, then 43. Bytes past what is
/// written don't change, and a refused call changes no byte at all. Returns as a
/// run does, the number being the count of accesses.
pub fn plan_into(snapshot: &[u8], wanted: &[u8], writes: &mut [u8]) -> u64 {
    returned(try_plan_into(snapshot, wanted, writes))
}

/// Everything that can refuse comes before the first byte is written.
fn try_plan_into(snapshot: &[u8], wanted: &[u8], writes: &mut [u8]) -> Result<usize, Refusal> {
    let state = try_restore(snapshot)?;
    let list = plan(&state, wanted, writes.len())?;
    for (bytes, write) in writes.chunks_exact_mut(2).zip(&list) {
        bytes.copy_from_slice(&[write.selector, write.byte]);
    }
    Ok(list.len())
}

/// 41, 25, then 42: the refusals that don't need the buffer.
fn accepted<'a>(state: &'a State, wanted: &[u8]) -> Result<(&'a Chip2, Table), Refusal> {
    let chip = check_chip(state)?;
    state.check()?;
    Ok((chip, wanted_table(wanted)?))
}

/// Refusal 41 for every chip but 2, built or not.
fn check_chip(state: &State) -> Result<&Chip2, Refusal> {
    match state {
        State::Chip2(chip) => Ok(chip),
        State::Chip1(_) | State::Chip3(_) | State::NotBuilt(_) => Err(Refusal::PlanChip),
    }
}

/// Refusal 42 for a length other than 768 or a byte over 63.
fn wanted_table(wanted: &[u8]) -> Result<Table, Refusal> {
    if wanted.len() != WANTED_BYTES || wanted.iter().any(|&byte| byte > COLOUR_BITS) {
        return Err(Refusal::Wanted);
    }
    let mut table = [[0; COMPONENTS]; ENTRIES];
    table.as_flattened_mut().copy_from_slice(wanted);
    Ok(table)
}

/// A walk once round the table that writes each entry that differs, and the
/// address where the last triple didn't leave it.
fn shortest_list(chip: &Chip2, table: &Table) -> Vec<Write> {
    let mut list = Vec::new();
    // Where the list so far has left the address register.
    let mut address = None;
    for entry in walk(chip, table) {
        let colour = table[usize::from(entry)];
        if chip.clt[usize::from(entry)] == colour {
            continue;
        }
        if address != Some(entry) {
            list.push(write(ADDRESS_WRITE_MODE, entry));
        }
        list.extend(colour.map(|byte| write(CLT, byte)));
        address = Some(entry.wrapping_add(1));
    }
    list
}

/// All 256 entries in the order of the walk, which cuts no run in two: it starts
/// at 0, or behind the part from 0 on of a run across 255 and 0.
fn walk(chip: &Chip2, table: &Table) -> impl Iterator<Item = u8> {
    let equal = |entry: &u8| chip.clt[usize::from(*entry)] == table[usize::from(*entry)];
    let start = match (0..=255).find(equal) {
        Some(first_equal) if !equal(&255) => first_equal,
        _ => 0,
    };
    (0..=255).map(move |step: u8| start.wrapping_add(step))
}

fn write(selector: u8, byte: u8) -> Write {
    Write { selector, byte }
}

/// How many accesses a shortest list has: 3 x the entries that differ plus their
/// runs, entries 255 and 0 being neighbours. Counted from the places, without a
/// list. Nothing if the state isn't a chip 2's or there aren't 768 wanted bytes.
pub fn fewest_accesses(state: &State, wanted: &[u8]) -> Option<usize> {
    if state.chip() != 2 || wanted.len() != WANTED_BYTES {
        return None;
    }
    let places = state.places();
    let differs = |entry: usize| (0..3).any(|c| places[3 * entry + c] != wanted[3 * entry + c]);
    let differing = (0..ENTRIES).filter(|&entry| differs(entry)).count();
    let before = |entry: usize| (entry + ENTRIES - 1) % ENTRIES;
    let starts = (0..ENTRIES).filter(|&entry| differs(entry) && !differs(before(entry)));
    // A run round the whole table starts nowhere, and is one run all the same.
    let runs = if differing == ENTRIES {
        1
    } else {
        starts.count()
    };
    Some(3 * differing + runs)
}

/// What is wrong with a list of writes as an answer for this accepted state and
/// wanted table, if anything. The order of runs, and the first entry when all
/// 256 differ, are left free.
pub fn plan_fault(state: &State, wanted: &[u8], writes: &[Write]) -> Option<String> {
    judge(state, wanted, writes).err()
}

fn judge(state: &State, wanted: &[u8], writes: &[Write]) -> Result<(), String> {
    if let Err(refusal) = accepted(state, wanted) {
        return Err(format!("refusal {} and no list", refusal.number()));
    }
    judge_count(state, wanted, writes.len())?;
    judge_start(writes)?;
    let end = judge_play(state, wanted, writes)?;
    judge_colours(&end, wanted)
}

fn judge_count(state: &State, wanted: &[u8], count: usize) -> Result<(), String> {
    match fewest_accesses(state, wanted).ok_or("nothing to count")? {
        fewest if fewest == count => Ok(()),
        0 => Err(format!("{count} accesses though nothing differs")),
        fewest => Err(format!("{count} accesses, the fewest being {fewest}")),
    }
}

/// An address write is a write of selector 0 or 3.
fn judge_start(writes: &[Write]) -> Result<(), String> {
    match writes.first().map(|write| write.selector) {
        None | Some(ADDRESS_WRITE_MODE | ADDRESS_READ_MODE) => Ok(()),
        Some(selector) => Err(format!("starts with a write of selector {selector}")),
    }
}

/// Plays the list write by write as events, and gives the state at its end.
fn judge_play(state: &State, wanted: &[u8], writes: &[Write]) -> Result<State, String> {
    let mut state = state.clone();
    for (index, write) in writes.iter().enumerate() {
        judge_byte(&state, wanted, write).map_err(|fault| format!("write {index}: {fault}"))?;
        let operand = [write.selector, write.byte, 0, 0, 0, 0, 0, 0];
        let (answer, next) = event(&state, kind::WRITE, &operand);
        if answer[0] != 0 {
            return Err(format!("write {index}: refused with {}", answer[0]));
        }
        state = next;
    }
    Ok(state)
}

/// A colour byte is the wanted byte of the place that it goes to, whole: bits 6
/// and 7, which the chip drops, are 0 too.
fn judge_byte(state: &State, wanted: &[u8], write: &Write) -> Result<(), String> {
    let chip = check_chip(state).map_err(|_| "not a chip 2")?;
    let place = COMPONENTS * usize::from(chip.address) + usize::from(chip.position);
    if write.selector == CLT && write.byte != wanted[place] {
        return Err(format!(
            "byte {} for place {place}, where {} is wanted",
            write.byte, wanted[place]
        ));
    }
    Ok(())
}

/// The colours are exactly the wanted ones.
fn judge_colours(end: &State, wanted: &[u8]) -> Result<(), String> {
    let places = end.places();
    match (0..WANTED_BYTES).find(|&place| places[place] != wanted[place]) {
        None => Ok(()),
        Some(place) => Err(format!(
            "place {place} is left {}, where {} is wanted",
            places[place], wanted[place]
        )),
    }
}
