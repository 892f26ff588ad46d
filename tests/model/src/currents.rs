//! The output currents of a chip 1 tick: Table 6 of the TLC34058's data sheet,
//! in hundredths of a milliampere.

use crate::event::{event, kind, refused_answer, Answer, Operand, ANSWER_BYTES};
use crate::refusal::Refusal;
use crate::run::returned;
use crate::snapshot::{save, try_restore, END_BUFFER_BYTES};
use crate::state::State;

/// Pixels A to E.
const PIXELS: usize = 5;
/// Currents of a tick: IOG, IOR and IOB of each pixel.
pub const CURRENTS: usize = 3 * PIXELS;
/// Bytes of an answer and of the currents behind it, 2 each.
pub const CURRENTS_OUT_BYTES: usize = ANSWER_BYTES + 2 * CURRENTS;

/// Green, red, blue of pixels A to E, in hundredths of a milliampere.
pub type Currents = [u16; CURRENTS];

/// One row of Table 6.
struct Row {
    iog: u16,
    /// IOR and IOB, which are alike.
    others: u16,
}

const WHITE: Row = Row {
    iog: 2667,
    others: 1905,
};
const BLACK: Row = Row {
    iog: 905,
    others: 144,
};
const BLACK_WITHOUT_SYNC: Row = Row {
    iog: 144,
    others: 144,
};
/// The table's second row named BLACK, the one with BLK low.
const BLANK: Row = Row {
    iog: 762,
    others: 0,
};
const BLANK_WITHOUT_SYNC: Row = Row { iog: 0, others: 0 };

/// The code of white, FFh.
const WHITE_CODE: u32 = 255;

/// A chip 1 tick: its answer, the next state and the currents. Looks for 40,
/// then for what the tick as an event called by itself looks for. A refused
/// call answers with its number in byte 0, hands the state back as it came and
/// has 0 for every current.
pub fn tick_currents(state: &State, operand: &Operand) -> (Answer, State, Currents) {
    if let Err(refusal) = check_chip(state) {
        return (refused_answer(refusal), state.clone(), [0; CURRENTS]);
    }
    let (answer, next) = event(state, kind::TICK, operand);
    let currents = if answer[0] == 0 {
        shown_currents(&answer)
    } else {
        [0; CURRENTS]
    };
    (answer, next, currents)
}

/// The same from a snapshot, into lent buffers: the answer and then the
/// currents, 2 bytes each, start `out`; the next state's snapshot starts `end`.
/// Looks for 20 to 25, 40, then 13 (operand not 8 bytes), 30 and 31. Bytes past
/// what is written don't change, and a refused call changes no byte at all.
/// Returns as a run does; a refused tick (4) sits in its answer.
pub fn tick_currents_into(snapshot: &[u8], operand: &[u8], out: &mut [u8], end: &mut [u8]) -> u64 {
    returned(try_tick_currents_into(snapshot, operand, out, end))
}

/// Everything that can refuse comes before the first byte is written.
fn try_tick_currents_into(
    snapshot: &[u8],
    operand: &[u8],
    out: &mut [u8],
    end: &mut [u8],
) -> Result<usize, Refusal> {
    let state = try_restore(snapshot)?;
    check_chip(&state)?;
    let operand: &Operand = operand.try_into().map_err(|_| Refusal::LogLength)?;
    if out.len() < CURRENTS_OUT_BYTES {
        return Err(Refusal::AnswerBuffer);
    }
    if end.len() < END_BUFFER_BYTES {
        return Err(Refusal::EndBuffer);
    }
    let (answer, next, currents) = tick_currents(&state, operand);
    let end_snapshot = save(&next)?;

    let (answer_bytes, behind) = out.split_at_mut(ANSWER_BYTES);
    answer_bytes.copy_from_slice(&answer);
    for (bytes, current) in behind.chunks_exact_mut(2).zip(currents) {
        bytes.copy_from_slice(&current.to_le_bytes());
    }
    end[..end_snapshot.len()].copy_from_slice(&end_snapshot);
    Ok(end_snapshot.len())
}

/// Refusal 40 for every chip but 1, built or not.
fn check_chip(state: &State) -> Result<(), Refusal> {
    match state {
        State::Chip1(_) => Ok(()),
        State::Chip2(_) | State::Chip3(_) | State::NotBuilt(_) => Err(Refusal::CurrentsChip),
    }
}

/// The currents for an unrefused answer: its count, levels and codes say all
/// that Table 6 asks. Pixels past the count have 0, blanked or not.
fn shown_currents(answer: &Answer) -> Currents {
    let (count, levels) = (usize::from(answer[1]), answer[2]);
    let blk_high = levels & 1 != 0;
    let sync_high = levels >> 1 & 1 != 0;

    let mut currents = [0; CURRENTS];
    let codes = answer[3..].chunks_exact(3);
    for (outputs, codes) in currents.chunks_exact_mut(3).zip(codes).take(count) {
        let [red, green, blue] = [codes[0], codes[1], codes[2]];
        outputs.copy_from_slice(&if blk_high {
            data(sync_high, green, red, blue)
        } else {
            blank(sync_high)
        });
    }
    currents
}

/// The rows DATA: each output's black with its data on top.
fn data(sync_high: bool, green: u8, red: u8, blue: u8) -> [u16; 3] {
    let black = if sync_high { BLACK } else { BLACK_WITHOUT_SYNC };
    let iog_span = WHITE.iog - BLACK.iog;
    let others_span = WHITE.others - BLACK.others;
    [
        black.iog + part_of_span(green, iog_span),
        black.others + part_of_span(red, others_span),
        black.others + part_of_span(blue, others_span),
    ]
}

/// The rows with BLK low.
fn blank(sync_high: bool) -> [u16; 3] {
    let row = if sync_high { BLANK } else { BLANK_WITHOUT_SYNC };
    [row.iog, row.others, row.others]
}

/// The whole number nearest to code x span / 255: the quotient and a half,
/// rounded down. 255 is odd, so no quotient lies halfway.
fn part_of_span(code: u8, span: u16) -> u16 {
    let twice = 2 * u32::from(code) * u32::from(span);
    ((twice + WHITE_CODE) / (2 * WHITE_CODE)) as u16
}
