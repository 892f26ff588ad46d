//! What an access paints: the definition that the answers of writes and the
//! list of a log's painting accesses rest on. And which reads look at what was
//! shown.

use crate::event::{event, is_access, kind, Operand};
use crate::log::Event;
use crate::refusal::Refusal;
use crate::run::accepted_pair;
use crate::state::State;

/// What an access paints.
#[derive(Clone, Copy, Debug, PartialEq, Eq)]
pub(crate) enum Painted {
    /// Nothing that a tick looks at.
    Nothing,
    /// Chips 1 and 2: an entry, or a register that the display looks at, by the
    /// number that the write answers with.
    Numbered(u16),
    /// Chip 3: a register of its table. Loads answer no number.
    Unnumbered,
}

/// What an access paints if it isn't refused. The state is the one before the
/// access, which may move the position and the address on.
pub(crate) fn painted(state: &State, kind: u8, operand: &Operand) -> Painted {
    let selector = operand[0];
    match state {
        State::Chip1(chip) if kind == kind::WRITE => chip.painted_by_write(selector),
        State::Chip2(chip) if kind == kind::WRITE => chip.painted_by_write(selector),
        State::Chip3(chip) if kind == kind::LOAD => chip.painted_by_load(),
        State::Chip1(_) | State::Chip2(_) | State::Chip3(_) | State::NotBuilt(_) => {
            Painted::Nothing
        }
    }
}

/// The indices of the painting accesses of a log started from a snapshot. The
/// pair is refused as a run would refuse it (20 to 25, 10 to 15, 26).
///
/// Position, address, direction and chip 3's load position are reckoned from
/// the snapshot and the earlier accesses alone: display events and saves are
/// passed over.
pub fn painting_accesses(snapshot: &[u8], log: &[u8]) -> Result<Vec<usize>, Refusal> {
    accesses_that(would_paint, snapshot, log)
}

/// The indices of the 07h reads of a log started from a snapshot: the unrefused
/// reads of chip 1's test register, whatever they select. Refused and reckoned as
/// painting accesses are.
pub fn test_register_reads(snapshot: &[u8], log: &[u8]) -> Result<Vec<usize>, Refusal> {
    accesses_that(would_read_test, snapshot, log)
}

/// The indices of the unrefused accesses that are of a class.
fn accesses_that(
    of_class: fn(&State, &Event) -> bool,
    snapshot: &[u8],
    log: &[u8],
) -> Result<Vec<usize>, Refusal> {
    let (mut state, log) = accepted_pair(snapshot, log)?;
    let mut indices = Vec::new();
    for (index, entry) in log.events.iter().enumerate() {
        if !is_access(entry.kind) {
            continue;
        }
        let (answer, next) = event(&state, entry.kind, &entry.operand);
        if answer[0] == 0 && of_class(&state, entry) {
            indices.push(index);
        }
        state = next;
    }
    Ok(indices)
}

/// Whether an access paints if it isn't refused.
fn would_paint(state: &State, access: &Event) -> bool {
    painted(state, access.kind, &access.operand) != Painted::Nothing
}

/// Whether an access is a 07h read if it isn't refused.
fn would_read_test(state: &State, access: &Event) -> bool {
    match state {
        State::Chip1(chip) => access.kind == kind::READ && chip.reads_test(access.operand[0]),
        State::Chip2(_) | State::Chip3(_) | State::NotBuilt(_) => false,
    }
}
