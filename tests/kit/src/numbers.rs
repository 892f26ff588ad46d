//! The sizes and limits of answers, logs, snapshots, currents and plans. Copied
//! from documents 01 and 02 and, of the calls for currents and plans, from the C
//! header.

use crate::chips::p1;

/// An event's answer.
pub const ANSWER_BYTES: usize = 18;
/// The end buffer needs this much, and so does a buffer that is saved into: chip
/// 1's longest snapshot.
pub const END_BYTES: usize = snapshot_length(p1::COUNT);
/// What it needed before document 02's Note 7.
pub const OLDER_END_BYTES: usize = snapshot_length(p1::OLDER_COUNT);
/// The most events of a log.
pub const MOST_EVENTS: usize = 7000;
/// The most events of a log before document 02's Note 2.
pub const OLDER_MOST_EVENTS: usize = 3000;
/// A log's chip byte and count.
pub const LOG_HEADER_BYTES: usize = 5;
/// An event in a log: kind and operand.
pub const EVENT_BYTES: usize = 9;
/// The longest log.
pub const MOST_LOG_BYTES: usize = LOG_HEADER_BYTES + EVENT_BYTES * MOST_EVENTS;
/// The operand alone, which the currents take too.
pub const OPERAND_BYTES: usize = 8;
/// A tick's answer, and behind it three currents of 2 bytes for each of pixels
/// A to E.
pub const CURRENTS_BYTES: usize = ANSWER_BYTES + 2 * 3 * 5;
/// The entries of the table that a plan is for.
pub const WANTED_ENTRIES: usize = 256;
/// The wanted colours of a plan, in place order.
pub const WANTED_BYTES: usize = 3 * WANTED_ENTRIES;
/// The most accesses of a plan.
pub const MOST_ACCESSES: usize = 769;
/// The buffer for a plan needs this much, however short the list: selector and
/// byte of each write.
pub const WRITES_BYTES: usize = 2 * MOST_ACCESSES;

/// The bytes of a snapshot with this many places: chip byte and count, then the
/// number and the value of each.
const fn snapshot_length(places: usize) -> usize {
    3 + 3 * places
}
