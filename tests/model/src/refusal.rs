//! The refusal table of document 01, refusal 12 with the limit of document 02's
//! Note 2, refusals 4, 5 and 14 with what Note 3 adds to them, refusal 31 with the
//! size of Note 7, and the refusals that Note 1 adds for the currents and Note 6
//! for the fewest writes.

/// A refusal, with the number that its document gives it, or the C header for
/// the currents' call on byte strings.
#[derive(Clone, Copy, Debug, PartialEq, Eq)]
#[repr(u8)]
pub enum Refusal {
    /// Selector over 3.
    Selector = 1,
    /// Chip 1: overlay access with address over 3, control access with address
    /// outside 4 to 7.
    Address = 2,
    /// Chip 2: colour write in direction read, colour read in direction write.
    Direction = 3,
    /// Tick: OL bits 5 to 7 or undefined level bits set. Chip 3, load or tick:
    /// DA or DB over 15.
    UndefinedBits = 4,
    /// An event that the chip doesn't have: vertical period on chip 2; load on
    /// chips 1 and 2; write, read or vertical period on chip 3.
    NotOnChip = 5,
    /// Log under 5 bytes.
    LogShort = 10,
    /// Log's chip not built.
    LogChip = 11,
    /// Log's count over [`MOST_EVENTS`](crate::MOST_EVENTS).
    LogCount = 12,
    /// Log's length not 5 + 9n; operand, lent for its currents, not 8 bytes.
    LogLength = 13,
    /// Event kind over 5.
    Kind = 14,
    /// Unused operand byte not 0.
    UnusedByte = 15,
    /// Snapshot under 3 bytes.
    SnapshotShort = 20,
    /// Chip of a snapshot, or of a state handed in, not built.
    SnapshotChip = 21,
    /// Snapshot's count over the chip's places.
    SnapshotCount = 22,
    /// Snapshot's length not 3 + 3N.
    SnapshotLength = 23,
    /// Place outside the chip or not above the one before.
    Place = 24,
    /// Value 0 (in a snapshot) or above its place's largest (in a state too).
    Value = 25,
    /// Snapshot and log for two chips.
    TwoChips = 26,
    /// Answer buffer under 18n bytes; under 48 for an answer and its currents.
    AnswerBuffer = 30,
    /// End buffer under [`END_BUFFER_BYTES`](crate::END_BUFFER_BYTES).
    EndBuffer = 31,
    /// Currents asked for a chip other than 1.
    CurrentsChip = 40,
    /// Fewest writes asked for a chip other than 2.
    PlanChip = 41,
    /// Wanted bytes not 768, or one over 63.
    Wanted = 42,
    /// Result buffer under 1,538 bytes, however short the list.
    WritesBuffer = 43,
}

impl Refusal {
    /// The number that is returned or sits in an answer.
    pub fn number(self) -> u8 {
        self as u8
    }
}
