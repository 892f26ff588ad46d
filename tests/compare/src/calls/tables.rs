//! What the calls on a state must have shown, by the sort of call.

use crate::report::{before, row, Table, ACCEPTED};
use model::Refusal;

pub static TABLES: [&Table; 5] = [&EVENTS, &SAVES, &RESTORES, &CURRENTS, &PLANS];

/// Event called by itself: 21, 25, 14, 15, then 5 where the chip lacks the kind,
/// then 1 to 4.
pub static EVENTS: Table = Table {
    title: "events called by themselves",
    rows: &[
        ACCEPTED,
        row(Refusal::Selector, "selector over 3"),
        row(Refusal::Address, "overlay or control address"),
        row(Refusal::Direction, "direction"),
        row(Refusal::UndefinedBits, "undefined bits of a tick or a load"),
        row(Refusal::NotOnChip, "an event that the chip doesn't have"),
        row(Refusal::Kind, "kind over the highest"),
        row(Refusal::UnusedByte, "unused operand byte"),
        row(Refusal::SnapshotChip, "state's chip not built"),
        row(Refusal::Value, "state's value above its largest"),
        before(Refusal::SnapshotChip, Refusal::Value),
        before(Refusal::SnapshotChip, Refusal::Kind),
        before(Refusal::SnapshotChip, Refusal::UnusedByte),
        before(Refusal::SnapshotChip, Refusal::Selector),
        before(Refusal::SnapshotChip, Refusal::Address),
        before(Refusal::SnapshotChip, Refusal::Direction),
        before(Refusal::SnapshotChip, Refusal::UndefinedBits),
        before(Refusal::SnapshotChip, Refusal::NotOnChip),
        before(Refusal::Value, Refusal::Kind),
        before(Refusal::Value, Refusal::UnusedByte),
        before(Refusal::Value, Refusal::Selector),
        before(Refusal::Value, Refusal::Address),
        before(Refusal::Value, Refusal::Direction),
        before(Refusal::Value, Refusal::UndefinedBits),
        before(Refusal::Value, Refusal::NotOnChip),
        before(Refusal::Kind, Refusal::UnusedByte),
        before(Refusal::UnusedByte, Refusal::Selector),
        before(Refusal::UnusedByte, Refusal::Address),
        before(Refusal::UnusedByte, Refusal::Direction),
        before(Refusal::UnusedByte, Refusal::UndefinedBits),
        before(Refusal::UnusedByte, Refusal::NotOnChip),
        before(Refusal::NotOnChip, Refusal::Selector),
        before(Refusal::NotOnChip, Refusal::Address),
        before(Refusal::NotOnChip, Refusal::Direction),
        before(Refusal::NotOnChip, Refusal::UndefinedBits),
    ],
};

/// Save into a lent buffer: 21, 25, then 31.
pub static SAVES: Table = Table {
    title: "saves into a lent buffer",
    rows: &[
        ACCEPTED,
        row(Refusal::SnapshotChip, "state's chip not built"),
        row(Refusal::Value, "state's value above its largest"),
        row(Refusal::EndBuffer, "buffer"),
        before(Refusal::SnapshotChip, Refusal::Value),
        before(Refusal::SnapshotChip, Refusal::EndBuffer),
        before(Refusal::Value, Refusal::EndBuffer),
    ],
};

/// Restore: 20 to 25.
pub static RESTORES: Table = Table {
    title: "restores",
    rows: &[
        ACCEPTED,
        row(Refusal::SnapshotShort, "snapshot under 3 bytes"),
        row(Refusal::SnapshotChip, "snapshot's chip"),
        row(Refusal::SnapshotCount, "snapshot's count"),
        row(Refusal::SnapshotLength, "snapshot's length"),
        row(Refusal::Place, "place"),
        row(Refusal::Value, "value"),
    ],
};

/// Currents: 40, 25, then 4.
pub static CURRENTS: Table = Table {
    title: "currents on a state",
    rows: &[
        ACCEPTED,
        row(Refusal::UndefinedBits, "tick bits"),
        row(Refusal::Value, "state's value above its largest"),
        row(Refusal::CurrentsChip, "another chip, built or not"),
        before(Refusal::CurrentsChip, Refusal::Value),
        before(Refusal::CurrentsChip, Refusal::UndefinedBits),
        before(Refusal::Value, Refusal::UndefinedBits),
    ],
};

/// Plans: 41, 25, 42, then 43.
pub static PLANS: Table = Table {
    title: "plans on a state",
    rows: &[
        ACCEPTED,
        row(Refusal::Value, "state's value above its largest"),
        row(Refusal::PlanChip, "another chip, built or not"),
        row(Refusal::Wanted, "wanted bytes"),
        row(Refusal::WritesBuffer, "buffer"),
        before(Refusal::PlanChip, Refusal::Value),
        before(Refusal::PlanChip, Refusal::Wanted),
        before(Refusal::PlanChip, Refusal::WritesBuffer),
        before(Refusal::Value, Refusal::Wanted),
        before(Refusal::Value, Refusal::WritesBuffer),
        before(Refusal::Wanted, Refusal::WritesBuffer),
    ],
};
