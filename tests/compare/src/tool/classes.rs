//! The classes of inputs for the tool, and what each must reach.

use crate::report::{row, Table, ACCEPTED};
use crate::tool::check::{self, Checked};
use crate::tool::input::Input;
use crate::tool::make::{self, Made};
use crate::tool::Tool;
use kit::{Random, CHIPS};
use model::Refusal;

pub struct Class {
    pub name: &'static str,
    /// One input for so many of the first class.
    share: usize,
    /// As many as it takes to reach all that must be reached.
    fewest: usize,
    /// What must be reached beside the class itself.
    pub parts: &'static [&'static str],
    /// The refusals that must be reached, and no other.
    pub table: Option<&'static Table>,
    /// Makes the input with this number.
    pub make: fn(&Tool, &mut Random, usize) -> Made,
    pub check: fn(&Tool, &Input) -> Checked,
}

impl Class {
    /// How many inputs there are when the first class has so many.
    pub fn inputs(&self, first: usize) -> usize {
        self.fewest.max(first / self.share)
    }
}

pub const LISTED_CHIPS: [&str; CHIPS.len()] = [
    "tool: list, then assemble: chip 1",
    "tool: list, then assemble: chip 2",
    "tool: list, then assemble: chip 3",
];
pub const LISTED_EMPTY: &str = "tool: list, then assemble: no event";
pub const LISTED_MOST: &str = "tool: list, then assemble: as many events as there may be";
pub const LISTED_VERTICALS: &str = "tool: list, then assemble: over 255 vertical periods in a row";
pub const LISTED_LOADS: [&str; CHIPS.len()] = [
    "tool: list, then assemble: loads, chip 1",
    "tool: list, then assemble: loads, chip 2",
    "tool: list, then assemble: loads, chip 3",
];
pub const LISTED_PIECES: &str = "tool: list, then assemble: in small pieces through a pipe";
pub const RUN_CHIPS: [&str; CHIPS.len()] = [
    "tool: run and the end snapshot: chip 1",
    "tool: run and the end snapshot: chip 2",
    "tool: run and the end snapshot: chip 3",
];
pub const RUN_TICK: &str = "tool: run and the end snapshot: ticks not blanked";
pub const RUN_BLANKED: &str = "tool: run and the end snapshot: ticks blanked";
pub const RUN_PAINTED: [&str; 4] = [
    "tool: run and the end snapshot: palette entries painted",
    "tool: run and the end snapshot: overlays painted",
    "tool: run and the end snapshot: chip 1's registers painted",
    "tool: run and the end snapshot: chip 2's mask painted",
];
pub const RUN_PIXEL_BITS: &str = "tool: run and the end snapshot: ticks with EXT bits";
pub const LONG_LOG: &str = "tool: inputs longer than any buffer: logs";
pub const LONG_SNAPSHOT: &str = "tool: inputs longer than any buffer: snapshots";
pub const ASSEMBLED: &str = "tool: damaged texts: assembled";
pub const NOT_UNDERSTOOD: &str = "tool: damaged texts: not understood";
pub const SHOWN_CHIPS: [&str; CHIPS.len()] = [
    "tool: show and diff: chip 1",
    "tool: show and diff: chip 2",
    "tool: show and diff: chip 3",
];
pub const SHOWN_DIFFERENT: &str = "tool: show and diff: places that differ";
pub const SHOWN_LAST_PIXEL: &str = "tool: show and diff: a last pixel that isn't black";
pub const CURRENTS_FOUR: &str = "tool: currents: four pixels";
pub const CURRENTS_FIVE: &str = "tool: currents: five pixels";
pub const CURRENTS_BLANKED: &str = "tool: currents: blanked";
pub const PLAN_EMPTY: &str = "tool: plan: nothing differs";
pub const PLAN_ALL: &str = "tool: plan: all 256 entries differ";
pub const PLAN_ACROSS: &str = "tool: plan: a run across 255 and 0";
pub const PLAN_RUNS: &str = "tool: plan: several runs";

pub const CLASSES: &[Class] = &[
    Class {
        name: "tool: list, then assemble",
        share: 1,
        fewest: 40,
        parts: &[
            LISTED_CHIPS[0],
            LISTED_CHIPS[1],
            LISTED_CHIPS[2],
            LISTED_EMPTY,
            LISTED_MOST,
            LISTED_VERTICALS,
            LISTED_LOADS[0],
            LISTED_LOADS[1],
            LISTED_LOADS[2],
            LISTED_PIECES,
        ],
        table: Some(&LISTED),
        make: make::accepted_log,
        check: check::listed_and_assembled,
    },
    Class {
        name: "tool: list refuses",
        share: 5,
        fewest: 24,
        parts: &[],
        table: Some(&LIST_REFUSES),
        make: make::refused_log,
        check: check::listed_and_assembled,
    },
    Class {
        name: "tool: run and the end snapshot",
        share: 4,
        fewest: 24,
        parts: &[
            RUN_CHIPS[0],
            RUN_CHIPS[1],
            RUN_CHIPS[2],
            RUN_TICK,
            RUN_BLANKED,
            RUN_PIXEL_BITS,
            RUN_PAINTED[0],
            RUN_PAINTED[1],
            RUN_PAINTED[2],
            RUN_PAINTED[3],
        ],
        table: Some(&RUN),
        make: make::accepted_run,
        check: check::played_to_the_end,
    },
    Class {
        name: "tool: run refuses",
        share: 4,
        fewest: 45,
        parts: &[],
        table: Some(&RUN_REFUSES),
        make: make::refused_run,
        check: check::played_to_the_end,
    },
    Class {
        name: "tool: inputs longer than any buffer",
        share: 25,
        fewest: 24,
        parts: &[LONG_LOG, LONG_SNAPSHOT],
        table: Some(&LONG),
        make: make::long_input,
        check: check::refused_whole,
    },
    Class {
        name: "tool: damaged texts",
        share: 3,
        fewest: 60,
        parts: &[ASSEMBLED, NOT_UNDERSTOOD],
        table: None,
        make: make::damaged_text,
        check: check::assembled,
    },
    Class {
        name: "tool: show and diff",
        share: 5,
        fewest: 60,
        parts: &[
            SHOWN_CHIPS[0],
            SHOWN_CHIPS[1],
            SHOWN_CHIPS[2],
            SHOWN_DIFFERENT,
            SHOWN_LAST_PIXEL,
        ],
        table: Some(&SHOWN),
        make: make::two_snapshots,
        check: check::shown_and_compared,
    },
    Class {
        name: "tool: currents",
        share: 5,
        fewest: 96,
        parts: &[CURRENTS_FOUR, CURRENTS_FIVE, CURRENTS_BLANKED],
        table: Some(&CURRENTS),
        make: make::snapshot_and_tick,
        check: check::fed,
    },
    Class {
        name: "tool: plan",
        share: 10,
        fewest: 64,
        parts: &[PLAN_EMPTY, PLAN_ALL, PLAN_ACROSS, PLAN_RUNS],
        table: Some(&PLANS),
        make: make::snapshot_and_wanted,
        check: check::planned,
    },
];

static LISTED: Table = Table {
    title: "list, then assemble",
    rows: &[ACCEPTED],
};

static LIST_REFUSES: Table = Table {
    title: "list",
    rows: &[
        row(Refusal::LogShort, "log under 5 bytes"),
        row(Refusal::LogChip, "log's chip"),
        row(Refusal::LogCount, "log's count"),
        row(Refusal::LogLength, "log's length"),
        row(Refusal::Kind, "kind over the highest"),
        row(Refusal::UnusedByte, "unused operand byte"),
    ],
};

static RUN: Table = Table {
    title: "run, and in the lines that it prints",
    rows: &[
        ACCEPTED,
        row(Refusal::Selector, "selector over 3"),
        row(Refusal::Address, "overlay or control address"),
        row(Refusal::Direction, "direction"),
        row(Refusal::UndefinedBits, "undefined bits of a tick or a load"),
        row(Refusal::NotOnChip, "an event that the chip doesn't have"),
    ],
};

static RUN_REFUSES: Table = Table {
    title: "run",
    rows: &[
        row(Refusal::LogShort, "log under 5 bytes"),
        row(Refusal::LogChip, "log's chip"),
        row(Refusal::LogCount, "log's count"),
        row(Refusal::LogLength, "log's length"),
        row(Refusal::Kind, "kind over the highest"),
        row(Refusal::UnusedByte, "unused operand byte"),
        row(Refusal::SnapshotShort, "snapshot under 3 bytes"),
        row(Refusal::SnapshotChip, "snapshot's chip"),
        row(Refusal::SnapshotCount, "snapshot's count"),
        row(Refusal::SnapshotLength, "snapshot's length"),
        row(Refusal::Place, "place"),
        row(Refusal::Value, "value"),
        row(Refusal::TwoChips, "snapshot and log for two chips"),
    ],
};

static LONG: Table = Table {
    title: "inputs longer than any buffer",
    rows: &[
        row(Refusal::LogChip, "log's chip"),
        row(Refusal::LogCount, "log's count"),
        row(Refusal::LogLength, "log's length"),
        row(Refusal::SnapshotChip, "snapshot's chip"),
        row(Refusal::SnapshotCount, "snapshot's count"),
        row(Refusal::SnapshotLength, "snapshot's length"),
    ],
};

static SHOWN: Table = Table {
    title: "show and diff",
    rows: &[
        ACCEPTED,
        row(Refusal::SnapshotShort, "snapshot under 3 bytes"),
        row(Refusal::SnapshotChip, "snapshot's chip"),
        row(Refusal::SnapshotCount, "snapshot's count"),
        row(Refusal::SnapshotLength, "snapshot's length"),
        row(Refusal::Place, "place"),
        row(Refusal::Value, "value"),
    ],
};

static CURRENTS: Table = Table {
    title: "the tool's currents",
    rows: &[
        ACCEPTED,
        row(Refusal::UndefinedBits, "tick bits"),
        row(Refusal::SnapshotShort, "snapshot under 3 bytes"),
        row(Refusal::SnapshotChip, "snapshot's chip"),
        row(Refusal::SnapshotCount, "snapshot's count"),
        row(Refusal::SnapshotLength, "snapshot's length"),
        row(Refusal::Place, "place"),
        row(Refusal::Value, "value"),
        row(Refusal::CurrentsChip, "another chip"),
    ],
};

static PLANS: Table = Table {
    title: "the tool's plans",
    rows: &[
        ACCEPTED,
        row(Refusal::SnapshotShort, "snapshot under 3 bytes"),
        row(Refusal::SnapshotChip, "snapshot's chip"),
        row(Refusal::SnapshotCount, "snapshot's count"),
        row(Refusal::SnapshotLength, "snapshot's length"),
        row(Refusal::Place, "place"),
        row(Refusal::Value, "value"),
        row(Refusal::PlanChip, "another chip"),
        row(Refusal::Wanted, "wanted bytes"),
    ],
};
