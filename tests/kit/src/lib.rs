//! What the second model's tests, the sequences and the comparison share: a
//! random source, tables of the chips, sizes and limits, builders for events,
//! logs and snapshots, random states and logs, and shuffles.
//!
//! Tables, sizes and limits are copied from documents 01 and 02 and not from the
//! model, so that the model's tests hold the model to them. Nothing of crates/ is
//! used.

#![forbid(unsafe_code)]

mod bytes;
mod chips;
mod events;
mod generate;
mod numbers;
mod random;
mod shuffle;

pub use bytes::{hexadecimal, log_bytes, nonzero, place_values, snapshot_bytes};
pub use chips::{c, p1, p2, p3, rs, undefined_tick_bits, used_bytes, CHIPS, NOT_BUILT};
pub use chips::{chip_of_round, counter_places, entry_places, highest_kind, kinds_not_on};
pub use chips::{largest, not_built, other_chips, place_count, places_that_ticks_move};
pub use chips::{table_places, CURRENTS_CHIP, PLAN_CHIP, UNDEFINED_LOAD_BITS};
pub use events::{is_access, is_display, is_save, is_tick, only, Sort};
pub use events::{load, read, save, tick, vertical, write};
pub use numbers::{ANSWER_BYTES, END_BYTES, EVENT_BYTES, LOG_HEADER_BYTES, MOST_EVENTS};
pub use numbers::{CURRENTS_BYTES, OPERAND_BYTES};
pub use numbers::{MOST_ACCESSES, WANTED_BYTES, WANTED_ENTRIES, WRITES_BYTES};
pub use numbers::{MOST_LOG_BYTES, OLDER_END_BYTES, OLDER_MOST_EVENTS};
pub use random::Random;
pub use shuffle::{before_painting, free_shuffle, painting_shuffle};
pub use shuffle::{riffle, taken_together, with_saves};
