//! A second model of three video palette chips: the TLC34058 (chip 1), the
//! HD153129 (chip 2) and the TMS34070 (chip 3), with their snapshots, their
//! logs, the run of a log, the output currents of a chip 1 tick, the fewest
//! writes to a wanted table of chip 2, the painting accesses, the reads of chip
//! 1's test register and the printing program's output.
//!
//! It rests on document 01 (the scope paper, `01-scope.md`), on Notes 1 to 3 and
//! 5 to 7 of document 02 (`02-change-requests.md`) and on the data sheets of the
//! TLC34058 (source document 000), the HD153129 (source document 001) and the
//! TMS34070 (source document 003) alone, independently of the code that it is
//! compared with. Where a paper leaves two readings, the one taken is listed in
//! `docs/MODEL-READINGS.md`.
//!
//! The names are the data sheets': ADDR0-7 and ADDRa,b, RREG and GREG, read
//! mask, blink mask, command register CR0-CR7, test register TR0-TR3, overlay
//! registers, IOR, IOG and IOB, RS0 and RS1, CLT, pixel mask register, DA and DB,
//! DATEN, EXT and REP.
//!
//! What a comparison needs:
//!
//! - [`State::fresh`], [`State::from_places`], [`State::places`]; a state can
//!   name a chip that isn't built
//! - [`restore`], [`save`], [`save_into`]: snapshots and their refusals
//! - [`event`]: one event called by itself on a state
//! - [`run`]: a whole log on byte strings
//! - [`tick_currents`], [`tick_currents_into`]: a chip 1 tick with its output
//!   currents, on a state and on byte strings
//! - [`plan`], [`plan_into`]: a shortest list of writes to a wanted table, on a
//!   state and on byte strings; [`fewest_accesses`], [`plan_fault`]: how many
//!   accesses a shortest list has, and what is wrong with a list
//! - [`painting_accesses`], [`test_register_reads`]: which events of a log paint,
//!   and which are 07h reads
//! - [`printed`]: what the printing program prints for any input

#![forbid(unsafe_code)]
#![warn(missing_docs)]

mod built;
mod chip1;
mod chip2;
mod chip3;
mod currents;
mod event;
mod log;
mod painting;
mod plan;
mod printing;
mod refusal;
mod run;
mod snapshot;
mod state;

pub use built::NotBuilt;
pub use chip1::Chip1;
pub use chip2::Chip2;
pub use chip3::{Chip3, Register};
pub use currents::{tick_currents, tick_currents_into, Currents, CURRENTS, CURRENTS_OUT_BYTES};
pub use event::{event, kind, Answer, Operand, ANSWER_BYTES};
pub use log::{read_log, Event, Log, MOST_EVENTS};
pub use painting::{painting_accesses, test_register_reads};
pub use plan::{fewest_accesses, plan, plan_fault, plan_into, Write};
pub use plan::{MOST_ACCESSES, WANTED_BYTES, WRITES_BYTES};
pub use printing::printed;
pub use refusal::Refusal;
pub use run::run;
pub use snapshot::{restore, save, save_into, Restored, Saved, END_BUFFER_BYTES};
pub use state::State;
