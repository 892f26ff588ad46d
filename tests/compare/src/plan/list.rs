//! A list of writes as bytes, selector and byte of each, and what is wrong with
//! it.

use kit::{log_bytes, write, PLAN_CHIP};
use model::{plan_fault, Event, State, Write};

/// The writes that these bytes are.
fn writes(bytes: &[u8]) -> Vec<Write> {
    let both = bytes.chunks_exact(2);
    both.map(|both| Write {
        selector: both[0],
        byte: both[1],
    })
    .collect()
}

/// What is wrong with a list for this state and these wanted bytes, which are
/// accepted, if anything.
pub fn fault(state: &State, wanted: &[u8], list: &[u8]) -> Option<String> {
    plan_fault(state, wanted, &writes(list)).map(|fault| format!("the list: {fault}"))
}

/// The log that makes these writes.
pub fn log(list: &[u8]) -> Vec<u8> {
    let event = |both: &[u8]| write(both[0], both[1]);
    let events: Vec<Event> = list.chunks_exact(2).map(event).collect();
    log_bytes(PLAN_CHIP, &events)
}
