//! Events, and the sorts of them.

use model::{kind, Event, Operand};

pub fn write(selector: u8, byte: u8) -> Event {
    Event {
        kind: kind::WRITE,
        operand: [selector, byte, 0, 0, 0, 0, 0, 0],
    }
}

pub fn read(selector: u8) -> Event {
    Event {
        kind: kind::READ,
        operand: [selector, 0, 0, 0, 0, 0, 0, 0],
    }
}

pub fn tick(operand: Operand) -> Event {
    Event {
        kind: kind::TICK,
        operand,
    }
}

pub fn vertical() -> Event {
    Event {
        kind: kind::VERTICAL,
        operand: [0; 8],
    }
}

pub fn save() -> Event {
    Event {
        kind: kind::SAVE,
        operand: [0; 8],
    }
}

pub fn load(da: u8, db: u8) -> Event {
    Event {
        kind: kind::LOAD,
        operand: [da, db, 0, 0, 0, 0, 0, 0],
    }
}

/// Whether an event is of a sort.
pub type Sort = fn(&Event) -> bool;

pub fn is_access(event: &Event) -> bool {
    matches!(event.kind, kind::WRITE | kind::READ | kind::LOAD)
}

pub fn is_display(event: &Event) -> bool {
    event.kind == kind::TICK || event.kind == kind::VERTICAL
}

pub fn is_tick(event: &Event) -> bool {
    event.kind == kind::TICK
}

pub fn is_save(event: &Event) -> bool {
    event.kind == kind::SAVE
}

/// The events of one sort, in their order.
pub fn only(events: &[Event], sort: Sort) -> Vec<Event> {
    events.iter().copied().filter(sort).collect()
}
