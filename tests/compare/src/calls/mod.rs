//! Calls on a state: events, saves into a lent buffer, restores, currents and
//! plans, each called by itself. The program `calls` plays them, and what it prints is compared
//! with the second model.

pub mod classes;
pub mod drive;
pub mod faults;
mod plans;
pub mod record;
pub mod tables;
