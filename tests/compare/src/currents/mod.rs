//! The currents of a chip 1 tick: the library's call on byte strings beside the
//! second model's.

pub mod case;
pub mod classes;
mod faults;
