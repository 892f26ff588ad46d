//! The fewest writes to a wanted table: the library's call on byte strings beside
//! the second model's.
//!
//! The order of a list's runs is free, and so is the first entry when all 256
//! differ. So a list is judged and played, and not compared with the model's.

pub mod case;
pub mod classes;
mod faults;
pub mod list;
pub mod wanted;
