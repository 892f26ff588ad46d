//! Compares the compiled library, the proved programs and the command line tool
//! with the second model, and checks demand 3 and the data sheets' examples on
//! the library itself. The programs in src/bin say how they use it.

pub mod blocks;
pub mod calls;
pub mod case;
pub mod classes;
pub mod compared;
pub mod comparison;
pub mod currents;
pub mod damage;
pub mod library;
pub mod options;
pub mod plan;
pub mod program;
pub mod replay;
pub mod report;
pub mod sheets;
pub mod shrink;
pub mod shuffle;
pub mod time;
pub mod tool;
