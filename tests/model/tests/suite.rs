//! The second model's own tests, one file for each subject.

mod common;

mod boundaries;
mod currents;
mod demand3;
mod event_refusals;
mod hd153129_tables;
mod marked_lines;
mod painting;
mod painting_laws;
mod plan;
mod plan_minimality;
mod printing;
mod round_trips;
mod run_refusals;
mod snapshot_refusals;
mod test_register;
mod tlc34058_tables;
mod tms34070_registers;
mod write_answers;

use std::collections::BTreeSet;
use std::fs;

/// The names of the Rust files and folders in this file's folder, this file
/// among them.
fn names_in_the_folder() -> BTreeSet<String> {
    let folder = concat!(env!("CARGO_MANIFEST_DIR"), "/tests");
    let paths = fs::read_dir(folder)
        .unwrap()
        .map(|entry| entry.unwrap().path());
    paths
        .filter(|path| path.is_dir() || path.extension().is_some_and(|end| end == "rs"))
        .map(|path| path.file_stem().unwrap().to_str().unwrap().to_string())
        .collect()
}

/// The names of this file's `mod` lines.
fn names_listed() -> BTreeSet<String> {
    include_str!("suite.rs")
        .lines()
        .filter_map(|line| line.strip_prefix("mod ")?.strip_suffix(';'))
        .map(str::to_string)
        .collect()
}

/// It stands here because a file that isn't listed runs no test.
#[test]
fn every_test_file_is_listed() {
    let mut files = names_in_the_folder();
    assert!(files.remove("suite"), "suite.rs is not in the folder");
    assert!(!files.is_empty(), "no test file in the folder");
    assert_eq!(files, names_listed(), "files (left), mod lines (right)");
}
