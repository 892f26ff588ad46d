//! An input of the tool, made small if it fails.

use crate::case::Case;
use crate::program::WHOLE;
use crate::shrink;
use crate::tool::texts;
use kit::{hexadecimal, log_bytes, snapshot_bytes};

/// So many equal bytes at an input's end are counted and not shown.
const LONG_TAIL: usize = 64;

/// What a byte string is to the tool.
#[derive(Clone, Copy, PartialEq, Eq)]
pub enum Sort {
    Snapshot,
    /// The snapshot that the other one is compared with.
    Second,
    Log,
    Text,
    /// The wanted colours of a plan.
    Wanted,
}

/// An input: its byte strings, at most one of each sort.
#[derive(Clone)]
pub struct Input {
    parts: Vec<(Sort, Vec<u8>)>,
    /// The size of the pieces in which a log arrives, if the class has them.
    pub piece: usize,
}

/// Whether an input is one that the tool gets wrong.
pub type Fails<'a> = dyn Fn(&Input) -> bool + 'a;

impl Input {
    pub fn of(sort: Sort, bytes: Vec<u8>) -> Input {
        Input {
            parts: vec![(sort, bytes)],
            piece: WHOLE,
        }
    }

    pub fn and(mut self, sort: Sort, bytes: Vec<u8>) -> Input {
        self.parts.push((sort, bytes));
        self
    }

    pub fn in_pieces(self, piece: usize) -> Input {
        Input { piece, ..self }
    }

    pub fn get(&self, sort: Sort) -> Option<&[u8]> {
        let part = self.parts.iter().find(|part| part.0 == sort)?;
        Some(&part.1)
    }

    /// The bytes of a sort that all inputs of the class have.
    pub fn bytes(&self, sort: Sort) -> &[u8] {
        self.get(sort).expect("an input of this class has it")
    }

    fn with(&self, sort: Sort, bytes: Vec<u8>) -> Input {
        let mut other = self.clone();
        for part in other.parts.iter_mut().filter(|part| part.0 == sort) {
            part.1 = bytes.clone();
        }
        other
    }

    /// A smaller input that still fails, found in at most `tries` tries, which
    /// are taken off.
    pub fn shrunk(&self, tries: &mut usize, fails: &Fails) -> Input {
        let mut best = self.clone();
        for (sort, bytes) in &self.parts {
            let fails = |bytes: &[u8]| fails(&best.with(*sort, bytes.to_vec()));
            let bytes = match sort {
                Sort::Text => texts::shrunk(bytes, tries, &fails),
                Sort::Log => shrunk_log(bytes, tries, &fails),
                Sort::Snapshot | Sort::Second => shrunk_snapshot(bytes, tries, &fails),
                Sort::Wanted => shrunk_wanted(bytes, tries, &fails),
            };
            best = best.with(*sort, bytes);
        }
        best
    }

    pub fn size(&self) -> usize {
        self.parts.iter().map(|(_, bytes)| bytes.len()).sum()
    }

    /// The input as a person can replay it.
    pub fn described(&self) -> String {
        let described = |(sort, bytes): &(Sort, Vec<u8>)| match sort {
            Sort::Snapshot => format!("  snapshot {}\n", shown(bytes)),
            Sort::Second => format!("  second snapshot {}\n", shown(bytes)),
            Sort::Log => format!("  log {}\n", shown(bytes)),
            Sort::Text => format!("  text {}\n", bytes.escape_ascii()),
            Sort::Wanted => format!("  wanted {}\n", shown(bytes)),
        };
        let mut text: String = self.parts.iter().map(described).collect();
        if self.piece != WHOLE {
            text += &format!("  in pieces of {} bytes\n", self.piece);
        }
        text
    }
}

fn shown(bytes: &[u8]) -> String {
    let last = bytes.last().copied().unwrap_or(0);
    let equal = bytes.iter().rev().take_while(|&&byte| byte == last).count();
    if equal < LONG_TAIL {
        return hexadecimal(bytes);
    }
    let head = hexadecimal(&bytes[..bytes.len() - equal]);
    format!("{head}, then {equal} times {last:02x}")
}

/// A run's case, with no room for what it gives: only its inputs count here.
fn case(snapshot: Vec<u8>, log: Vec<u8>) -> Case {
    Case {
        snapshot,
        log,
        answers_len: 0,
        end_len: 0,
        layout: 0,
        null_if_empty: false,
    }
}

fn shrunk_log(log: &[u8], tries: &mut usize, fails: &dyn Fn(&[u8]) -> bool) -> Vec<u8> {
    let case = case(snapshot_bytes(1, &[]), log.to_vec());
    shrink::shrunk(&case, tries, &mut |case| fails(&case.log)).log
}

fn shrunk_snapshot(bytes: &[u8], tries: &mut usize, fails: &dyn Fn(&[u8]) -> bool) -> Vec<u8> {
    let case = case(bytes.to_vec(), log_bytes(1, &[]));
    shrink::shrunk(&case, tries, &mut |case| fails(&case.snapshot)).snapshot
}

/// With fewer bytes that aren't 0.
fn shrunk_wanted(wanted: &[u8], tries: &mut usize, fails: &dyn Fn(&[u8]) -> bool) -> Vec<u8> {
    let size = |wanted: &Vec<u8>| shrink::nonzero_bytes(wanted);
    let mut fails = |wanted: &Vec<u8>| fails(wanted);
    shrink::search(
        &wanted.to_vec(),
        tries,
        &mut fails,
        size,
        |best, attempt| shrink::clear_runs(best, attempt, |wanted| wanted),
    )
}
