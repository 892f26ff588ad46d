//! Plays records by the program and looks at what it prints.

use crate::calls::record::{Record, MOST_RECORDS};
use crate::program::{printed_by, WHOLE};
use crate::shrink::{clear_runs, nonzero_bytes, search};
use kit::hexadecimal;
use std::path::Path;

/// The input of one run of the program.
pub struct Batch {
    pub records: Vec<Record>,
    /// What follows the records and isn't played.
    pub tail: Vec<u8>,
    /// The size of the pieces that the input arrives in.
    pub piece: usize,
}

/// The number of the record that is wrong, as many as there are records if
/// none of them is, and what is wrong.
type Wrong = (usize, String);

impl Batch {
    /// Records that arrive whole, with nothing behind them.
    pub fn whole(records: Vec<Record>) -> Batch {
        Batch {
            records,
            tail: Vec::new(),
            piece: WHOLE,
        }
    }

    pub fn input(&self) -> Vec<u8> {
        let mut input: Vec<u8> = self.records.iter().flat_map(Record::bytes).collect();
        input.extend(&self.tail);
        input
    }

    /// The first thing that is wrong, if anything.
    pub fn wrong(&self, program: &Path) -> Option<Wrong> {
        assert!(
            self.records.len() <= MOST_RECORDS,
            "the program plays fewer"
        );
        match printed_by(program, &self.input(), self.piece) {
            Err(fault) => Some((0, fault)),
            Ok(output) => self.wrong_output(&String::from_utf8_lossy(&output)),
        }
    }

    fn wrong_output(&self, output: &str) -> Option<Wrong> {
        let mut lines = output.split_inclusive('\n');
        for (number, record) in self.records.iter().enumerate() {
            let printed = [lines.next(), lines.next()];
            let [Some(first), Some(second)] = printed.map(|line| line?.strip_suffix('\n')) else {
                let call = record.call();
                return Some((number, format!("{call}: two whole lines aren't printed")));
            };
            if let Some(wrong) = record.wrong([first, second]) {
                return Some((number, wrong));
            }
        }
        let more = lines.count();
        let wrong = format!("{more} lines are printed behind the end");
        (more > 0).then_some((self.records.len(), wrong))
    }
}

/// A record that is still wrong by itself, with fewer bytes that aren't 0,
/// found in at most `tries` tries, which are taken off.
pub fn shrunk(program: &Path, record: &Record, tries: &mut usize) -> Record {
    let mut fails = |record: &Record| wrong_alone(program, record).is_some();
    search(record, tries, &mut fails, size, |best, attempt| {
        for number in 0..best.clearable().len() {
            clear_runs(best, attempt, |record| {
                record.clearable().swap_remove(number)
            });
        }
    })
}

/// The bytes that aren't 0: a call's state is as long in every record.
pub fn size(record: &Record) -> usize {
    nonzero_bytes(&record.bytes())
}

/// What is wrong with a record that is played by itself, if anything.
pub fn wrong_alone(program: &Path, record: &Record) -> Option<String> {
    let batch = Batch::whole(vec![record.clone()]);
    Some(batch.wrong(program)?.1)
}

pub fn described(record: &Record) -> String {
    let bytes = hexadecimal(&record.bytes());
    format!("  {} as a record {bytes}\n", record.call())
}
