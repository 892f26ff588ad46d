//! Plays the classes and keeps count: what is tried once, and what is tried
//! anew in each round.

use crate::calls::classes as calls;
use crate::calls::drive::{self, Batch};
use crate::calls::record::Record;
use crate::calls::tables::TABLES;
use crate::compared::{Class, Compared, Sweep};
use crate::library::{lacks, Call};
use crate::replay::{self, Input, INPUTS};
use crate::report::{Failure, Report, Subject};
use crate::sheets::{Sheet, SHEETS};
use crate::shuffle::{self, Shuffle, SHUFFLES};
use crate::{case, classes, currents, plan};
use kit::{hexadecimal, Random};
use std::path::{Path, PathBuf};

/// Tries that may be spent on making one failing case small.
const TRIES_FOR_ONE: usize = 4_000;
/// The same where each try runs a program.
pub const RUNS_FOR_ONE: usize = 300;

/// The proved programs that are compared beside the library.
#[derive(Default)]
pub struct Programs {
    /// The printing program.
    pub replay: Option<PathBuf>,
    /// The program that plays calls on a state.
    pub calls: Option<PathBuf>,
}

pub struct Comparison {
    pub report: Report,
    pub seed: u64,
    /// Names each class and round on standard error.
    pub trace: bool,
    /// What is left of the tries for making failing cases small.
    pub tries: usize,
    /// Classes of a call that the library lacks, and of a program that isn't
    /// given, are left out and don't fail.
    pub may_lack: bool,
}

/// A random source for one class in one round: a class's cases don't depend on
/// which other classes there are.
pub fn random_for(seed: u64, name: &str, round: u64) -> Random {
    let mut seed = seed ^ round.wrapping_mul(0xA076_1D64_78BD_642F);
    for byte in name.bytes() {
        seed = Random::seeded(seed ^ u64::from(byte)).next();
    }
    Random::seeded(seed)
}

impl Comparison {
    fn random(&self, name: &str, round: u64) -> Random {
        if self.trace {
            eprintln!("round {round}: {name}");
        }
        random_for(self.seed, name, round)
    }

    /// Whether a class can be tried: the library must have its calls.
    fn begins(&mut self, name: &'static str, needed: &[Call]) -> bool {
        self.report.expect(name);
        let missing = needed.iter().find(|call| !call.is_there());
        if let Some(&call) = missing {
            self.lacking(name, &lacks(call));
        }
        missing.is_none()
    }

    /// What a call's cases must have shown, unless the library may lack a call
    /// that they need and does.
    fn expect_outcomes<C: Compared>(&mut self) {
        if C::NEEDED.iter().all(|call| call.is_there()) || !self.may_lack {
            self.report.expect_outcomes(C::table());
        }
    }

    /// The program that a class plays, which its option must have named.
    fn program<'a>(
        &mut self,
        name: &'static str,
        option: &str,
        program: &'a Option<PathBuf>,
    ) -> Option<&'a Path> {
        self.report.expect(name);
        if program.is_none() {
            self.lacking(name, &format!("no {option}"));
        }
        program.as_deref()
    }

    /// A class that can't be tried is left out or fails.
    fn lacking(&mut self, name: &'static str, why: &str) {
        if self.may_lack {
            self.report.left_out(name);
        } else {
            self.report.impossible(name, why);
        }
    }

    /// Makes a case small with what one failure may spend of the tries.
    fn shrunk<T>(&mut self, most: usize, shrink: impl FnOnce(&mut usize) -> T) -> T {
        let spent = self.tries.min(most);
        let mut left = spent;
        let small = shrink(&mut left);
        self.tries -= spent - left;
        small
    }

    /// One case: nothing may be wrong with what the library gives.
    fn compare<C: Compared>(&mut self, name: &'static str, case: &C) {
        match case.agreed() {
            Ok(outcome) => {
                self.report.checked(name);
                for shown in case.shown(&outcome) {
                    self.report.count(C::table(), shown);
                }
            }
            Err(_) => self.differs(name, case),
        }
    }

    fn differs<C: Compared>(&mut self, name: &'static str, case: &C) {
        let small = self.shrunk(TRIES_FOR_ONE, |tries| case.shrunk(tries));
        let what = small.agreed().err().unwrap_or_default();
        self.failed(name, what, &small);
    }

    fn failed<C: Compared>(&mut self, name: &'static str, what: String, case: &C) {
        let failure = Failure {
            what,
            size: case.size(),
            described: case.described(),
        };
        self.report.failed(name, Subject::Library(C::CALL), failure);
    }

    fn random_class<C: Compared>(&mut self, class: &Class<C>, round: u64) {
        if !self.begins(class.name, C::NEEDED) {
            return;
        }
        let mut random = self.random(class.name, round);
        for _ in 0..class.cases {
            if self.report.has_failed(class.name) {
                return;
            }
            self.compare(class.name, &(class.make)(&mut random));
        }
    }

    fn sweep<C: Compared>(&mut self, sweep: &Sweep<C>) {
        if !self.begins(sweep.name, C::NEEDED) {
            return;
        }
        let mut random = self.random(sweep.name, 0);
        for case in (sweep.cases)(&mut random) {
            if self.report.has_failed(sweep.name) {
                return;
            }
            self.compare(sweep.name, &case);
        }
    }

    /// Each example by the papers, and against the model.
    fn sheet(&mut self, sheet: &Sheet) {
        if !self.begins(sheet.name, &[Call::Run]) {
            return;
        }
        for example in (sheet.examples)() {
            if self.report.has_failed(sheet.name) {
                return;
            }
            let case = example.case();
            match example.wrong() {
                None => self.compare(sheet.name, &case),
                // The model is right by the papers, so the case can shrink.
                Some(_) if case.differs() => self.differs(sheet.name, &case),
                Some(wrong) => {
                    let what = format!("{}: {wrong}", example.name);
                    self.failed(sheet.name, what, &case);
                }
            }
        }
    }

    fn shuffles(&mut self, shuffle: &Shuffle, round: u64) {
        if !self.begins(shuffle.name, &[Call::Run]) {
            return;
        }
        let mut random = self.random(shuffle.name, round);
        for _ in 0..shuffle.pairs {
            if self.report.has_failed(shuffle.name) {
                return;
            }
            let pair = (shuffle.make)(&mut random);
            match pair.check() {
                Ok(shown) => {
                    self.report.checked(shuffle.name);
                    for shown in shown {
                        self.report.checked(shown);
                    }
                }
                Err(_) => {
                    let small = self.shrunk(self.tries, |tries| pair.shrunk(tries));
                    let failure = Failure {
                        what: small.check().err().unwrap_or_default(),
                        size: small.size(),
                        described: small.described(),
                    };
                    let subject = Subject::Library(Call::Run);
                    self.report.failed(shuffle.name, subject, failure);
                }
            }
        }
    }

    fn replays(&mut self, programs: &Programs, input: &Input) {
        let Some(program) = self.program(input.name, "--replay", &programs.replay) else {
            return;
        };
        let mut random = self.random(input.name, 0);
        for number in 0..input.inputs {
            let (bytes, arrival) = (input.make)(&mut random, number);
            if replay::wrong(program, &bytes, arrival).is_none() {
                self.report.checked(input.name);
                continue;
            }
            let small = self.shrunk(RUNS_FOR_ONE, |tries| {
                replay::shrunk(program, &bytes, arrival, tries)
            });
            let failure = Failure {
                what: replay::wrong(program, &small, arrival).unwrap_or_default(),
                size: small.len(),
                described: replay::described(&small),
            };
            self.report.failed(input.name, Subject::Replay, failure);
            return;
        }
    }

    /// A run of the program `calls`: every record must be right.
    fn calls(&mut self, name: &'static str, program: &Path, batch: &Batch) {
        let Some((number, what)) = batch.wrong(program) else {
            // A batch of no records is a case of its own.
            for _ in 0..batch.records.len().max(1) {
                self.report.checked(name);
            }
            for record in &batch.records {
                for shown in record.shown() {
                    self.report.count(record.table(), shown);
                }
            }
            return;
        };
        let failure = match batch.records.get(number) {
            Some(record) => self.failed_call(program, record, what),
            None => Failure {
                what,
                size: batch.input().len(),
                described: format!("  input {}\n", hexadecimal(&batch.input())),
            },
        };
        self.report.failed(name, Subject::Calls, failure);
    }

    /// A record that is wrong, made small if it is wrong by itself.
    fn failed_call(&mut self, program: &Path, record: &Record, what: String) -> Failure {
        let (small, what) = match drive::wrong_alone(program, record) {
            None => (
                record.clone(),
                format!("{what}, only behind the records before it"),
            ),
            Some(_) => {
                let small =
                    self.shrunk(RUNS_FOR_ONE, |tries| drive::shrunk(program, record, tries));
                let what = drive::wrong_alone(program, &small).unwrap_or(what);
                (small, what)
            }
        };
        Failure {
            what,
            size: drive::size(&small),
            described: drive::described(&small),
        }
    }

    fn call_class(&mut self, programs: &Programs, class: &calls::Class, round: u64) {
        let Some(program) = self.program(class.name, "--calls", &programs.calls) else {
            return;
        };
        if self.report.has_failed(class.name) {
            return;
        }
        let mut random = self.random(class.name, round);
        let records = (0..class.records).map(|number| (class.make)(&mut random, number));
        let batch = Batch::whole(records.collect());
        self.calls(class.name, program, &batch);
    }

    fn call_sweep(&mut self, programs: &Programs, sweep: &calls::Sweep) {
        let Some(program) = self.program(sweep.name, "--calls", &programs.calls) else {
            return;
        };
        let mut random = self.random(sweep.name, 0);
        for batch in (sweep.batches)(&mut random) {
            if self.report.has_failed(sweep.name) {
                return;
            }
            self.calls(sweep.name, program, &batch);
        }
    }

    /// Everything that is tried once.
    pub fn once(&mut self, programs: &Programs) {
        self.expect_outcomes::<case::Case>();
        self.expect_outcomes::<currents::case::Case>();
        self.expect_outcomes::<plan::case::Case>();
        for sheet in SHEETS {
            self.sheet(sheet);
        }
        for sweep in classes::SWEEPS {
            self.sweep(sweep);
        }
        for sweep in currents::classes::SWEEPS {
            self.sweep(sweep);
        }
        for sweep in plan::classes::SWEEPS {
            self.sweep(sweep);
        }
        for input in INPUTS {
            self.replays(programs, input);
        }
        if programs.calls.is_some() || !self.may_lack {
            for table in TABLES {
                self.report.expect_outcomes(table);
            }
        }
        for sweep in calls::SWEEPS {
            self.call_sweep(programs, sweep);
        }
    }

    /// Everything that is tried anew in each round.
    pub fn round(&mut self, programs: &Programs, round: u64) {
        for class in classes::RANDOM {
            self.random_class(class, round);
        }
        for class in currents::classes::RANDOM {
            self.random_class(class, round);
        }
        for class in plan::classes::RANDOM {
            self.random_class(class, round);
        }
        for shuffle in SHUFFLES {
            self.shuffles(shuffle, round);
        }
        for shown in shuffle::SHOWN {
            self.begins(shown, &[Call::Run]);
        }
        for class in calls::RANDOM {
            self.call_class(programs, class, round);
        }
    }
}
