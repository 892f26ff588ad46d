//! Counts for each class and for each refusal, and the verdict.

use crate::library::Call;
use model::Refusal;
use std::collections::BTreeMap;

/// What an outcome showed: the refusal's number, 0 if it was accepted; and the
/// number that would have come but for it, 0 if none is counted.
pub type Shown = (u64, u64);

/// A refusal by itself, and with each that would come if its fault were mended,
/// one for each way to mend it; 0 is none.
pub fn shown_before(refusal: u64, next: impl Iterator<Item = u64>) -> Vec<Shown> {
    let behind = next.filter(|&next| next != 0).map(|next| (refusal, next));
    [(refusal, 0)].into_iter().chain(behind).collect()
}

/// A line of the verdict: what must have been shown, and what it means.
pub struct Row {
    pub shown: Shown,
    pub meaning: &'static str,
}

/// A refusal that must have been shown.
pub const fn row(refusal: Refusal, meaning: &'static str) -> Row {
    Row {
        shown: (refusal as u64, 0),
        meaning,
    }
}

/// A refusal that must have been shown where another would have come next.
pub const fn before(first: Refusal, next: Refusal) -> Row {
    Row {
        shown: (first as u64, next as u64),
        meaning: "",
    }
}

/// An accepted outcome that must have been shown.
pub const ACCEPTED: Row = Row {
    shown: (0, 0),
    meaning: "accepted",
};

/// The outcomes that one sort of call must have shown.
pub struct Table {
    pub title: &'static str,
    pub rows: &'static [Row],
}

/// Every refusal of document 01's table that a run can show: 1 to 5 in
/// answers, the others returned; of those that an event brings by its kind and
/// its unused bytes, also each that comes next.
pub static RUNS: Table = Table {
    title: "runs",
    rows: &[
        ACCEPTED,
        row(Refusal::Selector, "in an answer: selector over 3"),
        row(Refusal::Address, "in an answer: overlay or control address"),
        row(Refusal::Direction, "in an answer: direction"),
        row(
            Refusal::UndefinedBits,
            "in an answer: undefined bits of a tick or a load",
        ),
        row(
            Refusal::NotOnChip,
            "in an answer: an event that the chip doesn't have",
        ),
        row(Refusal::LogShort, "log under 5 bytes"),
        row(Refusal::LogChip, "log's chip"),
        row(Refusal::LogCount, "log's count"),
        row(Refusal::LogLength, "log's length"),
        row(Refusal::Kind, "kind over the highest"),
        row(Refusal::UnusedByte, "unused operand byte"),
        row(Refusal::SnapshotShort, "snapshot under 3 bytes"),
        row(Refusal::SnapshotChip, "snapshot's chip"),
        row(Refusal::SnapshotCount, "snapshot's count"),
        row(Refusal::SnapshotLength, "snapshot's length"),
        row(Refusal::Place, "place"),
        row(Refusal::Value, "value"),
        row(Refusal::TwoChips, "snapshot and log for two chips"),
        row(Refusal::AnswerBuffer, "answer buffer"),
        row(Refusal::EndBuffer, "end buffer"),
        before(Refusal::Kind, Refusal::UnusedByte),
        before(Refusal::UnusedByte, Refusal::Selector),
        before(Refusal::UnusedByte, Refusal::Address),
        before(Refusal::UnusedByte, Refusal::Direction),
        before(Refusal::UnusedByte, Refusal::UndefinedBits),
        before(Refusal::UnusedByte, Refusal::NotOnChip),
        before(Refusal::NotOnChip, Refusal::Selector),
        before(Refusal::NotOnChip, Refusal::Address),
        before(Refusal::NotOnChip, Refusal::Direction),
        before(Refusal::NotOnChip, Refusal::UndefinedBits),
    ],
};

/// The currents: 20 to 25, 40, 13, 30, 31, then 4 in the answer, each before
/// each later one. The faults of a snapshot count as one check.
pub static CURRENTS: Table = Table {
    title: "currents",
    rows: &[
        ACCEPTED,
        row(Refusal::SnapshotShort, "snapshot under 3 bytes"),
        row(Refusal::SnapshotChip, "snapshot's chip"),
        row(Refusal::SnapshotCount, "snapshot's count"),
        row(Refusal::SnapshotLength, "snapshot's length"),
        row(Refusal::Place, "place"),
        row(Refusal::Value, "value"),
        row(Refusal::CurrentsChip, "another chip"),
        row(Refusal::LogLength, "operand's length"),
        row(Refusal::AnswerBuffer, "out buffer"),
        row(Refusal::EndBuffer, "end buffer"),
        row(Refusal::UndefinedBits, "in the answer: tick bits"),
        before(Refusal::SnapshotShort, Refusal::CurrentsChip),
        before(Refusal::SnapshotShort, Refusal::LogLength),
        before(Refusal::SnapshotShort, Refusal::AnswerBuffer),
        before(Refusal::SnapshotShort, Refusal::EndBuffer),
        before(Refusal::SnapshotShort, Refusal::UndefinedBits),
        before(Refusal::SnapshotChip, Refusal::CurrentsChip),
        before(Refusal::SnapshotChip, Refusal::LogLength),
        before(Refusal::SnapshotChip, Refusal::AnswerBuffer),
        before(Refusal::SnapshotChip, Refusal::EndBuffer),
        before(Refusal::SnapshotChip, Refusal::UndefinedBits),
        before(Refusal::SnapshotCount, Refusal::CurrentsChip),
        before(Refusal::SnapshotCount, Refusal::LogLength),
        before(Refusal::SnapshotCount, Refusal::AnswerBuffer),
        before(Refusal::SnapshotCount, Refusal::EndBuffer),
        before(Refusal::SnapshotCount, Refusal::UndefinedBits),
        before(Refusal::SnapshotLength, Refusal::CurrentsChip),
        before(Refusal::SnapshotLength, Refusal::LogLength),
        before(Refusal::SnapshotLength, Refusal::AnswerBuffer),
        before(Refusal::SnapshotLength, Refusal::EndBuffer),
        before(Refusal::SnapshotLength, Refusal::UndefinedBits),
        before(Refusal::Place, Refusal::CurrentsChip),
        before(Refusal::Place, Refusal::LogLength),
        before(Refusal::Place, Refusal::AnswerBuffer),
        before(Refusal::Place, Refusal::EndBuffer),
        before(Refusal::Place, Refusal::UndefinedBits),
        before(Refusal::Value, Refusal::CurrentsChip),
        before(Refusal::Value, Refusal::LogLength),
        before(Refusal::Value, Refusal::AnswerBuffer),
        before(Refusal::Value, Refusal::EndBuffer),
        before(Refusal::Value, Refusal::UndefinedBits),
        before(Refusal::CurrentsChip, Refusal::LogLength),
        before(Refusal::CurrentsChip, Refusal::AnswerBuffer),
        before(Refusal::CurrentsChip, Refusal::EndBuffer),
        before(Refusal::CurrentsChip, Refusal::UndefinedBits),
        before(Refusal::LogLength, Refusal::AnswerBuffer),
        before(Refusal::LogLength, Refusal::EndBuffer),
        before(Refusal::LogLength, Refusal::UndefinedBits),
        before(Refusal::AnswerBuffer, Refusal::EndBuffer),
        before(Refusal::AnswerBuffer, Refusal::UndefinedBits),
        before(Refusal::EndBuffer, Refusal::UndefinedBits),
    ],
};

/// The plan: 20 to 25, 41, 42, then 43, each before each later one. The faults of
/// a snapshot count as one check.
pub static PLANS: Table = Table {
    title: "plans",
    rows: &[
        ACCEPTED,
        row(Refusal::SnapshotShort, "snapshot under 3 bytes"),
        row(Refusal::SnapshotChip, "snapshot's chip"),
        row(Refusal::SnapshotCount, "snapshot's count"),
        row(Refusal::SnapshotLength, "snapshot's length"),
        row(Refusal::Place, "place"),
        row(Refusal::Value, "value"),
        row(Refusal::PlanChip, "another chip"),
        row(Refusal::Wanted, "wanted bytes"),
        row(Refusal::WritesBuffer, "writes buffer"),
        before(Refusal::SnapshotShort, Refusal::PlanChip),
        before(Refusal::SnapshotShort, Refusal::Wanted),
        before(Refusal::SnapshotShort, Refusal::WritesBuffer),
        before(Refusal::SnapshotChip, Refusal::PlanChip),
        before(Refusal::SnapshotChip, Refusal::Wanted),
        before(Refusal::SnapshotChip, Refusal::WritesBuffer),
        before(Refusal::SnapshotCount, Refusal::PlanChip),
        before(Refusal::SnapshotCount, Refusal::Wanted),
        before(Refusal::SnapshotCount, Refusal::WritesBuffer),
        before(Refusal::SnapshotLength, Refusal::PlanChip),
        before(Refusal::SnapshotLength, Refusal::Wanted),
        before(Refusal::SnapshotLength, Refusal::WritesBuffer),
        before(Refusal::Place, Refusal::PlanChip),
        before(Refusal::Place, Refusal::Wanted),
        before(Refusal::Place, Refusal::WritesBuffer),
        before(Refusal::Value, Refusal::PlanChip),
        before(Refusal::Value, Refusal::Wanted),
        before(Refusal::Value, Refusal::WritesBuffer),
        before(Refusal::PlanChip, Refusal::Wanted),
        before(Refusal::PlanChip, Refusal::WritesBuffer),
        before(Refusal::Wanted, Refusal::WritesBuffer),
    ],
};

/// One class: how many cases were checked, and what became of it.
struct Line {
    name: &'static str,
    cases: usize,
    failed: bool,
    left_out: bool,
}

/// What a failing case is an input of.
#[derive(Clone, Copy, PartialEq, Eq, PartialOrd, Ord)]
pub enum Subject {
    /// A call of the library.
    Library(Call),
    /// The printing program.
    Replay,
    /// The program that plays calls on a state.
    Calls,
    /// The command line tool, in one class: texts, logs and snapshots don't
    /// compare.
    Tool(&'static str),
}

/// A failing case.
pub struct Failure {
    /// What differs.
    pub what: String,
    /// The bytes of its inputs, or those that count.
    pub size: usize,
    /// The case as a person can replay it.
    pub described: String,
}

/// How often each outcome of a sort of call was reached and agreed on.
struct Tally {
    table: &'static Table,
    shown: BTreeMap<Shown, usize>,
}

#[derive(Default)]
pub struct Report {
    lines: Vec<Line>,
    tallies: Vec<Tally>,
    /// The smallest failing case of each subject, and its class.
    smallest: BTreeMap<Subject, (&'static str, Failure)>,
}

impl Report {
    fn line(&mut self, name: &'static str) -> &mut Line {
        let known = self.lines.iter().position(|line| line.name == name);
        let index = known.unwrap_or_else(|| {
            self.lines.push(Line {
                name,
                cases: 0,
                failed: false,
                left_out: false,
            });
            self.lines.len() - 1
        });
        &mut self.lines[index]
    }

    fn tally(&mut self, table: &'static Table) -> &mut Tally {
        let known = self
            .tallies
            .iter()
            .position(|t| t.table.title == table.title);
        let index = known.unwrap_or_else(|| {
            self.tallies.push(Tally {
                table,
                shown: BTreeMap::new(),
            });
            self.tallies.len() - 1
        });
        &mut self.tallies[index]
    }

    /// Makes sure that a class that is never reached is counted as failed.
    pub fn expect(&mut self, name: &'static str) {
        self.line(name);
    }

    /// Makes sure that an outcome that is never reached is counted as failed.
    pub fn expect_outcomes(&mut self, table: &'static Table) {
        self.tally(table);
    }

    pub fn checked(&mut self, name: &'static str) {
        self.line(name).cases += 1;
    }

    pub fn has_failed(&mut self, name: &'static str) -> bool {
        self.line(name).failed
    }

    /// Notes a class as left out: it is named and not judged.
    pub fn left_out(&mut self, name: &'static str) {
        self.line(name).left_out = true;
    }

    /// Notes a class as failed without a case of its own.
    pub fn impossible(&mut self, name: &'static str, why: &str) {
        let line = self.line(name);
        if !line.failed {
            line.failed = true;
            println!("FAILED {name}: {why}");
        }
    }

    /// Notes a class as failed; the smallest failing case of each
    /// subject is printed at the end.
    pub fn failed(&mut self, name: &'static str, subject: Subject, failure: Failure) {
        self.line(name).failed = true;
        println!("FAILED {name}: {}", failure.what);
        let best = self.smallest.get(&subject);
        if best.is_none_or(|(_, best)| failure.size < best.size) {
            self.smallest.insert(subject, (name, failure));
        }
    }

    /// Counts what an agreed outcome showed.
    pub fn count(&mut self, table: &'static Table, shown: Shown) {
        *self.tally(table).shown.entry(shown).or_insert(0) += 1;
    }

    /// Prints the counts, the smallest failing case and the verdict; true if
    /// nothing failed.
    pub fn verdict(&self) -> bool {
        let mut judge = Judge::default();
        println!("          cases  class");
        for line in &self.lines {
            let verdict = match line.left_out {
                true => "left out",
                false => judge.say(!line.failed && line.cases > 0),
            };
            println!("{verdict:<8} {:>6}  {}", line.cases, line.name);
        }
        for tally in &self.tallies {
            tally.judge(&mut judge);
        }
        for (
            name,
            Failure {
                what, described, ..
            },
        ) in self.smallest.values()
        {
            println!("the smallest case found, in the class '{name}':\n  {what}\n{described}");
        }
        println!("{} passed, {} failed", judge.passed, judge.failed);
        judge.failed == 0 && judge.passed > 0
    }
}

#[derive(Default)]
struct Judge {
    passed: usize,
    failed: usize,
}

impl Judge {
    fn say(&mut self, good: bool) -> &'static str {
        if good {
            self.passed += 1;
            "ok"
        } else {
            self.failed += 1;
            "FAILED"
        }
    }
}

impl Tally {
    /// Every row must have been reached, and nothing but the rows.
    fn judge(&self, judge: &mut Judge) {
        println!("        reached  refusal, {}", self.table.title);
        for row in self.table.rows {
            let reached = self.shown.get(&row.shown).copied().unwrap_or(0);
            let verdict = judge.say(reached > 0);
            let number = row.shown.0;
            let meaning = match row.shown.1 {
                0 => row.meaning.to_string(),
                next => format!("before {next}"),
            };
            println!("{verdict:<8} {reached:>6}  {number:>2} {meaning}");
        }
        let listed = |shown: &Shown| self.table.rows.iter().any(|row| row.shown == *shown);
        for ((number, next), reached) in self.shown.iter().filter(|(shown, _)| !listed(shown)) {
            let verdict = judge.say(false);
            println!("{verdict:<8} {reached:>6}  {number:>2} before {next} isn't listed");
        }
    }
}
