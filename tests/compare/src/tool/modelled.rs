//! What the model makes of the tool's inputs.

use kit::{snapshot_bytes, CHIPS, WRITES_BYTES};
use model::{Answer, Event, Operand, ANSWER_BYTES, END_BUFFER_BYTES, MOST_EVENTS};

/// An accepted run.
pub struct Run {
    pub chip: u8,
    pub events: Vec<Event>,
    pub answers: Vec<u8>,
    pub end: Vec<u8>,
}

impl Run {
    /// Each event and its answer.
    pub fn answered(&self) -> impl Iterator<Item = (&Event, &[u8])> {
        self.events.iter().zip(self.answers.chunks(ANSWER_BYTES))
    }
}

/// An accepted run, or the refusal.
pub type Outcome = Result<Run, u64>;

/// A run with room for any log's answers and end snapshot.
pub fn run(snapshot: &[u8], log: &[u8]) -> Outcome {
    let mut answers = vec![0; ANSWER_BYTES * MOST_EVENTS];
    let mut end = vec![0; END_BUFFER_BYTES];
    let result = model::run(snapshot, log, &mut answers, &mut end);
    match (result >> 16, model::read_log(log)) {
        (0, Ok(read)) => {
            answers.truncate(ANSWER_BYTES * read.events.len());
            end.truncate(result as usize);
            Ok(Run {
                chip: read.chip,
                events: read.events,
                answers,
                end,
            })
        }
        (refusal, _) => Err(refusal),
    }
}

/// The fresh chip that a log names, a fresh chip 1 if it names none.
pub fn fresh(log: &[u8]) -> Vec<u8> {
    let named = log.first().filter(|chip| CHIPS.contains(chip));
    snapshot_bytes(named.copied().unwrap_or(1), &[])
}

/// The refusal of a log with the fresh chip that it names, 0 if it is accepted.
pub fn refusal_of_log(log: &[u8]) -> u64 {
    run(&fresh(log), log).err().unwrap_or(0)
}

/// The refusal of a snapshot, 0 if it is accepted.
pub fn refusal_of_snapshot(snapshot: &[u8]) -> u64 {
    match model::restore(snapshot).refusal {
        Some(refusal) => refusal.number().into(),
        None => 0,
    }
}

/// A tick's answer and its currents.
pub struct Currents {
    pub answer: Answer,
    pub currents: model::Currents,
}

/// A TLC34058's currents for a tick on the state of a snapshot, or the refusal,
/// that of the tick too.
pub fn currents(snapshot: &[u8], operand: &Operand) -> Result<Currents, u64> {
    let restored = model::restore(snapshot);
    if let Some(refusal) = restored.refusal {
        return Err(refusal.number().into());
    }
    let (answer, _, currents) = model::tick_currents(&restored.state, operand);
    match answer[0] {
        0 => Ok(Currents { answer, currents }),
        refusal => Err(refusal.into()),
    }
}

/// What a plan must come to.
pub struct Plan {
    pub writes: usize,
    /// The entries that differ.
    pub entries: Vec<usize>,
}

impl Plan {
    /// Each run starts with an address, and an entry has three colours.
    pub fn runs(&self) -> usize {
        self.writes - 3 * self.entries.len()
    }
}

/// The fewest writes to the wanted colours, or the refusal.
pub fn plan(snapshot: &[u8], wanted: &[u8]) -> Result<Plan, u64> {
    let refusal = model::plan_into(snapshot, wanted, &mut [0; WRITES_BYTES]) >> 16;
    if refusal != 0 {
        return Err(refusal);
    }
    let state = model::restore(snapshot).state;
    let writes = model::fewest_accesses(&state, wanted).expect("an accepted plan");
    let places = state.places();
    let both = places.chunks(3).zip(wanted.chunks(3)).enumerate();
    let differ = both.filter(|(_, (is, wanted))| is != wanted);
    let entries = differ.map(|(entry, _)| entry).collect();
    Ok(Plan { writes, entries })
}
