//! One case of the run: a snapshot, a log and two buffers.

use crate::calls::record::{Record, Whole};
use crate::compared::{pattern, Compared, Lending};
use crate::library::{Call, Outcome};
use crate::report::{Shown, Table, RUNS};
use crate::shrink;
use kit::{Random, EVENT_BYTES, LOG_HEADER_BYTES, OPERAND_BYTES};
use model::{Event, Refusal, ANSWER_BYTES, END_BUFFER_BYTES, MOST_EVENTS};

/// The numbers of a run's byte strings that are written.
const ANSWERS: usize = 2;
const END: usize = 3;

#[derive(Clone)]
pub struct Case {
    pub snapshot: Vec<u8>,
    pub log: Vec<u8>,
    pub answers_len: usize,
    pub end_len: usize,
    /// Decides the pattern in the buffers, the guard bytes and the alignments.
    pub layout: u64,
    /// Empty byte strings are passed as null pointers.
    pub null_if_empty: bool,
}

impl Case {
    /// A case with buffers of exactly the size that the events need.
    pub fn exact(snapshot: Vec<u8>, log: Vec<u8>, random: &mut Random) -> Case {
        Case {
            answers_len: ANSWER_BYTES * claimed_count(&log),
            snapshot,
            log,
            end_len: END_BUFFER_BYTES,
            layout: random.next(),
            null_if_empty: random.one_in(2),
        }
    }
}

/// The refusals that an event of the log gets whatever the chip's state: in its
/// answer, and returned.
const IN_AN_ANSWER: Refusal = Refusal::NotOnChip;
const RETURNED: [Refusal; 2] = [Refusal::Kind, Refusal::UnusedByte];

impl Case {
    /// What the event of the log shows on a fresh chip.
    fn shown_by(&self, event: Event) -> Vec<Shown> {
        let state = Whole::fresh(self.log[0]);
        Record::Event { state, event }.shown()
    }

    fn shown_in_answers(&self, agreed: &Outcome) -> Vec<Shown> {
        let mut shown = Vec::new();
        let answers = agreed.answers().chunks(ANSWER_BYTES);
        for (answer, event) in answers.zip(events(&self.log)) {
            match answer[0] {
                0 => {}
                refusal if refusal == IN_AN_ANSWER.number() => shown.extend(self.shown_by(event)),
                refusal => shown.push((refusal.into(), 0)),
            }
        }
        shown
    }

    /// By the first event that is at fault.
    fn shown_by_refusal(&self, returned: u64) -> Vec<Shown> {
        let is = |fault: &Refusal| u64::from(fault.number()) == returned;
        if !RETURNED.iter().any(is) {
            return vec![(returned, 0)];
        }
        let mut shown = events(&self.log).map(|event| self.shown_by(event));
        let first = shown.find(|shown| shown[0].0 == returned);
        first.expect("an event is at fault")
    }
}

/// The events of a log whose length fits its count.
fn events(log: &[u8]) -> impl Iterator<Item = Event> + '_ {
    let count = claimed_count(log);
    let behind = log.get(LOG_HEADER_BYTES..).unwrap_or_default();
    let fitting = if behind.len() == EVENT_BYTES * count {
        behind
    } else {
        &[]
    };
    let (kinds, operands) = fitting.split_at(fitting.len() / EVENT_BYTES);
    let operands = operands.chunks_exact(OPERAND_BYTES);
    kinds.iter().zip(operands).map(|(&kind, bytes)| Event {
        kind,
        operand: bytes.try_into().expect("as long as an operand"),
    })
}

impl Compared for Case {
    const CALL: Call = Call::Run;

    fn table() -> &'static Table {
        &RUNS
    }

    fn model(strings: &mut [Vec<u8>]) -> u64 {
        let [snapshot, log, answers, end] = strings else {
            panic!("a run has four byte strings");
        };
        model::run(snapshot, log, answers, end)
    }

    fn lending(&self) -> Lending {
        Lending {
            strings: vec![
                self.snapshot.clone(),
                self.log.clone(),
                pattern(self.layout, 1, self.answers_len),
                pattern(self.layout, 2, self.end_len),
            ],
            layout: self.layout,
            null_if_empty: self.null_if_empty,
        }
    }

    /// The refusal that is returned, and those in the answers; and with each that
    /// an event gets on any state, each that would come next.
    fn shown(&self, agreed: &Outcome) -> Vec<Shown> {
        match agreed.result >> 16 {
            0 => [vec![(0, 0)], self.shown_in_answers(agreed)].concat(),
            returned => self.shown_by_refusal(returned),
        }
    }

    fn shrunk(&self, tries: &mut usize) -> Case {
        shrink::shrunk(self, tries, &mut |case| case.differs())
    }
}

impl Outcome {
    /// The answer buffer of a run.
    pub fn answers(&self) -> &[u8] {
        &self.strings[ANSWERS]
    }

    /// The end buffer of a run.
    pub fn end(&self) -> &[u8] {
        &self.strings[END]
    }
}

/// The count that a log's header claims, cut to one over the limit: a test
/// needs no larger buffer.
pub fn claimed_count(log: &[u8]) -> usize {
    match log {
        &[_, n0, n1, n2, n3, ..] => {
            let claimed = u32::from_le_bytes([n0, n1, n2, n3]) as usize;
            claimed.min(MOST_EVENTS + 1)
        }
        _ => 0,
    }
}

#[cfg(test)]
mod tests {
    use super::Case;
    use crate::compared::Compared;
    use crate::report::Shown;
    use kit::{load, log_bytes, read, save, tick, vertical, write, Random};
    use model::Event;

    fn shown(chip: u8, events: &[Event]) -> Vec<Shown> {
        let log = log_bytes(chip, events);
        let case = Case::exact(vec![chip, 0, 0], log, &mut Random::seeded(1));
        case.shown(&case.run_model())
    }

    /// With the byte that no event of chips 2 and 3 uses.
    fn odd(mut event: Event) -> Event {
        event.operand[3] = 1;
        event
    }

    #[test]
    fn an_event_that_a_chip_lacks_is_shown_with_what_others_refuse() {
        assert_eq!(shown(3, &[load(15, 15)]), [(0, 0)]);
        assert_eq!(shown(3, &[vertical()]), [(0, 0), (5, 0)]);
        // By chip 1 and by chip 2.
        let selector = [(0, 0), (5, 0), (5, 1), (5, 1)];
        assert_eq!(shown(3, &[write(4, 0)]), selector);
        assert_eq!(shown(3, &[read(255)]), selector);
        assert_eq!(shown(3, &[read(1)]), [(0, 0), (5, 0), (5, 3)]);
        assert_eq!(shown(3, &[write(2, 0)]), [(0, 0), (5, 0), (5, 2)]);
        assert_eq!(shown(1, &[load(0, 16)]), [(0, 0), (5, 0), (5, 4)]);
        assert_eq!(shown(2, &[load(0, 15)]), [(0, 0), (5, 0)]);
    }

    #[test]
    fn the_first_event_at_fault_is_shown_with_what_is_behind() {
        let unused = [(15, 0), (15, 5)];
        assert_eq!(shown(3, &[load(0, 0), odd(write(4, 0))]), unused);
        assert_eq!(shown(2, &[odd(load(16, 0))]), unused);
        assert_eq!(shown(3, &[odd(load(16, 0))]), [(15, 0), (15, 4)]);
        let level = tick([0, 0, 0, 0, 0, 0, 0, 2]);
        assert_eq!(shown(2, &[odd(level)]), [(15, 0), (15, 4)]);
        let kind = |kind| Event { kind, ..level };
        assert_eq!(shown(3, &[kind(6), odd(level)]), [(14, 0), (14, 15)]);
        assert_eq!(shown(3, &[odd(level), kind(6)]), [(15, 0), (15, 4)]);
        assert_eq!(shown(3, &[odd(save()), odd(level)]), [(15, 0)]);
    }
}
