//! One case of the currents: a snapshot, a tick's operand and two buffers.

use crate::compared::{pattern, Compared, Lending};
use crate::damage::{chips_named, SNAPSHOT_FAULTS};
use crate::library::{Call, Outcome};
use crate::report::{shown_before, Shown, Table, CURRENTS};
use crate::shrink::{fewer_places, nonzero_bytes, plainer, plainer_snapshot, search, Attempt};
use kit::{snapshot_bytes, Random};
use kit::{CURRENTS_BYTES, CURRENTS_CHIP, END_BYTES, OPERAND_BYTES};
use model::Refusal;

/// The number of the byte string that starts with the answer.
const OUT: usize = 2;

#[derive(Clone)]
pub struct Case {
    pub snapshot: Vec<u8>,
    pub operand: Vec<u8>,
    pub out_len: usize,
    pub end_len: usize,
    /// Decides the pattern in the buffers, the guard bytes and the alignments.
    pub layout: u64,
    /// Empty byte strings are passed as null pointers.
    pub null_if_empty: bool,
}

impl Case {
    /// A case with buffers of exactly the size that is asked for.
    pub fn exact(snapshot: Vec<u8>, operand: &[u8], random: &mut Random) -> Case {
        Case {
            snapshot,
            operand: operand.to_vec(),
            out_len: CURRENTS_BYTES,
            end_len: END_BYTES,
            layout: random.next(),
            null_if_empty: random.one_in(2),
        }
    }

    /// The case without the fault that it is refused for: for a snapshot that
    /// names no chip that is built, with each chip that is.
    fn mended(&self, refusal: u64) -> Vec<Case> {
        let is = |fault: Refusal| refusal == u64::from(fault.number());
        let mut case = self.clone();
        if SNAPSHOT_FAULTS.into_iter().any(is) {
            let chips = chips_named(&self.snapshot).into_iter();
            return chips.map(|chip| self.on_fresh(chip)).collect();
        } else if is(Refusal::CurrentsChip) {
            return vec![self.on_fresh(CURRENTS_CHIP)];
        } else if is(Refusal::LogLength) {
            case.operand.resize(OPERAND_BYTES, 0);
        } else if is(Refusal::AnswerBuffer) {
            case.out_len = CURRENTS_BYTES;
        } else if is(Refusal::EndBuffer) {
            case.end_len = END_BYTES;
        } else {
            return Vec::new();
        }
        vec![case]
    }

    fn on_fresh(&self, chip: u8) -> Case {
        Case {
            snapshot: snapshot_bytes(chip, &[]),
            ..self.clone()
        }
    }

    /// A smaller case for which `fails` still holds.
    fn smaller(&self, tries: &mut usize, fails: &mut dyn FnMut(&Case) -> bool) -> Case {
        search(self, tries, fails, Case::left, |best, attempt| {
            fewer_places(best, attempt, |case| &mut case.snapshot);
            plainer_snapshot(best, attempt, |case| &mut case.snapshot);
            plainer(best, attempt, 0, |case| &mut case.operand);
            usual_lengths(best, attempt);
        })
    }

    /// What shrinking makes less: lengths that aren't the usual ones, then the
    /// bytes of the snapshot, then bytes that aren't 0.
    fn left(&self) -> (usize, usize, usize) {
        let odd = [
            self.operand.len() != OPERAND_BYTES,
            self.out_len != CURRENTS_BYTES,
            self.end_len != END_BYTES,
        ];
        (
            odd.into_iter().filter(|&odd| odd).count(),
            self.snapshot.len(),
            nonzero_bytes(&self.snapshot) + nonzero_bytes(&self.operand),
        )
    }
}

/// The operand and the buffers of just the size that is asked for.
fn usual_lengths(best: &mut Case, attempt: &mut Attempt<Case>) {
    let steps: [fn(&mut Case); 3] = [
        |case| case.operand.resize(OPERAND_BYTES, 0),
        |case| case.out_len = CURRENTS_BYTES,
        |case| case.end_len = END_BYTES,
    ];
    for step in steps {
        let mut candidate = best.clone();
        step(&mut candidate);
        if candidate.left() != best.left() {
            attempt(candidate, best);
        }
    }
}

/// The refusal that an outcome shows, returned or in the answer.
fn refusal(outcome: &Outcome) -> u64 {
    match outcome.result >> 16 {
        0 => outcome.strings[OUT][0].into(),
        returned => returned,
    }
}

impl Compared for Case {
    const CALL: Call = Call::Currents;

    fn table() -> &'static Table {
        &CURRENTS
    }

    fn model(strings: &mut [Vec<u8>]) -> u64 {
        let [snapshot, operand, out, end] = strings else {
            panic!("the currents have four byte strings");
        };
        model::tick_currents_into(snapshot, operand, out, end)
    }

    fn lending(&self) -> Lending {
        Lending {
            strings: vec![
                self.snapshot.clone(),
                self.operand.clone(),
                pattern(self.layout, 1, self.out_len),
                pattern(self.layout, 2, self.end_len),
            ],
            layout: self.layout,
            null_if_empty: self.null_if_empty,
        }
    }

    /// The refusal; and with it each that would come if that fault were mended.
    fn shown(&self, agreed: &Outcome) -> Vec<Shown> {
        let first = refusal(agreed);
        let mended = self.mended(first).into_iter();
        shown_before(first, mended.map(|case| refusal(&case.run_model())))
    }

    fn shrunk(&self, tries: &mut usize) -> Case {
        self.smaller(tries, &mut |case| case.differs())
    }
}

#[cfg(test)]
mod tests {
    use super::{Case, OUT};
    use crate::compared::Compared;
    use kit::{nonzero, other_chips, p1, snapshot_bytes, Random};
    use kit::{CURRENTS_BYTES, CURRENTS_CHIP, END_BYTES};

    /// Pixel A's green in the answer.
    const GREEN: usize = 4;

    #[test]
    fn a_failing_case_is_made_small() {
        let mut random = Random::seeded(1);
        let mut places = random.full_places(CURRENTS_CHIP);
        places[3 * 5 + 1] = 77;
        places[p1::READ_MASK] = 255;
        places[p1::BLINK_MASK] = 0;
        places[p1::COMMAND] = 0xC0;
        let snapshot = snapshot_bytes(CURRENTS_CHIP, &nonzero(&places));
        let case = Case {
            out_len: 90,
            end_len: 4000,
            ..Case::exact(snapshot, &[5, 9, 8, 7, 6, 30, 30, 3], &mut random)
        };

        let mut tries = 4_000;
        let mut fails = |case: &Case| case.run_model().strings[OUT].get(GREEN) == Some(&77);
        let small = case.smaller(&mut tries, &mut fails);

        let left = [(16, 77), (784, 255), (786, 0xC0)];
        assert_eq!(small.snapshot, snapshot_bytes(CURRENTS_CHIP, &left));
        assert_eq!(small.operand, [5, 0, 0, 0, 0, 0, 0, 1]);
        assert_eq!((small.out_len, small.end_len), (CURRENTS_BYTES, END_BYTES));
        assert!(tries < 4_000);
    }

    fn shown(snapshot: &[u8], operand: &[u8], lens: (usize, usize)) -> Vec<(u64, u64)> {
        let case = Case {
            out_len: lens.0,
            end_len: lens.1,
            ..Case::exact(snapshot.to_vec(), operand, &mut Random::seeded(1))
        };
        case.shown(&case.run_model())
    }

    #[test]
    fn a_refusal_is_shown_with_the_one_behind_it() {
        const ENOUGH: (usize, usize) = (CURRENTS_BYTES, END_BYTES);
        let odd = [0, 0, 0, 0, 0, 32, 0, 0];
        assert_eq!(shown(&[1, 0, 0], &[0; 8], ENOUGH), [(0, 0)]);
        assert_eq!(shown(&[1, 0, 0], &odd, ENOUGH), [(4, 0)]);
        assert_eq!(shown(&[1, 0, 0], &odd, (48, 0)), [(31, 0), (31, 4)]);
        assert_eq!(shown(&[1, 0, 0], &odd, (47, 0)), [(30, 0), (30, 31)]);
        assert_eq!(shown(&[1, 0, 0], &[], (47, 0)), [(13, 0), (13, 30)]);
        for chip in other_chips(CURRENTS_CHIP) {
            assert_eq!(shown(&[chip, 0, 0], &[], ENOUGH), [(40, 0), (40, 13)]);
            assert_eq!(shown(&[chip, 0, 0], &[0; 8], ENOUGH), [(40, 0)]);
            assert_eq!(shown(&[chip, 1, 0], &[], ENOUGH), [(23, 0), (23, 40)]);
        }
        assert_eq!(shown(&[1, 1, 0], &[], ENOUGH), [(23, 0), (23, 13)]);
        // With chip 1, then with each of the others.
        assert_eq!(
            shown(&[9, 0, 0], &[], ENOUGH),
            [(21, 0), (21, 13), (21, 40), (21, 40)]
        );
    }
}
