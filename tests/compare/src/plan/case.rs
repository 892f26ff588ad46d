//! One case of the plan: a snapshot, the wanted bytes and a buffer for writes.

use crate::case::Case as Run;
use crate::compared::{pattern, Compared, Lending};
use crate::damage::{chips_named, SNAPSHOT_FAULTS};
use crate::library::{result_difference, string_difference, Call, Outcome};
use crate::plan::{list, wanted};
use crate::report::{shown_before, Shown, Table, PLANS};
use crate::shrink::{clear_runs, fewer_places, nonzero_bytes, plainer_snapshot, search, Attempt};
use kit::{nonzero, snapshot_bytes, Random};
use kit::{ANSWER_BYTES, PLAN_CHIP, WANTED_BYTES, WRITES_BYTES};
use model::{restore, Refusal};
use std::ops::Range;

/// The number of the byte string that starts with the list.
const WRITES: usize = 2;

#[derive(Clone)]
pub struct Case {
    pub snapshot: Vec<u8>,
    pub wanted: Vec<u8>,
    pub writes_len: usize,
    /// Decides the pattern in the buffer, the guard bytes and the alignments.
    pub layout: u64,
    /// Empty byte strings are passed as null pointers.
    pub null_if_empty: bool,
}

/// Plays the log of a list, by the library or by the model.
type Player<'a> = &'a dyn Fn(&Run) -> Result<Outcome, String>;

impl Case {
    /// A case with a buffer of exactly the size that is asked for.
    pub fn exact(snapshot: Vec<u8>, wanted: Vec<u8>, random: &mut Random) -> Case {
        Case {
            snapshot,
            wanted,
            writes_len: WRITES_BYTES,
            layout: random.next(),
            null_if_empty: random.one_in(2),
        }
    }

    /// What is wrong with an outcome, if anything: a number that isn't the
    /// model's, a byte changed past the list, a list that isn't one of the
    /// fewest writes, or one that, played, leaves other colours.
    fn fault(&self, found: &Outcome, model: &Outcome, play: Player) -> Option<String> {
        let written = list_bytes(model);
        result_difference(found, model)
            .or_else(|| string_difference(Self::CALL, WRITES, written, found, model))
            .or_else(|| match refusal(model) {
                0 => self.list_fault(&found.strings[WRITES][..written], play),
                _ => None,
            })
    }

    fn list_fault(&self, list: &[u8], play: Player) -> Option<String> {
        let state = restore(&self.snapshot).state;
        list::fault(&state, &self.wanted, list).or_else(|| self.played(list, play).err())
    }

    /// The list as a log: no write may be refused, and the end snapshot must have
    /// the wanted colours.
    fn played(&self, list: &[u8], play: Player) -> Result<(), String> {
        let mut random = Random::seeded(self.layout);
        let run = Run::exact(self.snapshot.clone(), list::log(list), &mut random);
        let outcome = play(&run).map_err(|what| format!("the list's run: {what}"))?;
        let mut answers = outcome.answers().chunks(ANSWER_BYTES);
        if let Some(number) = answers.position(|answer| answer[0] != 0) {
            return Err(format!("the list's run: write {number} is refused"));
        }
        let end = restore(&outcome.end()[..outcome.result as usize]);
        let colours = &end.state.places()[..WANTED_BYTES];
        match colours == self.wanted {
            true => Ok(()),
            false => Err("the list's run ends in other colours than the wanted".into()),
        }
    }

    /// The case without the fault that it is refused for: for a snapshot that
    /// names no chip that is built, with each chip that is.
    fn mended(&self, refusal: u64) -> Vec<Case> {
        let is = |fault: Refusal| refusal == u64::from(fault.number());
        let mut case = self.clone();
        if SNAPSHOT_FAULTS.into_iter().any(is) {
            let chips = chips_named(&self.snapshot).into_iter();
            return chips.map(|chip| self.on_fresh(chip)).collect();
        } else if is(Refusal::PlanChip) {
            return vec![self.on_fresh(PLAN_CHIP)];
        } else if is(Refusal::Wanted) {
            wanted::mend(&mut case.wanted);
        } else if is(Refusal::WritesBuffer) {
            case.writes_len = WRITES_BYTES;
        } else {
            return Vec::new();
        }
        vec![case]
    }

    fn on_fresh(&self, chip: u8) -> Case {
        Case {
            snapshot: snapshot_bytes(chip, &[]),
            ..self.clone()
        }
    }

    /// A smaller case for which `fails` still holds.
    fn smaller(&self, tries: &mut usize, fails: &mut dyn FnMut(&Case) -> bool) -> Case {
        search(self, tries, fails, Case::left, |best, attempt| {
            fewer_colours(best, attempt);
            fewer_places(best, attempt, |case| &mut case.snapshot);
            plainer_snapshot(best, attempt, |case| &mut case.snapshot);
            clear_runs(best, attempt, |case| &mut case.wanted);
            usual_lengths(best, attempt);
        })
    }

    /// With these places 0 in the state, if the snapshot is accepted, and in what
    /// is wanted.
    fn without(&self, places: &Range<usize>) -> Case {
        let mut case = self.clone();
        let restored = restore(&self.snapshot);
        if restored.refusal.is_none() {
            let mut values = restored.state.places();
            clear(&mut values, places);
            case.snapshot = snapshot_bytes(restored.state.chip(), &nonzero(&values));
        }
        clear(&mut case.wanted, places);
        case
    }

    /// What shrinking makes less: lengths that aren't the usual ones, then the
    /// bytes of the snapshot, then bytes that aren't 0.
    fn left(&self) -> (usize, usize, usize) {
        let odd = [
            self.wanted.len() != WANTED_BYTES,
            self.writes_len != WRITES_BYTES,
        ];
        (
            odd.into_iter().filter(|&odd| odd).count(),
            self.snapshot.len(),
            nonzero_bytes(&self.snapshot) + nonzero_bytes(&self.wanted),
        )
    }
}

/// Sets these bytes to 0, as far as they are there.
fn clear(bytes: &mut [u8], numbers: &Range<usize>) {
    let stop = numbers.end.min(bytes.len());
    bytes[numbers.start.min(stop)..stop].fill(0);
}

/// Entries that become black, and are wanted black, long runs of them first.
fn fewer_colours(best: &mut Case, attempt: &mut Attempt<Case>) {
    let mut run = WANTED_BYTES;
    while run >= 3 {
        for first in (0..WANTED_BYTES).step_by(run) {
            let candidate = best.without(&(first..first + run));
            if candidate.left() != best.left() {
                attempt(candidate, best);
            }
        }
        run = run / 6 * 3;
    }
}

/// The wanted bytes and the buffer of just the size that is asked for.
fn usual_lengths(best: &mut Case, attempt: &mut Attempt<Case>) {
    let steps: [fn(&mut Case); 2] = [
        |case| case.wanted.resize(WANTED_BYTES, 0),
        |case| case.writes_len = WRITES_BYTES,
    ];
    for step in steps {
        let mut candidate = best.clone();
        step(&mut candidate);
        if candidate.left() != best.left() {
            attempt(candidate, best);
        }
    }
}

fn refusal(outcome: &Outcome) -> u64 {
    outcome.result >> 16
}

/// The bytes that an outcome says were written: two for each access.
fn list_bytes(outcome: &Outcome) -> usize {
    match refusal(outcome) {
        0 => 2 * outcome.result as usize,
        _ => 0,
    }
}

impl Compared for Case {
    const CALL: Call = Call::Plan;

    const NEEDED: &'static [Call] = &[Call::Plan, Call::Run];

    fn table() -> &'static Table {
        &PLANS
    }

    fn model(strings: &mut [Vec<u8>]) -> u64 {
        let [snapshot, wanted, writes] = strings else {
            panic!("the plan has three byte strings");
        };
        model::plan_into(snapshot, wanted, writes)
    }

    fn lending(&self) -> Lending {
        Lending {
            strings: vec![
                self.snapshot.clone(),
                self.wanted.clone(),
                pattern(self.layout, 1, self.writes_len),
            ],
            layout: self.layout,
            null_if_empty: self.null_if_empty,
        }
    }

    /// The list is played by the library's own run, which must be the model's
    /// too.
    fn wrong(&self, library: &Outcome, model: &Outcome) -> Option<String> {
        self.fault(library, model, &Run::agreed)
    }

    /// The refusal; and with it each that would come if that fault were mended.
    fn shown(&self, agreed: &Outcome) -> Vec<Shown> {
        let first = refusal(agreed);
        let mended = self.mended(first).into_iter();
        shown_before(first, mended.map(|case| refusal(&case.run_model())))
    }

    fn shrunk(&self, tries: &mut usize) -> Case {
        self.smaller(tries, &mut |case| case.differs())
    }
}

#[cfg(test)]
mod tests {
    use super::{list_bytes, Case, Player, Run, WRITES};
    use crate::compared::Compared;
    use crate::library::Outcome;
    use kit::{log_bytes, nonzero, other_chips, p2, place_values, snapshot_bytes, Random};
    use kit::{ANSWER_BYTES, PLAN_CHIP, WANTED_BYTES, WRITES_BYTES};

    fn case(pairs: &[(u16, u8)], wanted: Vec<u8>) -> Case {
        let snapshot = snapshot_bytes(PLAN_CHIP, pairs);
        Case::exact(snapshot, wanted, &mut Random::seeded(1))
    }

    /// Wanted colours that are black but for these places.
    fn wanted(pairs: &[(usize, u8)]) -> Vec<u8> {
        let mut wanted = vec![0; WANTED_BYTES];
        for &(place, byte) in pairs {
            wanted[place] = byte;
        }
        wanted
    }

    /// Entries 9 and 0 to 1 of a fresh chip, in the middle of reading.
    fn two_runs() -> Case {
        let pairs = [(p2::ADDRESS as u16, 7), (p2::DIRECTION as u16, 1)];
        case(&pairs, wanted(&[(0, 63), (4, 9), (29, 1)]))
    }

    const RUN_FROM_0: [u8; 14] = [0, 0, 1, 63, 1, 0, 1, 0, 1, 0, 1, 9, 1, 0];
    const RUN_FROM_9: [u8; 8] = [0, 9, 1, 0, 1, 0, 1, 1];

    /// The model's run, in the library's place.
    const BY_THE_MODEL: Player = &|run: &Run| Ok(run.run_model());

    fn fault_of(case: &Case, edit: impl Fn(&mut Outcome)) -> Option<String> {
        let model = case.run_model();
        let mut found = model.clone();
        edit(&mut found);
        case.fault(&found, &model, BY_THE_MODEL)
    }

    /// What is wrong with this list, of as many writes as are right.
    fn list_fault(case: &Case, list: &[u8]) -> Option<String> {
        fault_of(case, |found| {
            assert_eq!(list.len(), list_bytes(found));
            found.strings[WRITES][..list.len()].copy_from_slice(list);
        })
    }

    fn says(fault: Option<String>, words: &str) {
        let fault = fault.unwrap_or_else(|| panic!("'{words}' isn't found"));
        assert!(fault.contains(words), "{fault}");
    }

    #[test]
    fn a_list_may_have_its_runs_in_any_order() {
        let case = two_runs();
        for list in [
            [&RUN_FROM_0[..], &RUN_FROM_9].concat(),
            [&RUN_FROM_9[..], &RUN_FROM_0].concat(),
        ] {
            assert_eq!(list_fault(&case, &list), None);
        }
    }

    #[test]
    fn all_256_entries_may_be_written_from_any_of_them_on() {
        let case = case(&[], vec![1; WANTED_BYTES]);
        for first in [0, 1, 128, 255] {
            let list = [&[0, first][..], &[1; 2 * WANTED_BYTES]].concat();
            assert_eq!(list_fault(&case, &list), None);
        }
    }

    #[test]
    fn another_number_or_a_byte_past_the_list_is_wrong() {
        let case = two_runs();
        says(
            fault_of(&case, |found| found.result = 22),
            "returned 22, the model 11",
        );
        says(
            fault_of(&case, |found| found.result = 42 << 16),
            "returned refusal 42",
        );
        says(
            fault_of(&case, |found| found.strings[WRITES][22] ^= 1),
            "writes buffer, byte 22",
        );
        says(
            fault_of(&case, |found| found.strings[WRITES][WRITES_BYTES - 1] ^= 1),
            "byte 1537",
        );
        let refused = Case {
            wanted: vec![64],
            ..case
        };
        assert_eq!(fault_of(&refused, |_| {}), None);
        says(
            fault_of(&refused, |found| found.strings[WRITES][0] ^= 1),
            "writes buffer, byte 0",
        );
    }

    #[test]
    fn a_list_that_is_no_plan_is_wrong() {
        let case = two_runs();
        let list = [&RUN_FROM_0[..], &RUN_FROM_9].concat();
        let with = |edits: &[(usize, u8)]| {
            let mut list = list.clone();
            for &(at, byte) in edits {
                list[at] = byte;
            }
            list_fault(&case, &list)
        };
        assert_eq!(with(&[]), None);
        let wrong = [
            // No address write at the start, one of another entry, and one that
            // reads this entry.
            vec![(0, 1)],
            vec![(1, 1)],
            vec![(0, 3), (1, 255)],
            // A colour byte that isn't the wanted one, also if the chip holds it
            // as that one.
            vec![(3, 62)],
            vec![(3, 63 + 64)],
            // The pixel mask in place of a colour.
            vec![(12, 2)],
        ];
        for edits in wrong {
            says(with(&edits), "the list: ");
        }
    }

    #[test]
    fn a_run_that_differs_is_wrong() {
        let case = two_runs();
        let played = |player: Player| case.fault(&case.run_model(), &case.run_model(), player);
        assert_eq!(played(BY_THE_MODEL), None);
        says(played(&|_| Err("no".into())), "the list's run: no");
        says(
            played(&|run: &Run| {
                let mut outcome = run.run_model();
                outcome.strings[2][3 * ANSWER_BYTES] = 3;
                Ok(outcome)
            }),
            "write 3 is refused",
        );
        let nothing_written = |run: &Run| {
            let log = log_bytes(PLAN_CHIP, &[]);
            let run = Run::exact(run.snapshot.clone(), log, &mut Random::seeded(1));
            Ok(run.run_model())
        };
        says(played(&nothing_written), "other colours");
    }

    #[test]
    fn a_failing_case_is_made_small() {
        let mut random = Random::seeded(1);
        let places = random.full_places(PLAN_CHIP);
        let mut wanted = places[..WANTED_BYTES].to_vec();
        wanted[2] ^= 5;
        wanted[765] ^= 9;
        let snapshot = snapshot_bytes(PLAN_CHIP, &nonzero(&places));
        let case = Case {
            writes_len: 2000,
            ..Case::exact(snapshot, wanted, &mut random)
        };

        let mut tries = 4_000;
        // A run from 255 on to 0.
        let mut fails = |case: &Case| {
            let model = case.run_model();
            model.result == 7 && model.strings[WRITES][..2] == [0, 255]
        };
        assert!(fails(&case));
        let small = case.smaller(&mut tries, &mut fails);

        // One place of each entry differs: in the state or in what is wanted.
        let of_state = place_values(&small.snapshot).into_iter();
        let of_state = of_state.map(|(place, _)| usize::from(place));
        let of_wanted = (0..WANTED_BYTES).filter(|&place| small.wanted[place] != 0);
        let left: Vec<usize> = of_state.chain(of_wanted).collect();
        let is_in = |entry: usize| left.iter().filter(|&&place| place / 3 == entry).count();
        assert_eq!((left.len(), is_in(0), is_in(255)), (2, 1, 1), "{left:?}");
        assert_eq!(small.writes_len, WRITES_BYTES);
        assert!(tries < 4_000);
    }

    fn shown(snapshot: &[u8], wanted: &[u8], writes_len: usize) -> Vec<(u64, u64)> {
        let case = Case::exact(snapshot.to_vec(), wanted.to_vec(), &mut Random::seeded(1));
        let case = Case { writes_len, ..case };
        case.shown(&case.run_model())
    }

    #[test]
    fn a_refusal_is_shown_with_the_one_behind_it() {
        const ENOUGH: usize = WRITES_BYTES;
        const BLACK: [u8; WANTED_BYTES] = [0; WANTED_BYTES];
        let odd = wanted(&[(767, 64)]);
        assert_eq!(shown(&[2, 0, 0], &BLACK, ENOUGH), [(0, 0)]);
        assert_eq!(shown(&[2, 0, 0], &BLACK, ENOUGH - 1), [(43, 0)]);
        for refused in [&odd[..], &BLACK[1..], &[]] {
            assert_eq!(shown(&[2, 0, 0], refused, ENOUGH), [(42, 0)]);
            assert_eq!(shown(&[2, 0, 0], refused, 0), [(42, 0), (42, 43)]);
        }
        for chip in other_chips(PLAN_CHIP) {
            assert_eq!(shown(&[chip, 0, 0], &BLACK, ENOUGH), [(41, 0)]);
            assert_eq!(shown(&[chip, 0, 0], &odd, 0), [(41, 0), (41, 42)]);
            assert_eq!(shown(&[chip, 0, 0], &BLACK, 0), [(41, 0), (41, 43)]);
            assert_eq!(shown(&[chip, 1, 0], &odd, 0), [(23, 0), (23, 41)]);
        }
        assert_eq!(shown(&[2, 1, 0], &odd, 0), [(23, 0), (23, 42)]);
        // With each chip.
        assert_eq!(
            shown(&[9, 0, 0], &BLACK, 0),
            [(21, 0), (21, 41), (21, 43), (21, 41)]
        );
    }
}
