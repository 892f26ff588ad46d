//! Faults that a case of the plan can have, planted beside one another.

use crate::damage::{damaged_snapshot, too_short};
use crate::plan::case::Case;
use crate::plan::wanted;
use kit::{Random, PLAN_CHIP, WANTED_BYTES, WRITES_BYTES};
use model::{fewest_accesses, restore, Refusal};

/// What is looked for behind the snapshot's faults, in this order.
pub const BEHIND_THE_SNAPSHOT: [Refusal; 3] =
    [Refusal::PlanChip, Refusal::Wanted, Refusal::WritesBuffer];

/// A case with no fault: a state and colours of another state.
pub fn accepted(random: &mut Random) -> Case {
    let snapshot = random.snapshot(PLAN_CHIP);
    let wanted = random.places(PLAN_CHIP)[..WANTED_BYTES].to_vec();
    Case::exact(snapshot, wanted, random)
}

/// A case with these faults, given in the order in which they are looked for.
pub fn planted(random: &mut Random, faults: &[Refusal]) -> Case {
    let mut case = accepted(random);
    for &fault in faults.iter().rev() {
        plant(random, &mut case, fault);
    }
    case
}

/// The chip is planted before the other faults of a snapshot.
fn plant(random: &mut Random, case: &mut Case, fault: Refusal) {
    match fault {
        Refusal::WritesBuffer => {
            let own = list_len(case).min(WRITES_BYTES - 1);
            case.writes_len = too_short(random, WRITES_BYTES, own);
        }
        Refusal::Wanted => wanted::spoil(random, &mut case.wanted),
        Refusal::PlanChip => {
            let chip = random.other_chip(PLAN_CHIP);
            case.snapshot = random.snapshot(chip);
        }
        _ => case.snapshot = damaged_snapshot(random, case.snapshot[0], fault),
    }
}

/// The bytes of an accepted case's list.
fn list_len(case: &Case) -> usize {
    let state = restore(&case.snapshot).state;
    2 * fewest_accesses(&state, &case.wanted).expect("an accepted case")
}
