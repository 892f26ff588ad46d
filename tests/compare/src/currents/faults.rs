//! Faults that a case of the currents can have, planted beside one another.

use crate::currents::case::Case;
use crate::damage::{damaged_snapshot, too_short};
use kit::{undefined_tick_bits, Random, CURRENTS_CHIP};
use kit::{ANSWER_BYTES, CURRENTS_BYTES, END_BYTES, OPERAND_BYTES};
use model::Refusal;

/// What is looked for behind the snapshot's faults, in this order; the last
/// sits in the answer.
pub const BEHIND_THE_SNAPSHOT: [Refusal; 5] = [
    Refusal::CurrentsChip,
    Refusal::LogLength,
    Refusal::AnswerBuffer,
    Refusal::EndBuffer,
    Refusal::UndefinedBits,
];

/// A tick on a state, with no fault.
pub fn accepted(random: &mut Random) -> Case {
    let snapshot = random.snapshot(CURRENTS_CHIP);
    let tick = random.tick(CURRENTS_CHIP);
    Case::exact(snapshot, &tick.operand, random)
}

/// A case with these faults, given in the order in which they are looked for.
pub fn planted(random: &mut Random, faults: &[Refusal]) -> Case {
    let mut case = accepted(random);
    for &fault in faults.iter().rev() {
        plant(random, &mut case, fault);
    }
    case
}

/// Bits are planted before the operand's length, the chip before the other
/// faults of a snapshot.
fn plant(random: &mut Random, case: &mut Case, fault: Refusal) {
    match fault {
        Refusal::UndefinedBits => {
            let (byte, bits) = random.pick(undefined_tick_bits(CURRENTS_CHIP));
            case.operand[byte] |= random.bit_of(bits);
        }
        Refusal::EndBuffer => case.end_len = too_short(random, END_BYTES, 3),
        Refusal::AnswerBuffer => case.out_len = too_short(random, CURRENTS_BYTES, ANSWER_BYTES),
        Refusal::LogLength => {
            let shorter = random.below(OPERAND_BYTES);
            let len = random.pick(&[0, shorter, 7, 9, 16, 17]);
            case.operand.resize(len, random.byte());
        }
        Refusal::CurrentsChip => {
            let chip = random.other_chip(CURRENTS_CHIP);
            case.snapshot = random.snapshot(chip);
        }
        _ => case.snapshot = damaged_snapshot(random, case.snapshot[0], fault),
    }
}
