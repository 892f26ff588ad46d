//! Events that are refused for a chosen reason, and states to refuse.

use crate::calls::record::Whole;
use crate::damage::damage_operand;
use kit::{c, highest_kind, kinds_not_on, largest, other_chips, p1, p2, place_count, read, rs};
use kit::{used_bytes, vertical, write, Random, CHIPS};
use model::{kind, Event, Refusal};

/// The refusals that come from a chip's own rules.
pub const OF_THE_CHIP: [Refusal; 5] = [
    Refusal::Selector,
    Refusal::Address,
    Refusal::Direction,
    Refusal::UndefinedBits,
    Refusal::NotOnChip,
];

/// The refusals that come from an event's kind and operand.
pub const OF_THE_FORM: [Refusal; 2] = [Refusal::Kind, Refusal::UnusedByte];

/// A state that a built chip accepts, and an event.
pub struct Planted {
    pub state: Whole,
    pub event: Event,
}

/// A state of this chip that is accepted. The other parts are fresh, accepted
/// or any bytes.
pub fn accepted(random: &mut Random, chip: u8) -> Whole {
    let mut state = Whole::fresh(chip);
    for other in other_chips(chip) {
        match random.below(3) {
            0 => {}
            1 => *state.part(other) = random.places(other),
            _ => *state.part(other) = random.bytes(place_count(other)),
        }
    }
    *state.part(chip) = match random.below(8) {
        0 => random.full_places(chip),
        _ => random.places(chip),
    };
    state
}

/// Any event on an accepted state.
pub fn any(random: &mut Random) -> Planted {
    let chip = random.chip();
    Planted {
        state: accepted(random, chip),
        event: random.event(chip),
    }
}

/// An event whose first refusal is this number.
pub fn planted(random: &mut Random, fault: Refusal) -> Planted {
    let chip = random.pick(chips_with(fault));
    let mut state = accepted(random, chip);
    let event = refused_event(random, chip, state.part(chip), fault);
    Planted { state, event }
}

/// An event that is refused with this number, and with 15 before it.
pub fn planted_with_unused(random: &mut Random, fault: Refusal) -> Planted {
    loop {
        let mut planted = planted(random, fault);
        let chip = planted.state.chip;
        if used_bytes(chip, planted.event.kind).len() < planted.event.operand.len() {
            damage_one_operand(random, chip, &mut planted.event);
            return planted;
        }
    }
}

fn damage_one_operand(random: &mut Random, chip: u8, event: &mut Event) {
    let mut one = [*event];
    damage_operand(random, chip, &mut one);
    *event = one[0];
}

fn chips_with(fault: Refusal) -> &'static [u8] {
    match fault {
        Refusal::Address => &[1],
        Refusal::Direction => &[2],
        Refusal::Selector => &[1, 2],
        Refusal::UndefinedBits | Refusal::NotOnChip => &CHIPS,
        Refusal::Kind | Refusal::UnusedByte => &CHIPS,
        _ => panic!("{fault:?} is no fault of an event"),
    }
}

/// Sets the places so that the chip refuses the event.
fn refused_event(random: &mut Random, chip: u8, places: &mut [u8], fault: Refusal) -> Event {
    match fault {
        Refusal::Selector => {
            let selector = random.pick(&[4, 5, 7, 128, 255]);
            either(random, selector)
        }
        Refusal::Address => {
            let (selector, address) = address_with_nothing(random);
            places[p1::ADDRESS] = address;
            either(random, selector)
        }
        Refusal::Direction => {
            places[p2::DIRECTION] = random.up_to(1);
            match places[p2::DIRECTION] {
                0 => read(rs::CLT),
                _ => write(rs::CLT, random.byte()),
            }
        }
        Refusal::UndefinedBits if takes_loads(chip) && random.one_in(2) => random.odd_load(),
        Refusal::UndefinedBits => random.odd_tick(chip),
        Refusal::NotOnChip => not_on(random, chip),
        Refusal::Kind => odd_kind(random, chip),
        Refusal::UnusedByte => {
            let mut event = random.event(chip);
            damage_one_operand(random, chip, &mut event);
            event
        }
        _ => panic!("{fault:?} is no fault of an event"),
    }
}

fn takes_loads(chip: u8) -> bool {
    !kinds_not_on(chip).contains(&kind::LOAD)
}

/// An event of a kind that the chip doesn't have; another chip would refuse some
/// of them for what they hold.
fn not_on(random: &mut Random, chip: u8) -> Event {
    match random.pick(kinds_not_on(chip)) {
        kind::WRITE => write(random.pick(&[0, 1, 2, 3, 4, 255]), random.byte()),
        kind::READ => read(random.pick(&[0, 1, 2, 3, 4, 255])),
        kind::VERTICAL => vertical(),
        kind::LOAD if random.one_in(2) => random.odd_load(),
        kind::LOAD => random.load(),
        other => panic!("no event of kind {other} is listed"),
    }
}

fn either(random: &mut Random, selector: u8) -> Event {
    if random.one_in(2) {
        read(selector)
    } else {
        write(selector, random.byte())
    }
}

/// A selector of chip 1 and an address where it reaches nothing.
fn address_with_nothing(random: &mut Random) -> (u8, u8) {
    if random.one_in(2) {
        let address = random.pick(&[4, 5, 7, 8, 127, 128, 255]);
        (c::OVERLAY, address)
    } else {
        let address = random.pick(&[0, 1, 2, 3, 8, 9, 128, 255]);
        (c::CONTROL, address)
    }
}

/// A kind over the chip's highest, its operand all 0 or not.
fn odd_kind(random: &mut Random, chip: u8) -> Event {
    let kind = random.pick(&[highest_kind(chip) + 1, 128, 200, 255]);
    let mut operand = [0; 8];
    if random.one_in(2) {
        operand[random.below(8)] = 1 + random.up_to(254);
    }
    Event { kind, operand }
}

/// One to three values of a part above their largest.
pub fn spoil(random: &mut Random, chip: u8, places: &mut [u8]) {
    let limited: Vec<usize> = (0..places.len())
        .filter(|&place| largest(chip, place) < u8::MAX)
        .collect();
    for _ in 0..random.pick(&[1, 1, 2, 3]) {
        let place = limited[random.index(limited.len())];
        let first = largest(chip, place) + 1;
        let any = first + random.up_to(u8::MAX - first);
        places[place] = random.pick(&[first, u8::MAX, any]);
    }
}

#[cfg(test)]
mod tests {
    use super::{chips_with, planted, planted_with_unused, Planted, OF_THE_CHIP, OF_THE_FORM};
    use crate::calls::record::Record;
    use kit::Random;
    use model::Refusal;
    use std::collections::BTreeSet;

    fn first_refusal(planted: Planted) -> (u8, u64) {
        let Planted { state, event } = planted;
        let chip = state.chip;
        let shown = Record::Event { state, event }.shown();
        (chip, shown[0].0)
    }

    #[test]
    fn what_is_planted_comes_first_on_each_chip_that_has_it() {
        let random = &mut Random::seeded(1);
        for fault in OF_THE_CHIP.into_iter().chain(OF_THE_FORM) {
            let seen = (0..200).map(|_| first_refusal(planted(random, fault)));
            let seen: BTreeSet<(u8, u64)> = seen.collect();
            let right = chips_with(fault)
                .iter()
                .map(|&chip| (chip, fault.number().into()));
            assert!(seen.into_iter().eq(right), "{fault:?}");
        }
    }

    #[test]
    fn an_unused_byte_comes_before_what_is_planted() {
        let random = &mut Random::seeded(2);
        for fault in OF_THE_CHIP {
            for _ in 0..50 {
                let (_, first) = first_refusal(planted_with_unused(random, fault));
                assert_eq!(first, Refusal::UnusedByte.number().into(), "{fault:?}");
            }
        }
    }
}
