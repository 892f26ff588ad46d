//! Runs of the TMS34070: chains of REP, and what stands between a register's two
//! loads.

use super::lively;
use crate::case::Case;
use kit::{largest, load, log_bytes, nonzero, p3, save, snapshot_bytes, tick, vertical, Random};
use model::Event;

/// Ticks that mostly repeat, now and then DATEN low, loads or a save between
/// them.
pub fn chain_of_rep(random: &mut Random) -> Case {
    let mut places = random.full_places(3);
    let rare = random.pick(&[3, 10, 40]);
    for register in places[..p3::LOAD_POSITION].chunks_exact_mut(p3::REGISTER_PLACES) {
        register[p3::REP] = u8::from(!random.one_in(rare));
    }
    let mut events = Vec::new();
    for _ in 0..30 {
        match random.below(12) {
            0 => events.push(tick([random.up_to(15), random.up_to(15), 0, 0, 0, 0, 0, 0])),
            1 => events.extend([random.repeating_load(), random.load()]),
            2 => events.push(save()),
            _ => events.push(shown(random.up_to(15), random.up_to(15))),
        }
    }
    let snapshot = snapshot_bytes(3, &nonzero(&places));
    Case::exact(snapshot, log_bytes(3, &events), random)
}

/// A tick with DATEN high.
fn shown(da: u8, db: u8) -> Event {
    tick([da, db, 0, 0, 0, 0, 0, 1])
}

/// The two loads of three registers, with ticks that show the register and the
/// next one, saves and refused events before, between and behind them.
pub fn between_loads(random: &mut Random) -> Case {
    let mut places = random.places(3);
    let register = random.up_to(15);
    places[p3::LOAD_POSITION] = 2 * register;
    let mut events = Vec::new();
    for number in 0..3 {
        let register = (register + number) % 16;
        for _ in 0..2 {
            events.extend(between(random, register));
            events.push(random.load());
        }
        events.extend(between(random, register));
    }
    let snapshot = snapshot_bytes(3, &nonzero(&places));
    Case::exact(snapshot, log_bytes(3, &events), random)
}

/// Up to two events that leave the load position as it is.
fn between(random: &mut Random, register: u8) -> Vec<Event> {
    let next = (register + 1) % 16;
    let events = [
        shown(register, next),
        shown(next, register),
        save(),
        random.odd_load(),
        random.access(),
        random.odd_tick(3),
        vertical(),
    ];
    let count = random.below(3);
    (0..count).map(|_| random.pick(&events)).collect()
}

/// From every load position two loads with every EXT and REP, between them ticks
/// of the register at that position and every other.
pub fn every_pair_of_registers(random: &mut Random) -> Vec<Case> {
    let mut cases = Vec::new();
    for position in 0..=largest(3, p3::LOAD_POSITION) {
        let own = position / 2;
        for other in 0..16 {
            for attributes in 0..=3 {
                let events = [
                    shown(own, other),
                    load(random.up_to(15), attributes),
                    shown(other, own),
                    load(random.up_to(15), random.up_to(15)),
                    shown(own, other),
                    shown(other, own),
                ];
                let snapshot = lively(random, 3, &[position]);
                cases.push(Case::exact(snapshot, log_bytes(3, &events), random));
            }
        }
    }
    cases
}

#[cfg(test)]
mod tests {
    //! What the chains come to, by the model alone.

    use super::chain_of_rep;
    use crate::case::Case;
    use kit::{is_tick, p3, Random};
    use model::{Answer, Event};

    /// Whether both pixels of a tick show registers with REP 1.
    fn repeats(places: &[u8], event: &Event) -> bool {
        let rep = |pixel: u8| places[p3::REGISTER_PLACES * usize::from(pixel) + p3::REP];
        event.operand[..2].iter().all(|&pixel| rep(pixel) == 1)
    }

    /// The answers of ticks that repeat as the two before them do.
    fn ends_of_chains(case: &Case) -> Vec<Answer> {
        let mut state = model::restore(&case.snapshot).state;
        let (mut answers, mut chain) = (Vec::new(), 0);
        for event in model::read_log(&case.log).unwrap().events {
            let (answer, next) = model::event(&state, event.kind, &event.operand);
            if is_tick(&event) {
                chain = if repeats(&state.places(), &event) {
                    chain + 1
                } else {
                    0
                };
                answers.extend((chain > 2).then_some(answer));
            }
            state = next;
        }
        answers
    }

    #[test]
    fn chains_of_rep_are_long_coloured_black_and_over_daten_low() {
        let random = &mut Random::seeded(1);
        let cases = (0..50).map(|_| chain_of_rep(random));
        let answers: Vec<Answer> = cases.flat_map(|case| ends_of_chains(&case)).collect();
        let count = |daten: u8, black: bool| {
            let wanted = |a: &&Answer| a[2] & 1 == daten && (a[3..9] == [0; 6]) == black;
            answers.iter().filter(wanted).count()
        };
        assert!(count(1, false) > 50);
        assert!(count(1, true) > 50);
        assert!(count(0, true) > 20);
        assert_eq!(count(0, false), 0);
    }
}
