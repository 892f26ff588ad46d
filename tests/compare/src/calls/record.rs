//! A call as a record of the program's input, and what it must print for it.
//!
//! A record starts with a byte that names the call. A state is the chip byte
//! and all places of every built chip, in the order of `CHIPS`, whatever their
//! values; numbers have their low byte first. Each call prints two lines.
//!
//! - 0, event: state, kind, 8 operand bytes. The answer; the state.
//! - 1, save: state, room (2 bytes), fill. The refusal and the length; the
//!   whole buffer, which held the fill and of which the first `room` bytes were
//!   lent.
//! - 2, restore: length (2 bytes), the bytes. The refusal; the state.
//! - 3, currents: state, a tick's 8 operand bytes. The answer and behind it the
//!   currents, green, red, blue of pixels A to E, a space before each; the state.
//! - 4, plan: state, length (2 bytes) and the wanted bytes, room (2 bytes), fill.
//!   The refusal and the count of accesses; the whole buffer, as for a save.
//!
//! Bytes are printed as lowercase hexadecimal digits, numbers in decimal.

use crate::calls::tables::{CURRENTS, EVENTS, PLANS, RESTORES, SAVES};
use crate::plan::{list, wanted};
use crate::report::{shown_before, Shown, Table};
use kit::{hexadecimal, highest_kind, kinds_not_on, largest, other_chips, place_count};
use kit::{rs, used_bytes, CHIPS, CURRENTS_CHIP, MOST_ACCESSES, PLAN_CHIP, WRITES_BYTES};
use model::{event, kind, plan, restore, save_into, tick_currents};
use model::{Event, Operand, Refusal, State, Write};

/// The most records that the program plays.
pub const MOST_RECORDS: usize = 65_536;
/// The program's buffer: the most that a save or a plan is lent, and that a
/// restore or a plan is given.
pub const BUFFER_BYTES: usize = 4_096;
/// A first byte that names no call ends the program. The calls are below this.
pub const CALLS: u8 = 5;

/// A state with a part for each built chip, of which the chip byte names one,
/// or none.
#[derive(Clone)]
pub struct Whole {
    pub chip: u8,
    /// In the order of `CHIPS`.
    pub parts: Vec<Vec<u8>>,
}

impl Whole {
    /// All parts fresh.
    pub fn fresh(chip: u8) -> Whole {
        let fresh = |chip| vec![0; place_count(chip)];
        Whole {
            chip,
            parts: CHIPS.into_iter().map(fresh).collect(),
        }
    }

    /// A built chip's part.
    pub fn part(&mut self, chip: u8) -> &mut Vec<u8> {
        let index = CHIPS.iter().position(|&built| built == chip);
        &mut self.parts[index.expect("a built chip")]
    }

    /// The state that the chip byte names; a chip that isn't built has no
    /// places.
    fn named(&self) -> State {
        let mut parts = CHIPS.iter().zip(&self.parts);
        let named = parts.find(|(&chip, _)| chip == self.chip);
        let places = named.map_or(&[][..], |(_, part)| part);
        State::from_places(self.chip, places).expect("as many places as the chip has")
    }

    /// With this state in its own part, the others as they were.
    fn with(mut self, state: &State) -> Whole {
        self.chip = state.chip();
        if CHIPS.contains(&self.chip) {
            *self.part(state.chip()) = state.places();
        }
        self
    }

    pub fn bytes(&self) -> Vec<u8> {
        let mut bytes = vec![self.chip];
        bytes.extend(self.parts.iter().flatten());
        bytes
    }

    /// What the byte with this number in `bytes` is.
    fn byte_name(number: usize) -> String {
        let Some(mut place) = number.checked_sub(1) else {
            return "the chip byte".into();
        };
        for chip in CHIPS {
            if place < place_count(chip) {
                return format!("place {place} of chip {chip}");
            }
            place -= place_count(chip);
        }
        "a byte past the state".into()
    }
}

#[derive(Clone)]
pub enum Record {
    Event {
        state: Whole,
        event: Event,
    },
    Save {
        state: Whole,
        room: usize,
        fill: u8,
    },
    Restore {
        snapshot: Vec<u8>,
    },
    Currents {
        state: Whole,
        operand: Operand,
    },
    Plan {
        state: Whole,
        wanted: Vec<u8>,
        room: usize,
        fill: u8,
    },
}

/// What a call gives by the model: its refusal or 0, and the two lines.
struct Expected {
    refusal: u64,
    lines: [String; 2],
    /// The first bytes of the second line that may be others: a plan's list, which
    /// is judged.
    judged: usize,
}

impl Expected {
    /// Nothing else is right.
    fn only(refusal: u64, lines: [String; 2]) -> Expected {
        Expected {
            refusal,
            lines,
            judged: 0,
        }
    }

    /// A plan's list or refusal, and the buffer that held the fill.
    fn plan(planned: Result<Vec<Write>, Refusal>, fill: u8) -> Expected {
        let refusal = number(planned.as_ref().err().copied());
        let list = planned.unwrap_or_default();
        let mut buffer = vec![fill; BUFFER_BYTES];
        for (bytes, write) in buffer.chunks_exact_mut(2).zip(&list) {
            bytes.copy_from_slice(&[write.selector, write.byte]);
        }
        Expected {
            refusal,
            lines: [format!("{refusal} {}", list.len()), hexadecimal(&buffer)],
            judged: 2 * list.len(),
        }
    }
}

fn number(refusal: Option<Refusal>) -> u64 {
    refusal.map_or(0, |refusal| refusal.number().into())
}

impl Record {
    pub fn call(&self) -> &'static str {
        match self {
            Record::Event { .. } => "event",
            Record::Save { .. } => "save",
            Record::Restore { .. } => "restore",
            Record::Currents { .. } => "currents",
            Record::Plan { .. } => "plan",
        }
    }

    pub fn bytes(&self) -> Vec<u8> {
        let length = |bytes: usize| {
            assert!(bytes <= BUFFER_BYTES, "the program's buffer is smaller");
            (bytes as u16).to_le_bytes()
        };
        match self {
            Record::Event { state, event } => {
                let kind_and_operand = [&[event.kind][..], &event.operand].concat();
                [&[0][..], &state.bytes(), &kind_and_operand].concat()
            }
            Record::Save { state, room, fill } => {
                [&[1][..], &state.bytes(), &length(*room), &[*fill]].concat()
            }
            Record::Restore { snapshot } => [&[2][..], &length(snapshot.len()), snapshot].concat(),
            Record::Currents { state, operand } => [&[3][..], &state.bytes(), operand].concat(),
            Record::Plan {
                state,
                wanted,
                room,
                fill,
            } => {
                let wanted = [&length(wanted.len())[..], wanted].concat();
                [&[4][..], &state.bytes(), &wanted, &length(*room), &[*fill]].concat()
            }
        }
    }

    fn expected(&self) -> Expected {
        match self {
            Record::Event { state, event: e } => {
                let (answer, next) = event(&state.named(), e.kind, &e.operand);
                let next = state.clone().with(&next);
                let lines = [hexadecimal(&answer), hexadecimal(&next.bytes())];
                Expected::only(answer[0].into(), lines)
            }
            Record::Save { state, room, fill } => {
                let mut buffer = vec![*fill; BUFFER_BYTES];
                let saved = save_into(&state.named(), &mut buffer[..*room]);
                let refusal = number(saved.refusal);
                let numbers = format!("{refusal} {}", saved.length);
                Expected::only(refusal, [numbers, hexadecimal(&buffer)])
            }
            Record::Restore { snapshot } => {
                let restored = restore(snapshot);
                let refusal = number(restored.refusal);
                let state = Whole::fresh(restored.state.chip()).with(&restored.state);
                let lines = [refusal.to_string(), hexadecimal(&state.bytes())];
                Expected::only(refusal, lines)
            }
            Record::Currents { state, operand } => {
                let (answer, next, currents) = tick_currents(&state.named(), operand);
                let numbers = currents.map(|current| format!(" {current}"));
                let next = state.clone().with(&next);
                let first = hexadecimal(&answer) + &numbers.concat();
                Expected::only(answer[0].into(), [first, hexadecimal(&next.bytes())])
            }
            Record::Plan {
                state,
                wanted,
                room,
                fill,
            } => Expected::plan(plan(&state.named(), wanted, *room), *fill),
        }
    }

    /// Whether what the model prints is all that is right: not where a plan has
    /// several runs, whose order is free, or one of all 256 entries, which may
    /// start at any.
    pub fn is_settled(&self) -> bool {
        let Record::Plan {
            state,
            wanted,
            room,
            ..
        } = self
        else {
            return true;
        };
        let list = plan(&state.named(), wanted, *room).unwrap_or_default();
        let runs = list.iter().filter(|write| write.selector == rs::WRITE_MODE);
        runs.count() <= 1 && list.len() < MOST_ACCESSES
    }

    /// What the model prints for it.
    pub fn printed(&self) -> String {
        let [first, second] = self.expected().lines;
        format!("{first}\n{second}\n")
    }

    /// What is wrong with the two lines that the program prints, if anything.
    pub fn wrong(&self, printed: [&str; 2]) -> Option<String> {
        let Expected { lines, judged, .. } = self.expected();
        let call = self.call();
        if printed[0] != lines[0] {
            return Some(format!(
                "{call}: the program prints {}, the model {}",
                printed[0], lines[0]
            ));
        }
        if printed[1].len() != lines[1].len() {
            return Some(format!(
                "{call}: the second line has {} characters, and not {}",
                printed[1].len(),
                lines[1].len()
            ));
        }
        let (found, right) = (printed[1].as_bytes(), lines[1].as_bytes());
        let (start, rest) = found.split_at(2 * judged);
        self.wrong_bytes(rest, &right[2 * judged..], judged)
            .or_else(|| self.wrong_list(start))
            .map(|what| format!("{call}: {what}"))
    }

    /// The first byte that differs in these digits of the second line, which start
    /// at this byte.
    fn wrong_bytes(&self, found: &[u8], right: &[u8], first: usize) -> Option<String> {
        let at = (0..right.len()).find(|&at| found[at] != right[at])? / 2;
        let number = first + at;
        let byte = match self {
            Record::Save { .. } | Record::Plan { .. } => format!("byte {number} of the buffer"),
            _ => Whole::byte_name(number),
        };
        let digits = |line: &[u8]| String::from_utf8_lossy(&line[2 * at..2 * at + 2]).into_owned();
        let (found, right) = (digits(found), digits(right));
        Some(format!(
            "{byte} is {found} in the program, {right} in the model"
        ))
    }

    /// What is wrong with a plan's list in these digits; any other call has none.
    fn wrong_list(&self, digits: &[u8]) -> Option<String> {
        let Record::Plan { state, wanted, .. } = self else {
            return None;
        };
        if digits.is_empty() {
            return None;
        }
        match bytes_of(digits) {
            Some(list) => list::fault(&state.named(), wanted, &list),
            None => Some("the list isn't in lowercase hexadecimal digits".into()),
        }
    }

    /// What the call shows by the model: its refusal; and with it each refusal
    /// that would come if that fault were mended.
    pub fn shown(&self) -> Vec<Shown> {
        let first = self.expected().refusal;
        let mended = self.mended(first).into_iter();
        shown_before(first, mended.map(|record| record.expected().refusal))
    }

    /// The call without the fault that it is refused for: for a chip that isn't
    /// built, with each chip that is; for one without currents or plans, with the
    /// chip that has them; for one without the event, with each fresh chip that
    /// has it.
    fn mended(&self, refusal: u64) -> Vec<Record> {
        let is = |fault: Refusal| refusal == u64::from(fault.number());
        if is(Refusal::SnapshotChip) {
            return CHIPS.into_iter().filter_map(|chip| self.on(chip)).collect();
        }
        if is(Refusal::CurrentsChip) {
            return self.on(CURRENTS_CHIP).into_iter().collect();
        }
        if is(Refusal::PlanChip) {
            return self.on(PLAN_CHIP).into_iter().collect();
        }
        if is(Refusal::NotOnChip) {
            return self.on_chips_with_the_event();
        }
        let mut record = self.clone();
        if let Some(state) = record.state().filter(|_| is(Refusal::Value)) {
            clamp(state);
            return vec![record];
        }
        match &mut record {
            Record::Event { event, .. } if is(Refusal::Kind) => event.kind = kind::SAVE,
            Record::Event { state, event } if is(Refusal::UnusedByte) => {
                clear_unused(state.chip, event)
            }
            Record::Plan { wanted, .. } if is(Refusal::Wanted) => wanted::mend(wanted),
            Record::Plan { room, .. } if is(Refusal::WritesBuffer) => *room = WRITES_BYTES,
            _ => return Vec::new(),
        }
        vec![record]
    }

    /// The call with this chip named by its state, if it takes one.
    fn on(&self, chip: u8) -> Option<Record> {
        let mut record = self.clone();
        record.state()?.chip = chip;
        Some(record)
    }

    fn on_chips_with_the_event(&self) -> Vec<Record> {
        let Record::Event { state, event } = self else {
            return Vec::new();
        };
        let mut chips = other_chips(state.chip);
        chips.retain(|&chip| !kinds_not_on(chip).contains(&event.kind));
        let on = |chip| Record::Event {
            state: Whole::fresh(chip),
            event: *event,
        };
        chips.into_iter().map(on).collect()
    }

    /// The state that the call takes, if it takes one.
    fn state(&mut self) -> Option<&mut Whole> {
        match self {
            Record::Event { state, .. }
            | Record::Save { state, .. }
            | Record::Currents { state, .. }
            | Record::Plan { state, .. } => Some(state),
            Record::Restore { .. } => None,
        }
    }

    /// What can be set to 0 in it: a state's parts, and the operand or the wanted
    /// bytes.
    pub fn clearable(&mut self) -> Vec<&mut [u8]> {
        let (state, more) = match self {
            Record::Event { state, event } => (state, Some(&mut event.operand[..])),
            Record::Save { state, .. } => (state, None),
            Record::Currents { state, operand } => (state, Some(&mut operand[..])),
            Record::Plan { state, wanted, .. } => (state, Some(&mut wanted[..])),
            Record::Restore { .. } => return Vec::new(),
        };
        let parts = state.parts.iter_mut().map(Vec::as_mut_slice);
        parts.chain(more).collect()
    }

    /// What must be shown by this sort of call.
    pub fn table(&self) -> &'static Table {
        match self {
            Record::Event { .. } => &EVENTS,
            Record::Save { .. } => &SAVES,
            Record::Restore { .. } => &RESTORES,
            Record::Currents { .. } => &CURRENTS,
            Record::Plan { .. } => &PLANS,
        }
    }
}

/// The bytes of these digits, if they are such as are printed.
fn bytes_of(digits: &[u8]) -> Option<Vec<u8>> {
    let value = |&digit: &u8| match digit {
        b'0'..=b'9' => Some(digit - b'0'),
        b'a'..=b'f' => Some(digit - b'a' + 10),
        _ => None,
    };
    let values: Vec<u8> = digits.iter().map(value).collect::<Option<_>>()?;
    let pairs = values.chunks_exact(2);
    Some(pairs.map(|pair| 16 * pair[0] + pair[1]).collect())
}

/// Values above their largest become their largest, in the named part.
fn clamp(state: &mut Whole) {
    let chip = state.chip;
    for (place, value) in state.part(chip).iter_mut().enumerate() {
        *value = largest(chip, place).min(*value);
    }
}

/// The operand's unused bytes become 0.
fn clear_unused(chip: u8, event: &mut Event) {
    debug_assert!(event.kind <= highest_kind(chip));
    let used = used_bytes(chip, event.kind);
    for (number, byte) in event.operand.iter_mut().enumerate() {
        if !used.contains(&number) {
            *byte = 0;
        }
    }
}

#[cfg(test)]
mod tests {
    use super::{Record, Whole};
    use crate::report::Shown;
    use kit::{p1, place_count, CHIPS};

    /// A tick with BLK and SYNC high; of a fresh chip it is black.
    const BLACK: [u8; 8] = [0, 0, 0, 0, 0, 0, 0, 3];
    /// One with an undefined level bit.
    const ODD: [u8; 8] = [0, 0, 0, 0, 0, 0, 0, 4];

    #[test]
    fn currents_as_a_record() {
        let (state, operand) = (Whole::fresh(1), BLACK);
        let record = Record::Currents { state, operand };
        let places: usize = CHIPS.into_iter().map(place_count).sum();
        let state = [vec![1], vec![0; places]].concat();
        assert_eq!(record.bytes(), [&[3][..], &state, &BLACK].concat());

        let answer = format!("000403{}", "0".repeat(30));
        let currents = " 905 144 144".repeat(4) + " 0 0 0";
        let state = format!("01{}", "00".repeat(places));
        assert_eq!(record.printed(), format!("{answer}{currents}\n{state}\n"));
    }

    fn shown(state: Whole, operand: [u8; 8]) -> Vec<Shown> {
        Record::Currents { state, operand }.shown()
    }

    #[test]
    fn refused_currents_with_the_refusal_behind() {
        let too_large = |chip| {
            let mut state = Whole::fresh(chip);
            state.part(1)[p1::POSITION] = 3;
            state
        };
        assert_eq!(shown(Whole::fresh(1), BLACK), [(0, 0)]);
        assert_eq!(shown(Whole::fresh(1), ODD), [(4, 0)]);
        assert_eq!(shown(too_large(1), ODD), [(25, 0), (25, 4)]);
        for chip in [0, 2, 3, 9] {
            assert_eq!(shown(Whole::fresh(chip), BLACK), [(40, 0)]);
            assert_eq!(shown(Whole::fresh(chip), ODD), [(40, 0), (40, 4)]);
            assert_eq!(shown(too_large(chip), ODD), [(40, 0), (40, 25)]);
        }
    }
}
