//! What the test files share beside the kit: a bench around one state, the
//! answers of writes, runs with buffers that fit or of any size, and a header and
//! snapshots that are refused.

use kit::{c, log_bytes, p1, p2, p3, place_count, rs, snapshot_bytes};
use kit::{ANSWER_BYTES, END_BYTES, MOST_EVENTS, NOT_BUILT};
use model::{event, kind, run, Answer, Event, Operand, State};

/// One chip on a bench: events go in, answers come out, places can be seen.
pub struct Bench {
    pub state: State,
}

impl Bench {
    pub fn fresh(chip: u8) -> Bench {
        Bench {
            state: State::fresh(chip).unwrap(),
        }
    }

    /// A chip that isn't built: its state has no places.
    pub fn not_built(chip: u8) -> Bench {
        Bench {
            state: State::from_places(chip, &[]).unwrap(),
        }
    }

    pub fn with_places(chip: u8, pairs: &[(usize, u8)]) -> Bench {
        let mut bench = Bench::fresh(chip);
        for &(place, value) in pairs {
            bench.set(place, value);
        }
        bench
    }

    pub fn event(&mut self, kind: u8, operand: Operand) -> Answer {
        let (answer, next) = event(&self.state, kind, &operand);
        self.state = next;
        answer
    }

    /// All bytes of a write's answer.
    pub fn write_answer(&mut self, selector: u8, byte: u8) -> Answer {
        self.event(kind::WRITE, [selector, byte, 0, 0, 0, 0, 0, 0])
    }

    /// A write's refusal or 0. A write answers nothing else but what it painted,
    /// which must be what [`number_painted`] says.
    pub fn write(&mut self, selector: u8, byte: u8) -> u8 {
        let number = number_painted(&self.state, selector);
        let answer = self.write_answer(selector, byte);
        match number {
            Some(number) => assert_eq!(answer, painted_answer(number)),
            None => assert_eq!(answer[1..], [0; ANSWER_BYTES - 1]),
        }
        answer[0]
    }

    pub fn write_all(&mut self, selector: u8, bytes: &[u8]) {
        for &byte in bytes {
            assert_eq!(self.write(selector, byte), 0);
        }
    }

    /// A read's refusal (or 0) and its byte. A read answers nothing else.
    pub fn read(&mut self, selector: u8) -> (u8, u8) {
        let answer = self.event(kind::READ, [selector, 0, 0, 0, 0, 0, 0, 0]);
        assert_eq!(answer[2..], [0; ANSWER_BYTES - 2]);
        (answer[0], answer[1])
    }

    pub fn read_byte(&mut self, selector: u8) -> u8 {
        let (refusal, byte) = self.read(selector);
        assert_eq!(refusal, 0);
        byte
    }

    /// Chip 3: a load's refusal or 0. A load answers nothing else.
    pub fn load(&mut self, da: u8, db: u8) -> u8 {
        let answer = self.event(kind::LOAD, [da, db, 0, 0, 0, 0, 0, 0]);
        assert_eq!(answer[1..], [0; ANSWER_BYTES - 1]);
        answer[0]
    }

    pub fn load_all(&mut self, loads: &[(u8, u8)]) {
        for &(da, db) in loads {
            assert_eq!(self.load(da, db), 0);
        }
    }

    pub fn vertical_periods(&mut self, count: usize) {
        for _ in 0..count {
            assert_eq!(self.event(kind::VERTICAL, [0; 8]), [0; ANSWER_BYTES]);
        }
    }

    /// Chip 1: the tick of one pixel A with its OL1 and OL0, BLK high; the
    /// other pixels are 0. Gives pixel A's codes.
    pub fn show(&mut self, pixel: u8, ol1: u8, ol0: u8) -> [u8; 3] {
        let answer = self.event(kind::TICK, [pixel, 0, 0, 0, 0, ol0, ol1, 1]);
        assert_eq!(answer[0], 0);
        [answer[3], answer[4], answer[5]]
    }

    /// Chip 2: one pixel with BLANK high. Gives its codes.
    pub fn show2(&mut self, pixel: u8) -> [u8; 3] {
        let answer = self.event(kind::TICK, [pixel, 0, 0, 0, 0, 0, 0, 1]);
        assert_eq!(answer[..3], [0, 1, 1]);
        assert_eq!(answer[6..], [0; ANSWER_BYTES - 6]);
        [answer[3], answer[4], answer[5]]
    }

    /// Chip 3: pixels DA and DB with DATEN high. Gives their colours.
    pub fn show3(&mut self, da: u8, db: u8) -> [[u8; 3]; 2] {
        let answer = self.event(kind::TICK, [da, db, 0, 0, 0, 0, 0, 1]);
        assert_eq!(answer[..2], [0, 2]);
        assert_eq!(answer[2] & 1, 1);
        assert_eq!(answer[9..], [0; ANSWER_BYTES - 9]);
        [
            [answer[3], answer[4], answer[5]],
            [answer[6], answer[7], answer[8]],
        ]
    }

    /// Chip 3: pixels DA and DB with DATEN low.
    pub fn blank3(&mut self, da: u8, db: u8) {
        let answer = self.event(kind::TICK, [da, db, 0, 0, 0, 0, 0, 0]);
        assert_eq!(answer[..2], [0, 2]);
        assert_eq!(answer[2..], [0; ANSWER_BYTES - 2]);
    }

    pub fn place(&self, place: usize) -> u8 {
        self.state.places()[place]
    }

    pub fn entry(&self, entry: usize) -> [u8; 3] {
        let places = self.state.places();
        [
            places[3 * entry],
            places[3 * entry + 1],
            places[3 * entry + 2],
        ]
    }

    pub fn set(&mut self, place: usize, value: u8) {
        let mut places = self.state.places();
        places[place] = value;
        self.state = State::from_places(self.state.chip(), &places).unwrap();
    }

    pub fn set_entry(&mut self, entry: usize, colour: [u8; 3]) {
        for (component, value) in colour.into_iter().enumerate() {
            self.set(3 * entry + component, value);
        }
    }
}

/// Chip 3's registers: red, green, blue, EXT and REP of each.
impl Bench {
    pub fn register(&self, register: usize) -> [u8; 5] {
        let first = p3::REGISTER_PLACES * register;
        let places = self.state.places();
        places[first..first + p3::REGISTER_PLACES]
            .try_into()
            .unwrap()
    }

    pub fn set_register(&mut self, register: usize, values: [u8; 5]) {
        for (part, value) in values.into_iter().enumerate() {
            self.set(p3::REGISTER_PLACES * register + part, value);
        }
    }

    pub fn colour_before(&self) -> [u8; 3] {
        self.state.places()[p3::COLOUR_BEFORE..].try_into().unwrap()
    }
}

/// The answer of a write that painted the entry or register of this number.
pub fn painted_answer(number: u16) -> Answer {
    let mut answer = [0; ANSWER_BYTES];
    answer[1] = 1;
    answer[2] = (number % 256) as u8;
    answer[3] = (number / 256) as u8;
    answer
}

/// The number that a write on this state answers, or nothing if it doesn't paint
/// or is refused. From the places and the papers, and not by the model.
pub fn number_painted(state: &State, selector: u8) -> Option<u16> {
    let places = state.places();
    match (state.chip(), selector) {
        (1, _) => {
            let address = u16::from(places[p1::ADDRESS]);
            let blue = places[p1::POSITION] == 2;
            match (selector, address) {
                (c::PALETTE, _) if blue => Some(address),
                (c::OVERLAY, 0..=3) if blue => Some(256 + address),
                // Registers 04h to 06h follow overlays 0 to 3.
                (c::CONTROL, 4..=6) => Some(256 + address),
                _ => None,
            }
        }
        (2, rs::CLT) => {
            let blue_written = places[p2::POSITION] == 2 && places[p2::DIRECTION] == 0;
            blue_written.then_some(u16::from(places[p2::ADDRESS]))
        }
        (2, rs::PIXEL_MASK) => Some(260),
        _ => None,
    }
}

/// What an accepted run gave.
#[derive(Debug, PartialEq, Eq)]
pub struct Played {
    pub answers: Vec<Answer>,
    pub end: Vec<u8>,
}

/// Runs a log that must be accepted.
pub fn play(chip: u8, snapshot: &[u8], events: &[Event]) -> Played {
    let mut answers = vec![0xEE; ANSWER_BYTES * events.len()];
    let mut end = vec![0xEE; END_BYTES];
    let result = run(snapshot, &log_bytes(chip, events), &mut answers, &mut end);
    assert_eq!(result >> 16, 0);
    end.truncate(result as usize);
    let answers = answers
        .chunks_exact(ANSWER_BYTES)
        .map(|bytes| bytes.try_into().unwrap())
        .collect();
    Played { answers, end }
}

/// Runs with buffers of these sizes; gives the result and both buffers.
pub fn run_with(
    snapshot: &[u8],
    log: &[u8],
    answer_bytes: usize,
    end_bytes: usize,
) -> (u64, Vec<u8>, Vec<u8>) {
    let mut answers = vec![0xA5; answer_bytes];
    let mut end = vec![0x5A; end_bytes];
    let result = run(snapshot, log, &mut answers, &mut end);
    (result, answers, end)
}

/// The run must be refused with this number, length 0, no byte changed.
pub fn assert_refused(
    snapshot: &[u8],
    log: &[u8],
    answer_bytes: usize,
    end_bytes: usize,
    number: u8,
) {
    let (result, answers, end) = run_with(snapshot, log, answer_bytes, end_bytes);
    assert_eq!(result, 65_536 * u64::from(number));
    assert_eq!(answers, vec![0xA5; answer_bytes]);
    assert_eq!(end, vec![0x5A; end_bytes]);
}

/// A log's header that claims one event more than a log may have; no event
/// follows.
pub fn header_over_the_limit(chip: u8) -> Vec<u8> {
    let [a, b, c, d] = (MOST_EVENTS as u32 + 1).to_le_bytes();
    vec![chip, a, b, c, d]
}

/// A snapshot with this fault, 0 for none.
pub fn snapshot_with(fault: u8, chip: u8) -> Vec<u8> {
    match fault {
        20 => vec![chip, 0],
        21 => vec![NOT_BUILT, 0, 0],
        22 => {
            let [low, high] = (place_count(chip) as u16 + 1).to_le_bytes();
            vec![chip, low, high]
        }
        23 => vec![chip, 1, 0],
        24 => snapshot_bytes(chip, &[(place_count(chip) as u16, 1)]),
        25 => snapshot_bytes(chip, &[(5, 0)]),
        _ => snapshot_bytes(chip, &[(5, 9)]),
    }
}
