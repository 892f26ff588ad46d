//! How long the library and the second model take for the same runs. No test
//! goes by it.

use crate::library;
use kit::{log_bytes, Random, CHIPS};
use model::{ANSWER_BYTES, END_BUFFER_BYTES, MOST_EVENTS};
use std::time::{Duration, Instant};

const LOGS: usize = 40;
const EVENTS: usize = MOST_EVENTS;
const REPEATS: usize = 5;

fn smallest(mut run: impl FnMut()) -> Duration {
    let mut least = Duration::MAX;
    for _ in 0..REPEATS {
        let start = Instant::now();
        run();
        least = least.min(start.elapsed());
    }
    least
}

fn per_event(time: Duration) -> f64 {
    time.as_nanos() as f64 / (LOGS * EVENTS) as f64
}

/// Prints the time of each chip's logs, one run after the other.
pub fn report(seed: u64) {
    println!("{LOGS} logs of {EVENTS} events of every kind, the smallest of {REPEATS} repeats; the model is built for release, with overflow checks");
    for chip in CHIPS {
        let mut random = Random::seeded(seed ^ u64::from(chip));
        let runs: Vec<(Vec<u8>, Vec<u8>)> = (0..LOGS)
            .map(|_| {
                let snapshot = random.snapshot(chip);
                let events = random.events(chip, EVENTS);
                (snapshot, log_bytes(chip, &events))
            })
            .collect();
        let mut answers = vec![0; ANSWER_BYTES * EVENTS];
        let mut end = vec![0; END_BUFFER_BYTES];
        let model = smallest(|| {
            for (snapshot, log) in &runs {
                model::run(snapshot, log, &mut answers, &mut end);
            }
        });
        let called = smallest(|| {
            for (snapshot, log) in &runs {
                library::bare_run(snapshot, log, &mut answers, &mut end);
            }
        });
        println!(
            "chip {chip}: palette_run {:.1} ns an event, the model {:.1}, ratio {:.2}",
            per_event(called),
            per_event(model),
            per_event(called) / per_event(model)
        );
    }
}
