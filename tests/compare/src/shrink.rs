//! Makes a failing case small: fewer events, fewer places, plainer bytes, as
//! long as it still fails.

use crate::case::Case;
use model::ANSWER_BYTES;

/// Tries a candidate, and takes it for the best case if it still fails.
pub type Attempt<'a, C> = dyn FnMut(C, &mut C) -> bool + 'a;

/// A byte string of a case.
type Part<C> = fn(&mut C) -> &mut Vec<u8>;

/// A smaller case for which `fails` still holds, found in at most `tries`
/// tries, which are taken off.
pub fn shrunk(case: &Case, tries: &mut usize, fails: &mut dyn FnMut(&Case) -> bool) -> Case {
    search(case, tries, fails, size, |best, attempt| {
        fewer_events(best, attempt);
        fewer_places(best, attempt, |case| &mut case.snapshot);
        plainer_bytes(best, attempt);
        plainer_buffers(best, attempt);
    })
}

/// Makes a case smaller by `steps`, again and again until they leave its size
/// as it is.
pub fn search<C: Clone, S: PartialEq>(
    case: &C,
    tries: &mut usize,
    fails: &mut dyn FnMut(&C) -> bool,
    size: fn(&C) -> S,
    steps: fn(&mut C, &mut Attempt<C>),
) -> C {
    let mut best = case.clone();
    let mut try_it = |candidate: C, best: &mut C| {
        if *tries == 0 {
            return false;
        }
        *tries -= 1;
        let smaller = fails(&candidate);
        if smaller {
            *best = candidate;
        }
        smaller
    };
    loop {
        let before = size(&best);
        steps(&mut best, &mut try_it);
        if size(&best) == before {
            return best;
        }
    }
}

/// What shrinking makes less: lengths, then bytes that aren't 0.
fn size(case: &Case) -> (usize, usize, usize) {
    (
        case.snapshot.len() + case.log.len(),
        nonzero_bytes(&case.snapshot) + nonzero_bytes(&case.log),
        case.answers_len + case.end_len,
    )
}

pub fn nonzero_bytes(bytes: &[u8]) -> usize {
    bytes.iter().filter(|&&byte| byte != 0).count()
}

/// The number of events, if the log's length fits its count.
fn event_count(log: &[u8]) -> Option<usize> {
    let count = log.len().checked_sub(5)? / 9;
    let claimed = u32::from_le_bytes([log[1], log[2], log[3], log[4]]) as usize;
    (claimed == count && log.len() == 5 + 9 * count).then_some(count)
}

/// The number of places, if the snapshot's length fits its count.
fn pair_count(snapshot: &[u8]) -> Option<usize> {
    let count = snapshot.len().checked_sub(3)? / 3;
    let claimed = usize::from(u16::from_le_bytes([snapshot[1], snapshot[2]]));
    (claimed == count && snapshot.len() == 3 + 3 * count).then_some(count)
}

/// Takes runs of items away, long runs first. `without` builds the case that
/// lacks items `start..stop`; `count` says how many items there are.
fn fewer<C>(
    best: &mut C,
    attempt: &mut Attempt<C>,
    count: impl Fn(&mut C) -> Option<usize>,
    without: impl Fn(&mut C, usize, usize) -> C,
) {
    let mut run = count(best).unwrap_or(0);
    while run > 0 {
        let mut start = 0;
        while let Some(n) = count(best).filter(|&n| start + run <= n) {
            debug_assert!(start + run <= n);
            let candidate = without(best, start, start + run);
            if !attempt(candidate, best) {
                start += run;
            }
        }
        run /= 2;
    }
}

fn fewer_events(best: &mut Case, attempt: &mut Attempt<Case>) {
    fewer(best, attempt, |case| event_count(&case.log), without_events);
}

/// The answer buffer keeps its distance from what the events need.
fn without_events(case: &mut Case, start: usize, stop: usize) -> Case {
    let count = event_count(&case.log).unwrap_or(0);
    let left = count - (stop - start);
    let mut log = vec![case.log[0]];
    log.extend((left as u32).to_le_bytes());
    let (kinds, operands) = case.log[5..].split_at(count);
    log.extend(&kinds[..start]);
    log.extend(&kinds[stop..]);
    log.extend(&operands[..8 * start]);
    log.extend(&operands[8 * stop..]);
    let fewer_bytes = ANSWER_BYTES * (stop - start);
    Case {
        log,
        answers_len: case.answers_len.saturating_sub(fewer_bytes),
        ..case.clone()
    }
}

/// Takes places out of a snapshot.
pub fn fewer_places<C: Clone>(best: &mut C, attempt: &mut Attempt<C>, snapshot: Part<C>) {
    let count = |case: &mut C| pair_count(snapshot(case));
    fewer(best, attempt, count, |case, start, stop| {
        let mut fewer = case.clone();
        *snapshot(&mut fewer) = without_places(snapshot(case), start, stop);
        fewer
    });
}

fn without_places(snapshot: &[u8], start: usize, stop: usize) -> Vec<u8> {
    let count = pair_count(snapshot).unwrap_or(0);
    let left = count - (stop - start);
    let mut fewer = vec![snapshot[0]];
    fewer.extend((left as u16).to_le_bytes());
    let (numbers, values) = snapshot[3..].split_at(2 * count);
    fewer.extend(&numbers[..2 * start]);
    fewer.extend(&numbers[2 * stop..]);
    fewer.extend(&values[..start]);
    fewer.extend(&values[stop..]);
    fewer
}

/// Single bytes set to 0 or 1 in short inputs; odd lengths cut from the end.
fn plainer_bytes(best: &mut Case, attempt: &mut Attempt<Case>) {
    plainer(best, attempt, 5, |case| &mut case.log);
    plainer_snapshot(best, attempt, |case| &mut case.snapshot);
    if event_count(&best.log).is_none() {
        shorter(best, attempt, |case| &mut case.log);
    }
}

/// The same of a snapshot.
pub fn plainer_snapshot<C: Clone>(best: &mut C, attempt: &mut Attempt<C>, snapshot: Part<C>) {
    plainer(best, attempt, 3, snapshot);
    if pair_count(snapshot(best)).is_none() {
        shorter(best, attempt, snapshot);
    }
}

/// Bytes set to 0 or 1, from this one on, if there are few.
pub fn plainer<C: Clone>(best: &mut C, attempt: &mut Attempt<C>, from: usize, part: Part<C>) {
    let len = part(best).len();
    if len <= 200 {
        for at in from..len {
            plainer_byte(best, attempt, at, part);
        }
    }
}

fn plainer_byte<C: Clone>(best: &mut C, attempt: &mut Attempt<C>, at: usize, part: Part<C>) {
    for plain in [0, 1] {
        let mut candidate = best.clone();
        let byte = &mut part(&mut candidate)[at];
        if *byte <= plain {
            return;
        }
        *byte = plain;
        if attempt(candidate, best) {
            return;
        }
    }
}

/// Sets runs of a byte string to 0, long runs first.
pub fn clear_runs<C: Clone>(
    best: &mut C,
    attempt: &mut Attempt<C>,
    part: impl Fn(&mut C) -> &mut [u8],
) {
    let len = part(best).len();
    let mut run = len;
    while run > 0 {
        for start in (0..len).step_by(run) {
            let numbers = start..len.min(start + run);
            if nonzero_bytes(&part(best)[numbers.clone()]) > 0 {
                let mut candidate = best.clone();
                part(&mut candidate)[numbers].fill(0);
                attempt(candidate, best);
            }
        }
        run /= 2;
    }
}

fn shorter<C: Clone>(best: &mut C, attempt: &mut Attempt<C>, part: Part<C>) {
    let mut cut = part(best).len();
    while cut > 0 {
        let mut candidate = best.clone();
        let bytes = part(&mut candidate);
        if cut > bytes.len() {
            cut /= 2;
            continue;
        }
        bytes.truncate(bytes.len() - cut);
        if !attempt(candidate, best) {
            cut /= 2;
        }
    }
}

/// Buffers of just the size that an accepted run needs.
fn plainer_buffers(best: &mut Case, attempt: &mut Attempt<Case>) {
    let exact = ANSWER_BYTES * event_count(&best.log).unwrap_or(0);
    if best.answers_len > exact {
        let mut candidate = best.clone();
        candidate.answers_len = exact;
        attempt(candidate, best);
    }
    if best.end_len > model::END_BUFFER_BYTES {
        let mut candidate = best.clone();
        candidate.end_len = model::END_BUFFER_BYTES;
        attempt(candidate, best);
    }
}
