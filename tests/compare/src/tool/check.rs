//! Checks what the tool makes of an input. The model says what is right, also of
//! the smaller inputs that a failing one becomes.

use crate::program::WHOLE;
use crate::tool::classes::{ASSEMBLED, LONG_LOG, LONG_SNAPSHOT, NOT_UNDERSTOOD};
use crate::tool::classes::{CURRENTS_BLANKED, CURRENTS_FIVE, CURRENTS_FOUR};
use crate::tool::classes::{LISTED_CHIPS, LISTED_EMPTY, LISTED_LOADS, LISTED_MOST};
use crate::tool::classes::{LISTED_PIECES, LISTED_VERTICALS};
use crate::tool::classes::{PLAN_ACROSS, PLAN_ALL, PLAN_EMPTY, PLAN_RUNS};
use crate::tool::classes::{RUN_BLANKED, RUN_CHIPS, RUN_PAINTED, RUN_PIXEL_BITS, RUN_TICK};
use crate::tool::classes::{SHOWN_CHIPS, SHOWN_DIFFERENT, SHOWN_LAST_PIXEL};
use crate::tool::input::{Input, Sort};
use crate::tool::modelled::{self, refusal_of_log, refusal_of_snapshot, Outcome, Plan, Run};
use crate::tool::{printed, Played, Tool};
use kit::{is_tick, CHIPS, MOST_EVENTS, WANTED_ENTRIES};
use model::{kind, Event, Operand};

/// What an input that was right showed, for the counts.
#[derive(Default)]
pub struct Seen {
    pub parts: Vec<&'static str>,
    /// 0 if it was accepted.
    pub refusals: Vec<u64>,
}

pub type Checked = Result<Seen, String>;

/// The part of a class that is this chip's.
fn of_chip(parts: &[&'static str; CHIPS.len()], chip: u8) -> &'static str {
    let index = CHIPS.iter().position(|&built| built == chip);
    parts[index.expect("a built chip")]
}

// ---- list and assemble

/// What `list` prints, assembled, must be the log again; or `list` refuses it.
/// Gives the refusal.
fn listed(tool: &Tool, log: &[u8], piece: usize) -> Result<u64, String> {
    let list = tool.on_pieces(&["list", "-"], log, piece)?;
    let refusal = refusal_of_log(log);
    if refusal != 0 {
        list.refused(refusal)?;
        return Ok(refusal);
    }
    let assemble = tool.on(&["assemble", "-"], list.done()?)?;
    let same = assemble.done()? == log;
    assemble.needs(same, "should give the log that was listed")?;
    Ok(0)
}

pub fn listed_and_assembled(tool: &Tool, input: &Input) -> Checked {
    let log = input.bytes(Sort::Log);
    let refusal = listed(tool, log, input.piece)?;
    let mut parts = match model::read_log(log) {
        Ok(log) => parts_of_log(log.chip, &log.events),
        Err(_) => vec![],
    };
    if input.piece != WHOLE {
        parts.push(LISTED_PIECES);
    }
    Ok(Seen {
        parts,
        refusals: vec![refusal],
    })
}

fn parts_of_log(chip: u8, events: &[Event]) -> Vec<&'static str> {
    let mut parts = vec![of_chip(&LISTED_CHIPS, chip)];
    if events.is_empty() {
        parts.push(LISTED_EMPTY);
    }
    if events.len() == MOST_EVENTS {
        parts.push(LISTED_MOST);
    }
    let mut runs = events.split(|event| event.kind != kind::VERTICAL);
    if runs.any(|run| run.len() > 255) {
        parts.push(LISTED_VERTICALS);
    }
    if events.iter().any(|event| event.kind == kind::LOAD) {
        parts.push(of_chip(&LISTED_LOADS, chip));
    }
    parts
}

/// A text gives a log that is accepted; or the line is named that isn't
/// understood, whatever bytes it has in words that a terminal can show.
pub fn assembled(tool: &Tool, input: &Input) -> Checked {
    let assemble = tool.on(&["assemble", "-"], input.bytes(Sort::Text))?;
    let part = if assemble.ended.status == 0 {
        let log = assemble.done()?;
        let accepted = refusal_of_log(log) == 0;
        assemble.needs(accepted, "should give a log that the model accepts")?;
        listed(tool, log, WHOLE)?;
        ASSEMBLED
    } else {
        assemble.not_done(", line ")?;
        let errors = assemble.ended.errors.iter();
        let plain = errors.filter(|byte| !matches!(byte, b' '..=b'~')).count() == 1;
        assemble.needs(plain, "should show no odd byte")?;
        NOT_UNDERSTOOD
    };
    Ok(Seen {
        parts: vec![part],
        ..Seen::default()
    })
}

// ---- run

/// The words of a run and its standard input, and what they hand to it.
struct Play<'a> {
    words: &'a [&'a str],
    input: &'a [u8],
    snapshot: &'a [u8],
    log: &'a [u8],
}

/// What `run` prints and writes, or that it refuses. Gives what the model makes
/// of it.
fn played(tool: &Tool, play: &Play) -> Result<Outcome, String> {
    let run = tool.on(play.words, play.input)?;
    let right = match modelled::run(play.snapshot, play.log) {
        Ok(right) => right,
        Err(refusal) => {
            run.refused(refusal)?;
            return Ok(Err(refusal));
        }
    };
    run.needs(run.ended.status == 0, "should be done")?;
    let (output, errors) = (&run.ended.output[..], &run.ended.errors[..]);
    // The end snapshot takes the place of what is printed.
    let (report, rest, right_rest) = match play.words.contains(&"--end") {
        true => (errors, output, &right.end[..]),
        false => (output, errors, &[][..]),
    };
    run.needs(rest == right_rest, "the end snapshot isn't the model's")?;
    run.prints(&run.lines(report)?, &printed::of_run(&right))?;
    Ok(Ok(right))
}

pub fn played_to_the_end(tool: &Tool, input: &Input) -> Checked {
    let (snapshot, log) = (input.bytes(Sort::Snapshot), input.bytes(Sort::Log));
    let file = tool.file("snapshot", snapshot)?;
    let play = Play {
        words: &["run", "--end", "-", &file, "-"],
        input: log,
        snapshot,
        log,
    };
    Ok(match played(tool, &play)? {
        Ok(run) => seen_in(&run),
        Err(refusal) => Seen {
            refusals: vec![refusal],
            ..Seen::default()
        },
    })
}

/// The refusals, the sorts of ticks and what writes painted in a run.
fn seen_in(run: &Run) -> Seen {
    let mut seen = Seen {
        parts: vec![of_chip(&RUN_CHIPS, run.chip)],
        refusals: vec![0],
    };
    for (event, answer) in run.answered() {
        if answer[0] != 0 {
            seen.refusals.push(answer[0].into());
        } else if is_tick(event) {
            seen.parts.push(match printed::is_blanked(answer) {
                true => RUN_BLANKED,
                false => RUN_TICK,
            });
            if printed::has_pixel_bit(run.chip, answer) {
                seen.parts.push(RUN_PIXEL_BITS);
            }
        } else if let Some(number) = printed::painted(event, answer) {
            let [entry, overlay, register, mask] = RUN_PAINTED;
            seen.parts.push(match (run.chip, number) {
                (_, 0..=255) => entry,
                (1, 256..=259) => overlay,
                (1, _) => register,
                _ => mask,
            });
        }
    }
    seen
}

/// An input that is too long is refused as a whole, however much of it is read.
pub fn refused_whole(tool: &Tool, input: &Input) -> Checked {
    let log = input.bytes(Sort::Log);
    let (part, played) = match input.get(Sort::Snapshot) {
        None => (LONG_LOG, long_log_played(tool, log)?),
        Some(snapshot) => (LONG_SNAPSHOT, long_snapshot_played(tool, snapshot, log)?),
    };
    Ok(Seen {
        parts: vec![part],
        refusals: vec![played.err().unwrap_or(0)],
    })
}

fn long_log_played(tool: &Tool, log: &[u8]) -> Result<Outcome, String> {
    listed(tool, log, WHOLE)?;
    let play = Play {
        words: &["run", "fresh", "-"],
        input: log,
        snapshot: &modelled::fresh(log),
        log,
    };
    played(tool, &play)
}

fn long_snapshot_played(tool: &Tool, snapshot: &[u8], log: &[u8]) -> Result<Outcome, String> {
    shown(tool, "-", snapshot)?;
    let file = tool.file("log", log)?;
    let play = Play {
        words: &["run", "--end", "-", "-", &file],
        input: snapshot,
        snapshot,
        log,
    };
    played(tool, &play)
}

// ---- show and diff

/// What `show` prints of a snapshot, in a file or on standard input. Gives the
/// refusal.
fn shown(tool: &Tool, path: &str, snapshot: &[u8]) -> Result<u64, String> {
    let show = tool.on(&["show", path], snapshot)?;
    let refusal = refusal_of_snapshot(snapshot);
    if refusal != 0 {
        show.refused(refusal)?;
        return Ok(refusal);
    }
    let state = model::restore(snapshot).state;
    let lines = show.lines(show.done()?)?;
    let chip = format!("chip {}, ", state.chip());
    let named = lines.first().is_some_and(|line| line.starts_with(&chip));
    show.needs(named, "should name the chip first")?;
    let coloured = lines.iter().filter(|line| line.contains('#'));
    let coloured: Vec<String> = coloured.map(|line| printed::words(line)).collect();
    let right = printed::of_colours(state.chip(), &state.places());
    show.prints(&coloured, &right)?;
    Ok(0)
}

/// What `diff` prints of two snapshots of one chip. Gives the refusal, or how
/// many places differ.
fn compared(
    tool: &Tool,
    paths: [&str; 2],
    snapshots: [&[u8]; 2],
) -> Result<Result<usize, u64>, String> {
    let diff = tool.on(&["diff", paths[0], paths[1]], &[])?;
    let refusals = snapshots.map(refusal_of_snapshot);
    if let Some(&refusal) = refusals.iter().find(|&&refusal| refusal != 0) {
        diff.refused(refusal)?;
        return Ok(Err(refusal));
    }
    let [old, new] = snapshots.map(|snapshot| model::restore(snapshot).state);
    let right = printed::of_differences(old.chip(), &old.places(), &new.places());
    let status = i32::from(!right.is_empty());
    let what = format!("should end with status {status}");
    diff.needs(diff.ended.status == status, &what)?;
    diff.needs(diff.ended.errors.is_empty(), "should say nothing")?;
    let lines = diff.lines(&diff.ended.output)?;
    let lines: Vec<String> = lines.iter().map(|line| printed::words(line)).collect();
    diff.prints(&lines, &right)?;
    Ok(Ok(right.len()))
}

pub fn shown_and_compared(tool: &Tool, input: &Input) -> Checked {
    let (first, second) = (input.bytes(Sort::Snapshot), input.bytes(Sort::Second));
    let path = tool.file("snapshot", first)?;
    let other = tool.file("second", second)?;
    let mut seen = Seen {
        refusals: vec![shown(tool, &path, first)?],
        ..Seen::default()
    };
    if compared(tool, [&path, &path], [first, first])? == Ok(0) {
        seen.parts.push(of_chip(&SHOWN_CHIPS, first[0]));
        if printed::has_last_pixel(first[0], &model::restore(first).state.places()) {
            seen.parts.push(SHOWN_LAST_PIXEL);
        }
    }
    match compared(tool, [&path, &other], [first, second])? {
        Ok(0) => {}
        Ok(_) => seen.parts.push(SHOWN_DIFFERENT),
        Err(refusal) => seen.refusals.push(refusal),
    }
    Ok(seen)
}

// ---- currents

/// A chip 1 tick in the words of a log's text, even bytes in decimal and the
/// others in hexadecimal.
fn tick_word(operand: &Operand) -> String {
    let byte = |byte: u8| match byte % 2 {
        0 => format!("{byte}"),
        _ => format!("{byte:X}h"),
    };
    let [a, b, c, d, e, ol0, ol1, levels] = operand.map(byte);
    format!("tick {a} {b} {c} {d} {e} ol0 {ol0} ol1 {ol1} levels {levels}")
}

/// What `currents` prints for the tick of a log of one event, or that it refuses
/// the snapshot or the tick.
pub fn fed(tool: &Tool, input: &Input) -> Checked {
    let snapshot = input.bytes(Sort::Snapshot);
    let log = model::read_log(input.bytes(Sort::Log));
    // A smaller log may have no tick: then there is nothing to get wrong.
    let Some(&Event { operand, .. }) = log.iter().flat_map(|log| &log.events).find(|e| is_tick(e))
    else {
        return Ok(Seen::default());
    };
    let currents = tool.on(&["currents", "-", &tick_word(&operand)], snapshot)?;
    let right = modelled::currents(snapshot, &operand);
    let refusal = right.as_ref().err().copied().unwrap_or(0);
    let mut parts = vec![];
    match right {
        Err(refusal) => currents.refused(refusal)?,
        Ok(right) => {
            let lines = currents.lines(currents.done()?)?;
            let lines: Vec<String> = lines.iter().map(|line| printed::words(line)).collect();
            currents.prints(&lines, &printed::of_currents(&right))?;
            parts.push(match right.answer[1] {
                4 => CURRENTS_FOUR,
                _ => CURRENTS_FIVE,
            });
            if printed::is_blanked(&right.answer) {
                parts.push(CURRENTS_BLANKED);
            }
        }
    }
    Ok(Seen {
        parts,
        refusals: vec![refusal],
    })
}

// ---- plan

/// What the file for the log holds before: a refused plan leaves it so.
const BEFORE: &[u8] = b"before";

/// The log that `plan` makes and what it prints are those of the fewest writes to
/// the wanted colours; or it refuses the snapshot or the wanted colours.
pub fn planned(tool: &Tool, input: &Input) -> Checked {
    let (snapshot, wanted) = (input.bytes(Sort::Snapshot), input.bytes(Sort::Wanted));
    let file = tool.file("snapshot", snapshot)?;
    let target = tool.file("planned", BEFORE)?;
    let plan = tool.on(&["plan", "--log", &target, &file, "-"], wanted)?;
    let log = tool.holds(&target)?;
    let right = match modelled::plan(snapshot, wanted) {
        Ok(right) => right,
        Err(refusal) => {
            plan.refused(refusal)?;
            plan.needs(log == BEFORE, "should make no log")?;
            return Ok(Seen {
                refusals: vec![refusal],
                ..Seen::default()
            });
        }
    };
    text_of_plan(tool, &plan, &log, &right)?;
    let play = Play {
        words: &["run", "--end", "-", &file, &target],
        input: &[],
        snapshot,
        log: &log,
    };
    run_of_plan(tool, &plan, &play, &right, wanted)?;
    Ok(Seen {
        parts: parts_of_plan(&right),
        refusals: vec![0],
    })
}

/// The log, run, makes as few writes as there can be, of which none is refused,
/// and ends in the wanted colours.
fn run_of_plan(
    tool: &Tool,
    plan: &Played,
    play: &Play,
    right: &Plan,
    wanted: &[u8],
) -> Result<(), String> {
    let Ok(run) = played(tool, play)? else {
        return Err(plan.fault("should make a log that is accepted"));
    };
    plan.needs(run.events.len() == right.writes, "should be the fewest")?;
    let accepted = run.answered().all(|(_, answer)| answer[0] == 0);
    plan.needs(accepted, "should have no write that is refused")?;
    let end = model::restore(&run.end).state.places();
    plan.needs(end.starts_with(wanted), "should leave the wanted colours")
}

/// The text is what `list` prints of the log and a line of sums, and is the log's
/// when it is assembled.
fn text_of_plan(tool: &Tool, plan: &Played, log: &[u8], right: &Plan) -> Result<(), String> {
    let text = plan.done()?;
    let list = tool.on(&["list", "-"], log)?;
    let mut lines = list.lines(list.done()?)?;
    lines.push(printed::sums_of_plan(right));
    let same = plan.lines(text)? == lines;
    plan.needs(same, "should print the log's list and the sums")?;
    let assemble = tool.on(&["assemble", "-"], text)?;
    let same = assemble.done()? == log;
    assemble.needs(same, "should give the log of the plan")
}

fn parts_of_plan(plan: &Plan) -> Vec<&'static str> {
    let mut parts = Vec::new();
    if plan.entries.is_empty() {
        parts.push(PLAN_EMPTY);
    }
    if plan.entries.len() == WANTED_ENTRIES {
        parts.push(PLAN_ALL);
    } else if plan.entries.first() == Some(&0) && plan.entries.last() == Some(&255) {
        parts.push(PLAN_ACROSS);
    }
    if plan.runs() > 1 {
        parts.push(PLAN_RUNS);
    }
    parts
}
