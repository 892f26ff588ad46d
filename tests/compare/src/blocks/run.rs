//! Run blocks.

use crate::blocks::language::{buffers, bytes, number, of_len, once, refusal, MOST_BYTES};
use crate::blocks::{is_refused, no_word, Block, Buffer, END_BUFFER};
use crate::library::Call;
use kit::{hexadecimal, ANSWER_BYTES, EVENT_BYTES};

struct Event {
    line: usize,
    bytes: Vec<u8>,
    answer: Option<Vec<u8>>,
    times: usize,
}

enum Printed {
    AsRun,
    Refused(u64),
    Line(Vec<u8>, usize),
}

/// A run block as far as it has been read.
#[derive(Default)]
pub struct Draft {
    snapshot: Option<Vec<u8>>,
    log: Option<Vec<u8>>,
    answers: Option<Vec<u8>>,
    end: Option<Vec<u8>>,
    events: Vec<Event>,
    refused: Option<u64>,
    buffers: Option<(usize, usize)>,
    printed: Vec<Printed>,
}

impl crate::blocks::Draft for Draft {
    fn field(&mut self, word: &str) -> Option<&mut Option<Vec<u8>>> {
        match word {
            "snapshot" => Some(&mut self.snapshot),
            "log" => Some(&mut self.log),
            "answers" => Some(&mut self.answers),
            "end" => Some(&mut self.end),
            _ => None,
        }
    }

    fn line(&mut self, word: &str, words: &[&str], number: usize) -> Result<(), String> {
        match word {
            "event" => self.events.push(event(words, number)?),
            "refused" => once(&mut self.refused, refusal(words)?)?,
            "buffers" => once(&mut self.buffers, buffers(words)?)?,
            "printed" => self.printed.push(printed(words)?),
            _ => return Err(no_word(word)),
        }
        Ok(())
    }

    fn block(mut self) -> Result<Block, String> {
        let snapshot = self.snapshot.take().ok_or("it has no snapshot")?;
        let log = self.whole_log()?;
        let (answers, event_lines) = self.whole_answers()?;
        let printed = self.whole_printed(&answers)?;
        let end = self.end.take().unwrap_or_default();
        let (answers_len, end_len) = self.buffers.unwrap_or((answers.len(), END_BUFFER));
        Ok(Block {
            call: Call::Run,
            inputs: vec![snapshot, log],
            refusal: self.refused.unwrap_or(0),
            number: end.len(),
            buffers: vec![
                Buffer::holding(answers, answers_len)?,
                Buffer::holding(end, end_len)?,
            ],
            printed,
            event_lines,
        })
    }
}

impl Draft {
    /// A stored case must say more than a document's block.
    pub fn check_stored(&self) -> Result<(), String> {
        if self.answers.is_some() {
            return Err("a stored case has each answer beside its event".into());
        }
        if self.buffers.is_none() {
            return Err("a stored case gives the buffers' sizes".into());
        }
        if self.printed.is_empty() {
            return Err("a stored case says what is printed".into());
        }
        Ok(())
    }

    /// The log's own bytes, then all kinds, then all operands.
    fn whole_log(&mut self) -> Result<Vec<u8>, String> {
        let mut log = self.log.take().ok_or("it has no log")?;
        for event in &self.events {
            log.extend(vec![event.bytes[0]; event.times]);
        }
        for event in &self.events {
            log.extend(event.bytes[1..].repeat(event.times));
        }
        Ok(log)
    }

    /// The answers, and the line of each that stands beside its event.
    fn whole_answers(&mut self) -> Result<(Vec<u8>, Vec<usize>), String> {
        let mut beside = self.events.iter().filter(|event| event.answer.is_some());
        if is_refused(self.refused, &self.end)? {
            return match self.answers.is_some() || beside.next().is_some() {
                true => Err("a refused run has no answers".into()),
                false => Ok((Vec::new(), Vec::new())),
            };
        }
        if let Some(answers) = self.answers.take() {
            if !self.events.is_empty() {
                return Err("answers stand beside events and by themselves".into());
            }
            return Ok((answers, Vec::new()));
        }
        let (mut answers, mut lines) = (Vec::new(), Vec::new());
        for event in &self.events {
            let answer = event.answer.as_ref();
            let answer = answer.ok_or(format!("line {}: it has no answer", event.line))?;
            answers.extend(answer.repeat(event.times));
            lines.extend(vec![event.line; event.times]);
        }
        Ok((answers, lines))
    }

    fn whole_printed(&self, answers: &[u8]) -> Result<Option<String>, String> {
        match (&self.printed[..], &self.end) {
            ([], _) => Ok(None),
            ([Printed::Refused(number)], _) => Ok(Some(format!("refused {number}\n"))),
            ([Printed::AsRun], Some(end)) => {
                let answers = answers.chunks(ANSWER_BYTES).map(printed_line);
                Ok(Some(answers.chain([printed_line(end)]).collect()))
            }
            ([Printed::AsRun], None) => Err("a refused run gives nothing to print".into()),
            (lines, _) => lines
                .iter()
                .map(|line| match line {
                    Printed::Line(bytes, times) => Ok(printed_line(bytes).repeat(*times)),
                    _ => Err("'as run' or 'refused' isn't all that is printed".into()),
                })
                .collect::<Result<String, String>>()
                .map(Some),
        }
    }
}

fn printed_line(bytes: &[u8]) -> String {
    hexadecimal(bytes) + "\n"
}

/// Takes `x128` from the end of a line.
fn times(words: &mut &[&str]) -> Result<usize, String> {
    let Some((last, before)) = words.split_last() else {
        return Ok(1);
    };
    let Some(times) = last.strip_prefix('x') else {
        return Ok(1);
    };
    *words = before;
    number(times)
        .filter(|times| (1..=MOST_BYTES / ANSWER_BYTES).contains(times))
        .ok_or(format!("'{last}' is no count"))
}

fn event(mut words: &[&str], line: usize) -> Result<Event, String> {
    let times = times(&mut words)?;
    let mut parts = words.split(|&word| word == ":");
    let event = of_len(bytes(parts.next().unwrap_or_default())?, EVENT_BYTES)?;
    let answer = parts
        .next()
        .map(|answer| of_len(bytes(answer)?, ANSWER_BYTES))
        .transpose()?;
    match parts.next() {
        Some(_) => Err("two answers to one event".into()),
        None => Ok(Event {
            line,
            bytes: event,
            answer,
            times,
        }),
    }
}

fn printed(mut words: &[&str]) -> Result<Printed, String> {
    match words {
        ["as", "run"] => Ok(Printed::AsRun),
        ["refused", words @ ..] => refusal(words).map(Printed::Refused),
        [] => Err("nothing that is printed".into()),
        _ => {
            let times = times(&mut words)?;
            Ok(Printed::Line(bytes(words)?, times))
        }
    }
}
