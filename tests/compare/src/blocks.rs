//! Blocks: a call of the library as text, with what it must give. They stand in
//! docs/FORMATS.md and, one run to a file, in tests/stored, whose README.md
//! describes the language. Nothing here knows a chip's rules: what is right
//! stands in the text.

mod currents;
mod language;
mod plan;
mod run;

use crate::library::Call;
use kit::{ANSWER_BYTES, CURRENTS_BYTES};
use language::{bytes, once};

/// The end buffer's size where a block doesn't give it.
const END_BUFFER: usize = 4096;

/// A buffer that is lent.
pub struct Buffer {
    pub len: usize,
    /// What the call writes at its start.
    pub written: Vec<u8>,
}

impl Buffer {
    fn holding(written: Vec<u8>, len: usize) -> Result<Buffer, String> {
        match written.len() > len {
            true => Err("a buffer is smaller than what it is said to hold".into()),
            false => Ok(Buffer { len, written }),
        }
    }
}

pub struct Block {
    pub call: Call,
    /// The byte strings that are read, in the call's order.
    pub inputs: Vec<Vec<u8>>,
    /// 0 if the call is accepted.
    pub refusal: u64,
    /// What is returned beside it: the end snapshot's length, or the count of
    /// accesses.
    pub number: usize,
    /// In the call's order.
    pub buffers: Vec<Buffer>,
    /// What the printing program prints for a run's log, if the block says it.
    pub printed: Option<String>,
    /// The text's line of each answer that stands beside its event.
    pub event_lines: Vec<usize>,
}

impl Block {
    /// What the call returns.
    pub fn returned(&self) -> u64 {
        (self.refusal << 16) + self.number as u64
    }

    /// The refusals that it shows, 0 for none: returned, and in each answer.
    pub fn refusals(&self) -> Vec<u64> {
        let mut refusals = vec![self.refusal];
        if let Some(apart) = answers_apart(self.call) {
            let answers = self.buffers[0].written.chunks(apart);
            refusals.extend(answers.map(|answer| u64::from(answer[0])));
        }
        refusals
    }
}

/// How far apart the answers in a call's first buffer start, if it has them.
fn answers_apart(call: Call) -> Option<usize> {
    match call {
        Call::Run => Some(ANSWER_BYTES),
        Call::Currents => Some(CURRENTS_BYTES),
        Call::Plan => None,
    }
}

/// A block as far as it has been read, by the words that its call has.
trait Draft: Default {
    /// The words that take bytes and may go on over several lines.
    fn field(&mut self, word: &str) -> Option<&mut Option<Vec<u8>>>;

    /// A line that starts with another word.
    fn line(&mut self, word: &str, words: &[&str], number: usize) -> Result<(), String>;

    fn block(self) -> Result<Block, String>;
}

/// A document's blocks, each with the line it starts at.
pub fn in_document(text: &str) -> Vec<(usize, Result<Block, String>)> {
    let mut blocks = Vec::new();
    let mut lines = text.lines().zip(1..);
    while let Some((line, start)) = lines.next() {
        let Some(read) = marked(line) else {
            continue;
        };
        let mut inside = Vec::new();
        let closed = lines.by_ref().any(|(line, number)| {
            inside.push((line, number));
            line.starts_with("```")
        });
        inside.pop();
        let block = match closed {
            true => read(&inside),
            false => Err("the block isn't closed".into()),
        };
        blocks.push((start, block));
    }
    blocks
}

/// The lines of a block and their numbers.
type Lines<'a> = [(&'a str, usize)];

type Reader = fn(&Lines) -> Result<Block, String>;

/// What reads the block that this line starts, if it starts one.
fn marked(line: &str) -> Option<Reader> {
    if !line.starts_with("```") {
        return None;
    }
    match line.trim_matches('`').trim() {
        "run" => Some(|lines| drafted::<run::Draft>(lines)?.block()),
        "currents" => Some(|lines| drafted::<currents::Draft>(lines)?.block()),
        "plan" => Some(|lines| drafted::<plan::Draft>(lines)?.block()),
        _ => None,
    }
}

/// The case that a stored file is.
pub fn stored(text: &str) -> Result<Block, String> {
    let title = text.lines().next().and_then(|line| line.strip_prefix('#'));
    if title.is_none_or(|title| title.trim().is_empty()) {
        return Err("line 1 isn't a comment that says what the case shows".into());
    }
    let lines: Vec<_> = text.lines().zip(1..).collect();
    let draft: run::Draft = drafted(&lines)?;
    draft.check_stored()?;
    draft.block()
}

fn drafted<D: Draft>(lines: &Lines) -> Result<D, String> {
    let mut draft = D::default();
    // The word that a line starting with a space goes on with.
    let mut current = "";
    for &(line, number) in lines {
        current = read(&mut draft, current, line, number)
            .map_err(|fault| format!("line {number}: {fault}"))?;
    }
    Ok(draft)
}

/// Reads a line, and gives the word that the next one may go on with.
fn read<'a>(
    draft: &mut impl Draft,
    current: &'a str,
    text: &'a str,
    number: usize,
) -> Result<&'a str, String> {
    let content = text.split('#').next().unwrap_or_default();
    let words: Vec<&str> = content.split_whitespace().collect();
    let Some((&word, after)) = words.split_first() else {
        return Ok(current);
    };
    if content.starts_with([' ', '\t']) {
        let field = draft.field(current).and_then(Option::as_mut);
        let field = field.ok_or("it goes on with a word that has one line only")?;
        field.extend(bytes(&words)?);
        return Ok(current);
    }
    match draft.field(word) {
        Some(field) => once(field, bytes(after)?)?,
        None => draft.line(word, after, number)?,
    }
    Ok(word)
}

/// A refused call has a refusal, any other an end snapshot.
fn is_refused(refused: Option<u64>, end: &Option<Vec<u8>>) -> Result<bool, String> {
    match (refused, end) {
        (Some(_), Some(_)) => Err("it has both an end and a refusal".into()),
        (None, None) => Err("it has neither an end nor a refusal".into()),
        (refused, _) => Ok(refused.is_some()),
    }
}

fn no_word(word: &str) -> String {
    format!("'{word}' is no word of the language")
}

#[cfg(test)]
mod tests {
    use super::*;

    const CASE: &str = "# Two saves and a write.\n\
        snapshot 01 0100  0C03  05\n\
        log      01 03000000\n\
        event    04 00*8 : 00*18 x2  # saves\n\
        event    00 0006 00*6 : 00 01-11\n\
        end      01 0100\n         0C03  06\n\
        buffers  60 4096\n\
        printed  00*18 x2\n\
        printed  AB\n";

    #[test]
    fn a_stored_case_is_read_whole() {
        let block = stored(CASE).unwrap_or_else(|fault| panic!("{fault}"));
        let answer: Vec<u8> = (0..=17).collect();
        let log = [
            &[1, 3, 0, 0, 0, 4, 4, 0][..],
            &[0; 16],
            &[0, 6, 0, 0, 0, 0, 0, 0],
        ];
        let [answers, end] = &block.buffers[..] else {
            panic!("a run has two buffers");
        };
        assert_eq!(block.call, Call::Run);
        assert_eq!(block.inputs, [vec![1, 1, 0, 0x0C, 3, 5], log.concat()]);
        assert_eq!(answers.written, [&[0; 36][..], &answer].concat());
        assert_eq!(block.event_lines, [4, 4, 5]);
        assert_eq!(end.written, [1, 1, 0, 0x0C, 3, 6]);
        assert_eq!((answers.len, end.len), (60, 4096));
        assert_eq!(block.returned(), 6);
        let zeros = "0".repeat(36);
        assert_eq!(block.printed, Some(format!("{zeros}\n{zeros}\nab\n")));
    }

    #[test]
    fn what_is_printed() {
        let as_run = CASE.replace("printed  00*18 x2\nprinted  AB", "printed as run");
        let text = stored(&as_run).ok().and_then(|block| block.printed);
        let answers = format!("{0}{0}000102", format!("{}\n", "0".repeat(36)));
        assert!(text.is_some_and(|text| text.starts_with(&answers) && text.ends_with("0c0306\n")));
        let refused = as_run.replace("as run", "refused 49");
        let text = stored(&refused).ok().and_then(|block| block.printed);
        assert_eq!(text, Some("refused 49\n".into()));
    }

    /// Each edit of the case above is a fault, named in the words beside it.
    const FAULTS: &[(&str, &str, &str)] = &[
        ("# Two saves and a write.", "", "line 1"),
        ("# Two saves and a write.", "#", "line 1"),
        ("snapshot", "snap", "'snap' is no word"),
        ("snapshot 01 0100  0C03  05", "", "no snapshot"),
        ("log      01 03000000", "", "no log"),
        ("log", "snapshot", "stands twice"),
        ("0C03  05", "0C03  5", "'5' is no group"),
        ("0C03  05", "0C03  0G", "'0G' is no group"),
        ("0C03  05", "0C03  05*0", "'05*0' is no group"),
        ("0C03  05", "0C03  05*9999999", "is no group"),
        ("0C03  05", "0C03-01", "is no group"),
        ("0C03  05", "0C03-0B03", "is no group"),
        (
            "event    04 00*8",
            "event    04 00*7",
            "8 bytes where 9 belong",
        ),
        ("00*18 x2  #", "00*17 x2  #", "17 bytes where 18 belong"),
        ("00*18 x2  #", "00*18 x0  #", "'x0' is no count"),
        ("00*18 x2  #", "00*18 : 00*18", "two answers"),
        (": 00*18 x2  # saves", "", "line 4: it has no answer"),
        ("event    00", "         00", "line 5: it goes on"),
        ("end      01", "answers  01", "each answer beside its event"),
        ("end      01 0100\n         0C03  06", "", "neither"),
        ("end      01", "refused 12\nend 01", "both"),
        (
            "end      01 0100\n         0C03  06",
            "refused 12",
            "no answers",
        ),
        (
            "end      01 0100\n         0C03  06",
            "refused 0",
            "no refusal's number",
        ),
        ("buffers  60 4096", "", "buffers' sizes"),
        ("buffers  60 4096", "buffers 60", "no two sizes"),
        ("buffers  60 4096", "buffers 53 4096", "smaller"),
        ("buffers  60 4096", "buffers 60 5", "smaller"),
        ("printed  00*18 x2\nprinted  AB", "", "what is printed"),
        ("printed  AB", "printed as run", "isn't all"),
        ("printed  AB", "printed", "nothing that is printed"),
    ];

    #[test]
    fn faults_are_found() {
        for (old, new, fault) in FAULTS {
            assert!(CASE.contains(old), "{old}");
            match stored(&CASE.replacen(old, new, 1)) {
                Ok(_) => panic!("'{new}' for '{old}' is accepted"),
                Err(found) => assert!(found.contains(fault), "{new}: {found}"),
            }
        }
    }

    #[test]
    fn a_refused_run_has_nothing_to_print() {
        let case = "# No.\nsnapshot\nlog\nrefused 20\nbuffers 0 0\nprinted ";
        assert!(stored(&format!("{case} refused 10")).is_ok());
        assert!(stored(&format!("{case} as run")).is_err());
    }

    #[test]
    fn the_refusals_of_a_run() {
        let refused = CASE.replace(": 00 01-11", ": 01 01-11");
        let shown = |text: &str| stored(text).ok().map(|block| block.refusals());
        assert_eq!(shown(CASE), Some(vec![0, 0, 0, 0]));
        assert_eq!(shown(&refused), Some(vec![0, 0, 0, 1]));
    }

    #[test]
    fn a_document_has_blocks_among_other_text() {
        let block = "```run\nsnapshot 01 0000\nlog 01 00000000\nend 01 0000\n";
        let other = "text\n```\nnothing to run\n```\n";
        let text = format!("{other}{block}```\n{other}{block}unknown\n```\n{block}");
        let blocks = in_document(&text);
        let lines: Vec<_> = blocks.iter().map(|(line, _)| *line).collect();
        assert_eq!(lines, [5, 14, 20]);
        let good: Vec<_> = blocks.iter().map(|(_, block)| block.is_ok()).collect();
        assert_eq!(good, [true, false, false]);
    }

    #[test]
    fn a_document_has_blocks_of_each_call() {
        let text = "```run\nsnapshot\nlog\nrefused 20\n```\n\
            ```currents\nsnapshot\noperand\nrefused 20\n```\n\
            ```plan\nsnapshot\nwanted\nrefused 20\n```\n\
            ```current\nsnapshot\n```\n";
        let blocks = in_document(text).into_iter();
        let calls: Vec<_> = blocks.map(|(_, block)| block.map(|b| b.call)).collect();
        assert_eq!(calls, [Ok(Call::Run), Ok(Call::Currents), Ok(Call::Plan)]);
    }
}
