//! The command line tool: driven with the comparison's generators, and held to
//! the second model in what it prints and how it ends.

mod check;
mod classes;
mod input;
mod make;
mod modelled;
mod printed;
mod texts;

use crate::comparison::{random_for, RUNS_FOR_ONE};
use crate::program::{ended_by, Ended, WHOLE};
use crate::report::{Failure, Report, Subject};
use check::Seen;
use classes::{Class, CLASSES};
use input::Input;
use printed::Line;
use std::path::{Path, PathBuf};
use std::{env, fs, io, process};

/// How much of what the tool printed is shown.
const SHOWN_BYTES: usize = 300;

/// A folder for the files that the tool reads, removed at the end.
struct Folder(String);

impl Folder {
    /// One that a run left, if it was killed, stays as it is.
    fn new() -> Result<Folder, String> {
        let path = env::temp_dir().join(format!("palette-tool-{}", process::id()));
        let mut name = path.display().to_string();
        loop {
            match fs::create_dir(&name) {
                Ok(()) => return Ok(Folder(name)),
                Err(fault) if fault.kind() == io::ErrorKind::AlreadyExists => name.push('+'),
                Err(fault) => return Err(format!("{name}: {fault}")),
            }
        }
    }
}

impl Drop for Folder {
    fn drop(&mut self) {
        if let Err(fault) = fs::remove_dir_all(&self.0) {
            eprintln!("{}: {fault}", self.0);
        }
    }
}

/// The tool under test.
pub struct Tool {
    program: PathBuf,
    folder: Folder,
}

impl Tool {
    fn new(program: &Path) -> Result<Tool, String> {
        Ok(Tool {
            program: program.into(),
            folder: Folder::new()?,
        })
    }

    /// Writes a file for the tool and gives its path.
    pub fn file(&self, name: &str, bytes: &[u8]) -> Result<String, String> {
        let path = format!("{}/{name}", self.folder.0);
        match fs::write(&path, bytes) {
            Ok(()) => Ok(path),
            Err(fault) => Err(format!("{path}: {fault}")),
        }
    }

    /// What a file of the folder holds.
    pub fn holds(&self, path: &str) -> Result<Vec<u8>, String> {
        fs::read(path).map_err(|fault| format!("{path}: {fault}"))
    }

    /// The tool with these words and this standard input.
    pub fn on(&self, words: &[&str], input: &[u8]) -> Result<Played, String> {
        self.on_pieces(words, input, WHOLE)
    }

    /// The same with an input that arrives in pieces of this size.
    pub fn on_pieces(&self, words: &[&str], input: &[u8], piece: usize) -> Result<Played, String> {
        let ended = ended_by(&self.program, words, input, piece);
        let words = words.join(" ");
        match ended {
            Ok(ended) => Ok(Played { words, ended }),
            Err(fault) => Err(format!("palette {words}: {fault}")),
        }
    }
}

/// The tool's words, how it ended and what it printed.
pub struct Played {
    words: String,
    pub ended: Ended,
}

impl Played {
    /// What is wrong, with what there is to see.
    pub fn fault(&self, what: &str) -> String {
        let shown = |bytes: &[u8]| {
            bytes[..bytes.len().min(SHOWN_BYTES)]
                .escape_ascii()
                .to_string()
        };
        let Ended {
            status,
            output,
            errors,
        } = &self.ended;
        format!(
            "palette {}: {what}; status {status}, {} bytes on standard output '{}', \
             {} on standard error '{}'",
            self.words,
            output.len(),
            shown(output),
            errors.len(),
            shown(errors),
        )
    }

    pub fn needs(&self, good: bool, what: &str) -> Result<(), String> {
        match good {
            true => Ok(()),
            false => Err(self.fault(what)),
        }
    }

    /// What it printed, if it did what it should and said nothing else.
    pub fn done(&self) -> Result<&[u8], String> {
        self.needs(self.ended.status == 0, "should be done")?;
        self.needs(
            self.ended.errors.is_empty(),
            "should say nothing on standard error",
        )?;
        Ok(&self.ended.output)
    }

    /// Status 1, nothing printed, and one line on standard error with these
    /// words: nothing else may have spoken there.
    pub fn not_done(&self, words: &str) -> Result<(), String> {
        self.needs(self.ended.status == 1, "should end with status 1")?;
        self.needs(self.ended.output.is_empty(), "should print nothing")?;
        let said = self.lines(&self.ended.errors)?;
        let one_line = said.len() == 1 && said[0].contains(words);
        let what = format!("should say '{words}' in one line on standard error");
        self.needs(one_line, &what)
    }

    pub fn refused(&self, refusal: u64) -> Result<(), String> {
        self.not_done(&format!("refused ({refusal}): "))
    }

    /// The lines of what it printed. The last one must end, too.
    pub fn lines(&self, printed: &[u8]) -> Result<Vec<String>, String> {
        let ends = printed.last().is_none_or(|&byte| byte == b'\n');
        self.needs(ends, "the last line should end")?;
        let text = String::from_utf8_lossy(printed);
        Ok(text.split_terminator('\n').map(str::to_string).collect())
    }

    pub fn prints(&self, lines: &[String], right: &[Line]) -> Result<(), String> {
        printed::compare(lines, right).map_err(|what| self.fault(&what))
    }
}

/// Plays the classes and keeps count.
pub struct Driver {
    pub report: Report,
    tool: Tool,
    seed: u64,
    /// How many inputs the first class tries.
    inputs: usize,
}

impl Driver {
    pub fn new(program: &Path, seed: u64, inputs: usize) -> Result<Driver, String> {
        Ok(Driver {
            report: Report::default(),
            tool: Tool::new(program)?,
            seed,
            inputs,
        })
    }

    pub fn all(&mut self) {
        for class in CLASSES {
            self.expect(class);
            self.class(class);
        }
    }

    /// What is never reached fails.
    fn expect(&mut self, class: &Class) {
        self.report.expect(class.name);
        for part in class.parts {
            self.report.expect(part);
        }
        if let Some(table) = class.table {
            self.report.expect_outcomes(table);
        }
    }

    fn class(&mut self, class: &Class) {
        let mut random = random_for(self.seed, class.name, 0);
        for number in 0..class.inputs(self.inputs) {
            let input = match (class.make)(&self.tool, &mut random, number) {
                Ok(input) => input,
                Err(fault) => return self.report.impossible(class.name, &fault),
            };
            match (class.check)(&self.tool, &input) {
                Ok(seen) => self.count(class, &seen),
                Err(what) => return self.failed(class, &input, what),
            }
        }
    }

    fn count(&mut self, class: &Class, seen: &Seen) {
        self.report.checked(class.name);
        for part in &seen.parts {
            self.report.checked(part);
        }
        for &refusal in &seen.refusals {
            if let Some(table) = class.table {
                self.report.count(table, (refusal, 0));
            }
        }
    }

    fn failed(&mut self, class: &Class, input: &Input, what: String) {
        let wrong = |input: &Input| (class.check)(&self.tool, input).err();
        let mut tries = RUNS_FOR_ONE;
        let small = input.shrunk(&mut tries, &|input| wrong(input).is_some());
        let failure = Failure {
            what: wrong(&small).unwrap_or(what),
            size: small.size(),
            described: small.described(),
        };
        let subject = Subject::Tool(class.name);
        self.report.failed(class.name, subject, failure);
    }
}
