//! Runs a program on an input and takes what it prints.

use std::fs::{self, File};
use std::io::{self, Read, Seek, Write};
use std::path::Path;
use std::process::{self, Command, Stdio};
use std::thread;
use std::time::Duration;

/// Pieces so large that the input arrives whole.
pub const WHOLE: usize = usize::MAX;

/// Writes the input in pieces. A program that has seen enough may stop
/// reading, so a broken pipe is no fault.
fn feed(mut pipe: impl Write, bytes: &[u8], piece: usize) -> io::Result<()> {
    for (number, part) in bytes.chunks(piece.min(bytes.len().max(1))).enumerate() {
        // Now and then the reader gets time to find the pipe empty.
        if piece != WHOLE && number % 512 == 1 {
            thread::sleep(Duration::from_millis(1));
        }
        match pipe.write_all(part) {
            Err(fault) if fault.kind() == io::ErrorKind::BrokenPipe => return Ok(()),
            other => other?,
        }
    }
    Ok(())
}

/// How a program ended, and what it printed.
pub struct Ended {
    pub status: i32,
    pub output: Vec<u8>,
    /// What it said on standard error.
    pub errors: Vec<u8>,
}

/// What the program prints for this input.
pub fn printed_by(program: &Path, bytes: &[u8], piece: usize) -> Result<Vec<u8>, String> {
    Ok(ended(&mut Command::new(program), bytes, piece)?.output)
}

/// What the program prints for this input if standard input is a file.
pub fn printed_of_a_file(program: &Path, bytes: &[u8]) -> Result<Vec<u8>, String> {
    let fault = |fault: io::Error| format!("{}: {fault}", program.display());
    let file = unnamed_file(bytes).map_err(fault)?;
    let mut command = Command::new(program);
    command.stdin(file).stderr(Stdio::inherit());
    let ended = command.output().map_err(fault)?;
    match ended.status.code() {
        Some(_) => Ok(ended.stdout),
        None => Err(format!("the program died: {}", ended.status)),
    }
}

/// A file of these bytes that is gone when it is closed.
fn unnamed_file(bytes: &[u8]) -> io::Result<File> {
    let path = std::env::temp_dir().join(format!("palette-input-{}", process::id()));
    let mut options = File::options();
    let mut file = options
        .read(true)
        .write(true)
        .create_new(true)
        .open(&path)?;
    fs::remove_file(&path)?;
    file.write_all(bytes)?;
    file.rewind()?;
    Ok(file)
}

/// How the program ends with these words behind its name and this input.
pub fn ended_by(
    program: &Path,
    words: &[&str],
    bytes: &[u8],
    piece: usize,
) -> Result<Ended, String> {
    let mut command = Command::new(program);
    command.args(words).stderr(Stdio::piped());
    ended(&mut command, bytes, piece)
}

/// Each pipe has a thread, so that none of them is waited for while another is
/// full.
fn ended(command: &mut Command, bytes: &[u8], piece: usize) -> Result<Ended, String> {
    let name = command.get_program().to_string_lossy().into_owned();
    let fault = |fault: io::Error| format!("{name}: {fault}");
    let piped = command.stdin(Stdio::piped()).stdout(Stdio::piped());
    let mut child = piped.spawn().map_err(fault)?;
    let (stdin, stdout, stderr) = (child.stdin.take(), child.stdout.take(), child.stderr.take());
    let (fed, output, errors) = thread::scope(|scope| {
        let feeder = scope.spawn(move || match stdin {
            Some(pipe) => feed(pipe, bytes, piece),
            None => Ok(()),
        });
        let listener = scope.spawn(move || all_of(stderr));
        let output = all_of(stdout);
        (feeder.join(), output, listener.join())
    });
    let status = child.wait().map_err(fault)?;
    let (Ok(fed), Ok(errors)) = (fed, errors) else {
        return Err("its input could not be written, or its errors not be read".into());
    };
    fed.map_err(fault)?;
    Ok(Ended {
        status: (status.code()).ok_or_else(|| format!("the program died: {status}"))?,
        output: output.map_err(fault)?,
        errors: errors.map_err(fault)?,
    })
}

/// What comes through a pipe, nothing if there is none.
fn all_of(pipe: Option<impl Read>) -> io::Result<Vec<u8>> {
    let mut bytes = Vec::new();
    if let Some(mut pipe) = pipe {
        pipe.read_to_end(&mut bytes)?;
    }
    Ok(bytes)
}
