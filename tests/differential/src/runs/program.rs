//! Another program's run on a script, and where its answers part from those that are expected.

use std::io::{self, Read, Write};
use std::process::{Child, ChildStdin, ChildStdout, Command as Process, ExitStatus, Stdio};
use std::sync::Arc;
use std::thread::{self, JoinHandle};

use crate::runs::pipe::wait_until_taken;

const PAST_EXPECTED: usize = 4096;

/// A run of the program on a script. Writing and reading have a thread each, so that no full pipe
/// stops the program, or both sides.
pub struct Run {
    child: Child,
    writer: JoinHandle<()>,
    reader: JoinHandle<io::Result<Vec<u8>>>,
}

/// What the program wrote, and how it ended.
pub struct Said {
    text: Vec<u8>,
    status: ExitStatus,
}

impl Run {
    pub fn start(
        program: &str,
        script: Arc<Vec<u8>>,
        expected: usize,
        errors: Stdio,
    ) -> io::Result<Self> {
        Self::start_cut(program, script, Vec::new(), expected, errors)
    }

    /// The script is cut at these places, in their order: what comes after one is written only when the
    /// program has read what is before it.
    pub fn start_cut(
        program: &str,
        script: Arc<Vec<u8>>,
        cuts: Vec<usize>,
        expected: usize,
        errors: Stdio,
    ) -> io::Result<Self> {
        let mut child = Process::new(program)
            .stdin(Stdio::piped())
            .stdout(Stdio::piped())
            .stderr(errors)
            .spawn()?;
        let input = child.stdin.take();
        let output = child.stdout.take();
        let writer = thread::spawn(move || {
            // A program that stops reading shows itself by what it doesn't answer.
            let _ = input.map(|pipe| write_cut(pipe, &script, &cuts));
        });
        let reader = thread::spawn(move || match output {
            Some(pipe) => read_at_most(pipe, expected + PAST_EXPECTED),
            None => Ok(Vec::new()),
        });
        Ok(Self {
            child,
            writer,
            reader,
        })
    }

    pub fn end(mut self) -> io::Result<Said> {
        let text = joined(self.reader)??;
        joined(self.writer)?;
        let status = self.child.wait()?;
        Ok(Said { text, status })
    }
}

fn write_cut(mut pipe: ChildStdin, script: &[u8], cuts: &[usize]) -> io::Result<()> {
    let mut written = 0;
    for cut in cuts {
        pipe.write_all(&script[written..*cut])?;
        wait_until_taken(&pipe);
        written = *cut;
    }
    pipe.write_all(&script[written..])
}

/// A program may never stop writing; one that writes more than this finds its pipe closed.
fn read_at_most(pipe: ChildStdout, most: usize) -> io::Result<Vec<u8>> {
    let mut text = Vec::with_capacity(most);
    pipe.take(most as u64).read_to_end(&mut text)?;
    Ok(text)
}

fn joined<T>(thread: JoinHandle<T>) -> io::Result<T> {
    thread
        .join()
        .map_err(|_| io::Error::other("a thread at the program's pipes failed"))
}

/// The first line, counted from 0, on which what is told parts from what is expected, and both.
pub struct Difference {
    pub line: usize,
    pub expected: Vec<u8>,
    pub told: Vec<u8>,
}

pub fn first_difference(script: &[u8], answers: &[u8], said: &Said) -> Option<Difference> {
    let other_line = first_other_line(answers, &said.text, &ended(said));
    if other_line.is_some() || said.status.success() {
        return other_line;
    }
    Some(Difference {
        line: script
            .iter()
            .filter(|byte| **byte == b'\n')
            .count()
            .saturating_sub(1),
        expected: b"(every line was answered as expected)".to_vec(),
        told: ended(said).into_bytes(),
    })
}

/// None if the texts are equal. `end` is shown for a line that isn't told.
fn first_other_line(expected: &[u8], told: &[u8], end: &str) -> Option<Difference> {
    if expected == told {
        return None;
    }
    let mut expected = expected.split_inclusive(|byte| *byte == b'\n');
    let mut told = told.split_inclusive(|byte| *byte == b'\n');
    let mut line = 0;
    loop {
        let (wanted, got) = (expected.next(), told.next());
        if wanted != got {
            return Some(Difference {
                line,
                expected: shown(wanted, b"(no more lines)"),
                told: shown(got, end.as_bytes()),
            });
        }
        line += 1;
    }
}

fn shown(answer: Option<&[u8]>, missing: &[u8]) -> Vec<u8> {
    match answer {
        Some([text @ .., b'\n']) => text.to_vec(),
        Some(text) => [text, b" (and no LF)"].concat(),
        None => missing.to_vec(),
    }
}

fn ended(said: &Said) -> String {
    format!("(no more lines; the program ended with {})", said.status)
}

pub fn printable(text: &[u8]) -> String {
    text.escape_ascii().to_string()
}

pub fn hex(bytes: &[u8]) -> String {
    bytes.iter().map(|byte| format!("{byte:02x}")).collect()
}
