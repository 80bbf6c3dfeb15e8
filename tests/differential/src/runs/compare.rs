//! Another program's answers held to the Rust's, byte by byte, and the Rust's to what the documents state.

use std::io;
use std::process::Stdio;
use std::sync::Arc;
use std::time::Instant;

use crate::demands::stated::{first_unfit, is_stated};
use crate::protocol::answer::answers;
use crate::runs::program::{first_difference, printable, Difference, Run};
use crate::runs::shrink::smallest;

/// A script that stands alone: the program is started anew for each.
pub struct Batch {
    pub script: Arc<Vec<u8>>,
    pub rust: Vec<u8>,
    /// What the documents state of the answers, a line each; empty where they state nothing of any.
    pub stated: Vec<u8>,
    /// The line with which each frame or run begins, and its name. Without any, each line stands by itself.
    pub parts: Vec<(usize, String)>,
}

/// Makes one batch after the other, and tells what is in all that it made.
pub trait Batches: Iterator<Item = Batch> {
    fn figures(&self) -> String;
}

/// True if there is no difference. What was compared, or the difference, is printed.
pub fn compare(program: &str, seed: u64, mut batches: impl Batches) -> io::Result<bool> {
    let began = Instant::now();
    let mut next = batches.next();
    while let Some(batch) = next {
        if let Some(difference) = first_unfit(&batch.stated, &batch.rust) {
            batch.tell(seed, &difference, ["documents", "Rust"]);
            return Ok(false);
        }
        let room = batch.rust.len();
        let run = Run::start(program, batch.script.clone(), room, Stdio::inherit())?;
        // The next batch is made while the program works on this one.
        next = batches.next();
        if let Some(difference) = first_difference(&batch.script, &batch.rust, &run.end()?) {
            batch.tell(seed, &difference, [batch.expecting(&difference), "program"]);
            tell_smallest(program, &batch.lines_up_to(&difference))?;
            return Ok(false);
        }
    }
    println!(
        "seed {seed}: {} in {:.1} s, no difference",
        batches.figures(),
        began.elapsed().as_secs_f64()
    );
    Ok(true)
}

impl Batch {
    fn expecting(&self, difference: &Difference) -> &'static str {
        if is_stated(&self.stated, difference.line) {
            "documents and Rust"
        } else {
            "Rust"
        }
    }

    /// The last LF ends a line and begins none.
    fn lines_up_to(&self, difference: &Difference) -> Vec<&[u8]> {
        let mut lines: Vec<&[u8]> = self.script.split(|byte| *byte == b'\n').collect();
        lines.truncate((difference.line + 1).min(lines.len() - 1));
        lines
    }

    /// The frame or run, its commands up to the difference, and the two answers to the last, under these names.
    fn tell(&self, seed: u64, difference: &Difference, names: [&str; 2]) {
        let lines = self.lines_up_to(difference);
        let last = lines.len() - 1;
        let begun = self.parts.partition_point(|(line, _)| *line <= last);
        let alone = (last, format!("line {} of a batch", last + 1));
        let (first, name) = self.parts[..begun].last().unwrap_or(&alone);
        println!("DIFFERENCE on {name}, seed {seed}");
        for command in &lines[*first..] {
            println!("  command: {}", printable(command));
        }
        tell_answers(difference, names);
    }
}

fn tell_answers(difference: &Difference, [expected, told]: [&str; 2]) {
    println!("  {expected}: {}", printable(&difference.expected));
    println!("  {told}: {}", printable(&difference.told));
}

/// Prints few commands that still show a difference to the Rust, which these lines showed.
fn tell_smallest(program: &str, lines: &[&[u8]]) -> io::Result<()> {
    println!("Looking for the fewest commands that show it ...");
    let script = lines.iter().map(|line| line.to_vec()).collect();
    let differs = |script: &[Vec<u8>]| matches!(trial(program, script), Ok(Some(_)));
    let Some(small) = smallest(script, differs) else {
        println!("A second run showed no difference: the program does not always answer alike.");
        return Ok(());
    };
    println!("{} | {}", printf_of(&small), program);
    if let Some(difference) = trial(program, &small)? {
        tell_answers(&difference, ["Rust", "program"]);
    }
    Ok(())
}

fn trial(program: &str, lines: &[Vec<u8>]) -> io::Result<Option<Difference>> {
    let script = Arc::new(text_of(lines));
    let answers = answers(&script);
    let run = Run::start(program, script.clone(), answers.len(), Stdio::null())?;
    Ok(first_difference(&script, &answers, &run.end()?))
}

fn text_of(lines: &[Vec<u8>]) -> Vec<u8> {
    lines
        .iter()
        .flat_map(|line| [line, &b"\n"[..]].concat())
        .collect()
}

/// What writes the lines in a shell. In printf's format only letters, digits and spaces stand for themselves.
fn printf_of(lines: &[Vec<u8>]) -> String {
    let mut format = String::new();
    for byte in text_of(lines) {
        match byte {
            b'\n' => format.push_str("\\n"),
            b' ' | b'_' | b'0'..=b'9' | b'a'..=b'z' | b'A'..=b'Z' => format.push(byte.into()),
            _ => format.push_str(&format!("\\{byte:03o}")),
        }
    }
    format!("printf '{format}'")
}
