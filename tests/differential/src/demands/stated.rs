//! Answers that are stated in part, as text: `*` in the place of a field stands for any, at the end of one for what comes after its
//! beginning, and `...` for any fields that are left. An answer of which nothing is stated has an empty line.

use std::sync::Arc;

use crate::protocol::answer::answers;
use crate::protocol::command::Command;
use crate::runs::compare::Batch;
use crate::runs::program::Difference;

/// Commands with what is stated of their answers, a line each.
#[derive(Default)]
pub struct StatedScript {
    script: Vec<u8>,
    stated: Vec<u8>,
    pub lines: usize,
    pub ticks: usize,
    /// As a batch has them.
    pub parts: Vec<(usize, String)>,
}

impl StatedScript {
    pub fn push(&mut self, command: &Command, stated: &[u8]) {
        self.lines += 1;
        self.ticks += command.ticks();
        command.write(&mut self.script);
        self.script.push(b'\n');
        self.stated.extend_from_slice(stated);
        self.stated.push(b'\n');
    }

    /// With the Rust's answers; none of an empty script.
    pub fn batch(self) -> Option<Batch> {
        (self.lines > 0).then(|| Batch {
            rust: answers(&self.script),
            script: Arc::new(self.script),
            stated: self.stated,
            parts: self.parts,
        })
    }
}

/// The first line that doesn't fit what is stated of it. Both texts have as many lines.
pub fn first_unfit(stated: &[u8], told: &[u8]) -> Option<Difference> {
    let lines = lines(stated).zip(lines(told)).enumerate();
    let mut unfit = lines.filter(|(_, (stated, told))| !fits(stated, told));
    let (line, (expected, told)) = unfit.next()?;
    Some(Difference {
        line,
        expected: expected.to_vec(),
        told: told.to_vec(),
    })
}

/// Whether anything is stated of the answer to this line.
pub fn is_stated(stated: &[u8], line: usize) -> bool {
    lines(stated).nth(line).is_some_and(|text| !text.is_empty())
}

fn lines(text: &[u8]) -> impl Iterator<Item = &[u8]> {
    text.split(|byte| *byte == b'\n')
}

fn fits(stated: &[u8], told: &[u8]) -> bool {
    if stated.is_empty() || stated == told {
        return true;
    }
    let mut fields = stated.split(|byte| *byte == b' ');
    let mut told = told.split(|byte| *byte == b' ');
    loop {
        match (fields.next(), told.next()) {
            (None, None) | (Some(b"..."), _) => return true,
            (Some(field), Some(told)) if field_fits(field, told) => {}
            _ => return false,
        }
    }
}

fn field_fits(stated: &[u8], told: &[u8]) -> bool {
    match stated {
        [beginning @ .., b'*'] => told.starts_with(beginning),
        _ => stated == told,
    }
}
