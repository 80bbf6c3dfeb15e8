//! A bench reader's answers held to the independent reader's, byte by byte: books at random, the edge book in pieces, begun and cut at its
//! bytes, and books at the reader's limits.

use std::collections::BTreeMap;
use std::io;
use std::process::Stdio;
use std::sync::Arc;
use std::time::Instant;

use crate::books::books::{book, DAMAGED, MIXED};
use crate::books::reader::{answers, MOST_LINES};
use crate::random::Random;
use crate::runs::program::{first_difference, printable, Difference, Run};

/// The edge book comes in pieces of so many bytes: about a line's greatest length, and about what a program may read at once.
const PIECES: [usize; 10] = [1, 2, 3, 7, 64, 139, 140, 141, 142, 1023];
/// Longer than what any program reads at once.
const LONG_LINE: usize = 1_500_000;
/// So much of a line is printed where there is a difference.
const MOST_SHOWN: usize = 300;

pub struct Task {
    pub program: String,
    pub seed: u64,
    /// Of the books at random, in all.
    pub lines: usize,
    /// The most lines that one of them has.
    pub batch: usize,
    pub edges: Vec<u8>,
    /// At so many places, apart alike, is the edge book begun and cut; at every byte if there is none.
    pub cuts: Option<usize>,
}

/// A book that a program gets. What comes after a cut is written only when the program has read what is before it.
pub struct Trial {
    name: String,
    book: Vec<u8>,
    cuts: Vec<usize>,
}

impl Trial {
    pub fn whole(name: impl Into<String>, book: Vec<u8>) -> Self {
        let (name, cuts) = (name.into(), Vec::new());
        Self { name, book, cuts }
    }

    /// The independent reader's answers, if the program's are the same; else a difference is printed.
    pub fn answers(self, program: &str) -> io::Result<Option<Vec<u8>>> {
        let expected = answers(&self.book);
        let book = Arc::new(self.book);
        let room = expected.len();
        let run = Run::start_cut(program, book.clone(), self.cuts, room, Stdio::inherit())?;
        let difference = first_difference(&book, &expected, &run.end()?);
        if let Some(difference) = &difference {
            report(&self.name, &book, difference);
        }
        Ok(difference.is_none().then_some(expected))
    }
}

/// True if there is no difference. What was compared, or the difference, is printed.
pub fn run(task: &Task) -> io::Result<bool> {
    let began = Instant::now();
    let mut tally = BTreeMap::new();
    for trial in random_trials(task) {
        match trial.answers(&task.program)? {
            Some(answers) => count(&answers, &mut tally),
            None => return Ok(false),
        }
    }
    let length = task.edges.len();
    let cuts = task.cuts.unwrap_or(length).min(length);
    let places: Vec<usize> = (0..cuts).map(|cut| cut * length / cuts).collect();
    for trial in edge_trials(&task.edges, &places).chain(limit_trials()) {
        if trial.answers(&task.program)?.is_none() {
            return Ok(false);
        }
    }
    let (seed, lines, sizes) = (task.seed, task.lines, PIECES.len());
    let seconds = began.elapsed().as_secs_f64();
    println!(
        "seed {seed}: {lines} lines at random {tally:?}, the edge book with {cuts} beginnings and as many cuts of it and in pieces \
         of {sizes} sizes, and three books at the limits in {seconds:.1} s, no difference"
    );
    Ok(true)
}

/// Mixed and damaged books by turns, two at the least.
fn random_trials(task: &Task) -> impl Iterator<Item = Trial> + '_ {
    let mut seeds = Random::new(task.seed);
    let batch = task.batch.min(task.lines.div_ceil(2));
    let begun = (0..task.lines).step_by(batch);
    let kinds = [MIXED, DAMAGED].into_iter().cycle();
    begun.zip(kinds).map(move |(from, kind)| {
        let lines = batch.min(task.lines - from);
        let seed = seeds.any();
        let name = format!("book --lines {lines} --kind {} --seed {seed}", kind.0);
        Trial::whole(name, book(seed, kind, lines))
    })
}

/// The greatest number of lines, with and without more after them, and lines that no memory need hold.
fn limit_trials() -> [Trial; 3] {
    let good = b"C\t16\t11\t0ff0f0f0f0f0f0f00fffff";
    let most = [&b"\n".repeat(MOST_LINES as usize - 1)[..], good].concat();
    let more = [&most[..], b"\n", good, b"\n", good].concat();
    let long = vec![b'f'; LONG_LINE];
    let long_lines = [&long[..], b"\n", good, b"\n", &long].concat();
    [
        Trial::whole("999,999 lines", most),
        Trial::whole("1,000,001 lines", more),
        Trial::whole("long lines", long_lines),
    ]
}

/// Each beginning of the edge book as a book of its own, and so none of it; and all of it in pieces and in two parts.
fn edge_trials<'a>(edges: &'a [u8], places: &'a [usize]) -> impl Iterator<Item = Trial> + 'a {
    let beginnings = places.iter().map(|place| {
        let name = format!("the edge book's first {place} bytes");
        Trial::whole(name, edges[..*place].to_vec())
    });
    let pieces = PIECES.map(|piece| (piece..edges.len()).step_by(piece).collect());
    let cuts = places.iter().map(|place| vec![*place]);
    let all_cuts = pieces.into_iter().chain(cuts);
    let in_parts = all_cuts.map(|cuts: Vec<usize>| Trial {
        name: format!(
            "the edge book, {} cuts from {:?} on",
            cuts.len(),
            cuts.first()
        ),
        book: edges.to_vec(),
        cuts,
    });
    beginnings.chain(in_parts)
}

/// The book that printf's %b makes of a stored text without its last LF. A backslash stands there only before 0 and three octal digits.
pub fn unescaped(text: &str) -> Option<Vec<u8>> {
    let mut parts = text.strip_suffix('\n')?.split('\\');
    let mut book = parts.next()?.as_bytes().to_vec();
    for part in parts {
        let (octal, rest) = part.strip_prefix('0')?.split_at_checked(3)?;
        book.push(u8::from_str_radix(octal, 8).ok()?);
        book.extend(rest.as_bytes());
    }
    Some(book)
}

fn report(name: &str, book: &[u8], difference: &Difference) {
    let mut lines = book.split(|byte| *byte == b'\n');
    let line = lines.nth(difference.line).unwrap_or_default();
    let shown = |text: &[u8]| printable(&text[..text.len().min(MOST_SHOWN)]);
    println!("DIFFERENCE on line {} of {name}", difference.line + 1);
    println!("  line, {} bytes: {}", line.len(), shown(line));
    println!("  independent reader: {}", shown(&difference.expected));
    println!("  program: {}", shown(&difference.told));
}

/// Counts answers by what they tell, and refusals by their number.
fn count(answers: &[u8], tally: &mut BTreeMap<String, usize>) {
    for answer in String::from_utf8_lossy(answers).lines() {
        let fields: Vec<&str> = answer.split('\t').collect();
        match fields[..] {
            ["END", ..] => {}
            [_, "BAD", number] => *tally.entry(format!("BAD {number}")).or_default() += 1,
            _ => *tally.entry(fields[1].to_string()).or_default() += 1,
        }
    }
}
