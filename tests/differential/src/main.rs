//! The Rust side of the differential runs: answers the call protocol and the bench reader's books over the
//! unchanged Rust, makes scripts and books, and compares another program's answers with the Rust's.

/// What the port is compared with: the unchanged files, shims for the rest of their crate, and hosts for them.
mod rust {
    pub mod encoder;
    pub mod line;
    pub mod original;
    pub mod shims;
    pub mod station;
}
/// The call protocol: its commands as lines, and the answers to them.
mod protocol {
    pub mod answer;
    pub mod command;
    pub mod levels;
}
/// Scripts at random.
mod scripts {
    pub mod captures;
    pub mod generate;
    pub mod line_lines;
    pub mod others;
    pub mod pairs;
    pub mod seeded;
    pub mod sequences;
    pub mod spoil;
    pub mod station_lines;
}
/// What document 01 demands of whole frames and of senders on one line, stated without a station.
mod demands {
    pub mod demand;
    pub mod demand_lines;
    pub mod frame_lines;
    pub mod frames;
    pub mod lines;
    pub mod stated;
}
/// The bench reader's books.
mod books {
    pub mod book_runs;
    pub mod books;
    pub mod damage;
    pub mod reader;
    pub mod uneven;
    pub mod waves;
}
/// Running another program and telling how its answers differ.
mod runs {
    pub mod compare;
    pub mod pipe;
    pub mod program;
    pub mod shrink;
}
mod options;
mod random;

// The unchanged files name each other from the crate's root.
use rust::original::{fsm, manchester, phy};
use rust::shims::{halfbits, platform};

use std::io::{self, BufRead, BufWriter, Write};
use std::process::ExitCode;

use books::{book_runs, reader, uneven};
use demands::frames::Frames;
use demands::lines::Runs;
use options::Options;
use protocol::answer::Session;
use runs::compare::{compare, Batches};
use scripts::generate::{Generator, Kind};
use scripts::seeded::Seeded;

/// Each verb stands in a line with its options, which `options_of` finds there.
const USAGE: &str = "usage:
  differential answer
      answers the protocol on standard input
  differential generate --seed S --commands N [--only KIND]
      writes a script
  differential compare --calls PROGRAM --seed S --commands N [--only KIND]
      holds a program to the Rust on a script
  differential frames --calls PROGRAM [--seed S]
      the same on whole frames
  differential lines --calls PROGRAM [--seed S] [--lone N] [--pairs N]
      the same on runs of demand 3, so many with one sender and with two
  differential reader
      answers the book on standard input
  differential book --lines N --kind BOOK --seed S
      writes a book
  differential books --reader PROGRAM --lines N --seed S [--edges FILE] [--cuts K]
      holds a reader to ours on books of N lines in all, and on the edge book at K places
  differential uneven --frames N [--seed S] [--reader PROGRAM]
      counts how frames with uneven edges are read, N of a kind at random
KIND is decoders, readings, encoder, station, station-long, line or a command's name.
BOOK is clean, mixed or damaged.";

const USUAL_LINES_RUNS: usize = 20_000;
const MOST_BOOK_LINES: usize = 10_000;
const USUAL_EDGES: &str = "samples/edges.escaped";
const USUAL_SEED: u64 = 62386;
const DIFFERENT: u8 = 1;
const MISUSED_OR_BROKEN: u8 = 2;

fn main() -> ExitCode {
    let words: Vec<String> = std::env::args().skip(1).collect();
    match run(&words) {
        Ok(true) => ExitCode::SUCCESS,
        Ok(false) => ExitCode::from(DIFFERENT),
        Err(message) => {
            eprintln!("differential: {message}");
            ExitCode::from(MISUSED_OR_BROKEN)
        }
    }
}

fn options_of(verb: &str) -> Option<&'static str> {
    let lines = USAGE.lines();
    let verbs = lines.filter_map(|line| line.strip_prefix("  differential "));
    let mut pairs = verbs.map(|line| line.split_once(' ').unwrap_or((line, "")));
    pairs
        .find(|(name, _)| *name == verb)
        .map(|(_, options)| options)
}

/// False for a difference.
fn run(words: &[String]) -> Result<bool, String> {
    let (verb, rest) = words.split_first().ok_or(USAGE)?;
    let unknown = || format!("there is no command {verb}\n{USAGE}");
    let options = Options::read(rest, options_of(verb).ok_or_else(unknown)?)?;
    match verb.as_str() {
        "answer" => quiet_on_closed_pipe(answer()),
        "generate" => quiet_on_closed_pipe(write_lines(
            generator(&options)?,
            options.positive("--commands")?,
        )),
        "compare" => {
            let script = Seeded::new(generator(&options)?, options.positive("--commands")?);
            compared(&options, options.number("--seed")?, script)
        }
        "frames" => {
            let seed = options.number_or("--seed", USUAL_SEED)?;
            compared(&options, seed, Frames::new(seed))
        }
        "lines" => {
            let seed = options.number_or("--seed", USUAL_SEED)?;
            let lone = options.number_or("--lone", USUAL_LINES_RUNS)?;
            let pairs = options.number_or("--pairs", USUAL_LINES_RUNS)?;
            compared(&options, seed, Runs::new(seed, lone, pairs))
        }
        "reader" => quiet_on_closed_pipe(reader::answer_standard_input()),
        "book" => {
            let kind = options.named("--kind", books::books::Kind::named)?;
            let lines = options.positive("--lines")?;
            let book = books::books::book(options.number("--seed")?, kind, lines);
            quiet_on_closed_pipe(io::stdout().lock().write_all(&book))
        }
        "books" => {
            let task = book_runs::Task {
                program: options.text("--reader")?.to_string(),
                seed: options.number("--seed")?,
                lines: options.positive("--lines")?,
                batch: MOST_BOOK_LINES,
                edges: edge_book(options.find("--edges").unwrap_or(USUAL_EDGES))?,
                cuts: options
                    .find("--cuts")
                    .map(|_| options.number("--cuts"))
                    .transpose()?,
            };
            book_runs::run(&task).map_err(|error| format!("{}: {error}", task.program))
        }
        "uneven" => {
            let task = uneven::Task {
                seed: options.number_or("--seed", USUAL_SEED)?,
                frames: options.positive("--frames")?,
                reader: options.find("--reader").map(str::to_string),
            };
            uneven::run(&task).or_else(|error| quiet_on_closed_pipe(Err(error)))
        }
        _ => Err(unknown()),
    }
}

fn generator(options: &Options) -> Result<Generator, String> {
    let kind = match options.find("--only") {
        None => Kind::Everything,
        Some(_) => options.named("--only", Kind::named)?,
    };
    Ok(Generator::new(options.number("--seed")?, kind))
}

/// The edge book, from the text that it is stored as.
fn edge_book(path: &str) -> Result<Vec<u8>, String> {
    let text = std::fs::read_to_string(path).map_err(|error| format!("{path}: {error}"))?;
    book_runs::unescaped(&text).ok_or(format!("{path}: not as printf's %b takes a book here"))
}

fn compared(options: &Options, seed: u64, batches: impl Batches) -> Result<bool, String> {
    let program = options.text("--calls")?;
    compare(program, seed, batches).map_err(|error| format!("{program}: {error}"))
}

fn answer() -> io::Result<()> {
    let mut input = io::stdin().lock();
    let mut output = BufWriter::new(io::stdout().lock());
    let mut session = Session::new();
    let mut line = Vec::new();
    let mut text = Vec::new();
    while input.read_until(b'\n', &mut line)? > 0 {
        session.answer(line.strip_suffix(b"\n").unwrap_or(&line), &mut text);
        output.write_all(&text)?;
        line.clear();
        text.clear();
    }
    output.flush()
}

fn write_lines(mut generator: Generator, lines: usize) -> io::Result<()> {
    let mut output = BufWriter::new(io::stdout().lock());
    let mut line = Vec::new();
    for _ in 0..lines {
        generator.push_line(&mut line);
        line.push(b'\n');
        output.write_all(&line)?;
        line.clear();
    }
    output.flush()
}

/// A reader that has seen enough is no fault.
fn quiet_on_closed_pipe(done: io::Result<()>) -> Result<bool, String> {
    match done {
        Err(error) if error.kind() != io::ErrorKind::BrokenPipe => Err(error.to_string()),
        _ => Ok(true),
    }
}
