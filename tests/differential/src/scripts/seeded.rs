//! A script that follows from a seed, in batches, with the Rust's answers and a tally of its commands.

use std::sync::Arc;

use crate::protocol::answer::Session;
use crate::protocol::command::{Command, NAMES};
use crate::runs::compare::{Batch, Batches};
use crate::scripts::generate::Generator;

const BATCH_LINES: usize = 50_000;

pub struct Seeded {
    generator: Generator,
    lines_left: usize,
    tally: Tally,
}

impl Seeded {
    pub fn new(generator: Generator, lines: usize) -> Self {
        Self {
            generator,
            lines_left: lines,
            tally: Tally::new(),
        }
    }
}

impl Iterator for Seeded {
    type Item = Batch;

    fn next(&mut self) -> Option<Batch> {
        let lines = self.lines_left.min(BATCH_LINES);
        self.lines_left -= lines;
        let mut script = Vec::with_capacity(160 * lines);
        let mut rust = Vec::with_capacity(40 * lines);
        let mut session = Session::new();
        for _ in 0..lines {
            let from = script.len();
            self.generator.push_line(&mut script);
            let command = session.answer(&script[from..], &mut rust);
            self.tally.count(command, session.line().stations().len());
            script.push(b'\n');
        }
        (lines > 0).then(|| Batch {
            script: Arc::new(script),
            rust,
            stated: Vec::new(),
            parts: Vec::new(),
        })
    }
}

impl Batches for Seeded {
    fn figures(&self) -> String {
        self.tally.text()
    }
}

/// Lines by the command that they say, and the ticks that they make.
struct Tally {
    counts: [usize; NAMES.len()],
    bad: usize,
    ticks: usize,
    line_ticks: usize,
    /// One for each of the line's stations on each of its ticks.
    line_station_ticks: usize,
}

impl Tally {
    fn new() -> Self {
        Self {
            counts: [0; NAMES.len()],
            bad: 0,
            ticks: 0,
            line_ticks: 0,
            line_station_ticks: 0,
        }
    }

    fn count(&mut self, command: Option<Command>, stations_on_line: usize) {
        let Some(command) = command else {
            self.bad += 1;
            return;
        };
        self.counts[command.number()] += 1;
        if let Command::LineTicks { ticks } = command {
            self.line_ticks += ticks;
            self.line_station_ticks += stations_on_line * ticks;
        } else {
            self.ticks += command.ticks();
        }
    }

    fn text(&self) -> String {
        let commands: usize = self.counts.iter().sum();
        let named = NAMES
            .iter()
            .zip(self.counts)
            .filter(|(_, count)| *count > 0);
        let by_name: Vec<String> = named
            .map(|(name, count)| format!("{name} {count}"))
            .collect();
        format!(
            "{} lines, {commands} of them commands ({}), \
             {} ticks of a station and {} of a line ({} by its stations)",
            commands + self.bad,
            by_name.join(", "),
            self.ticks,
            self.line_ticks,
            self.line_station_ticks
        )
    }
}
