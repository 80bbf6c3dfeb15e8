//! How often a frame with uneven edges is read as another one: the waves of frames with one, two or all runs of ticks off by one, heard by
//! a station of the Rust that is Idle, and what the Rust reads from its captures. A bench reader can be held to the same captures.

use std::io::{self, Write};
use std::time::Instant;

use crate::books::book_runs::Trial;
use crate::books::books::record;
use crate::books::waves::{exact_runs, put_every_run_off, samples_of, Listener};
use crate::random::Random;
use crate::rust::original::rx_decode::{RxDecode, SniffedDecode, SniffedFrame};
use crate::scripts::captures::bits_of;

const BOOK_LINES: usize = 100_000;

const HEADING: &str = "\
| bits | runs off by one tick | waves | right | another frame of the same length | a frame of another length | `LEN` | `FAIL` |
|---|---|---|---|---|---|---|---|";
const SCORES_HEADING: &str = "\
| bits | runs off by one tick | another frame lacks at least | right ones that lack less |
|---|---|---|---|";

pub struct Task {
    pub seed: u64,
    /// The frames of each kind that are taken at random.
    pub frames: usize,
    /// A bench reader that gets all captures too.
    pub reader: Option<String>,
}

/// True if there is no difference. What was read is printed as two tables.
pub fn run(task: &Task) -> io::Result<bool> {
    let began = Instant::now();
    let (mut waves, mut scores) = (0, String::new());
    let mut output = io::stdout();
    writeln!(output, "{HEADING}")?;
    for kind in (1..=3).flat_map(|bytes| [1, 2, EVERY].map(|off| Kind { bytes, off })) {
        let Some(tally) = heard(kind, task)? else {
            return Ok(false);
        };
        writeln!(output, "{}", kind.row(&tally))?;
        scores += &kind.scores_row(&tally);
        waves += tally.waves();
    }
    writeln!(output, "\n{SCORES_HEADING}\n{scores}")?;
    let (seed, waves, seconds) = (task.seed, grouped(waves), began.elapsed().as_secs_f64());
    writeln!(output, "seed {seed}: {waves} waves in {seconds:.1} s")?;
    if task.reader.is_some() {
        writeln!(output, "The program answers all as the Rust does.")?;
    }
    Ok(true)
}

/// What the Rust read of the waves of a kind; none if the bench reader answers otherwise, which is printed.
fn heard(kind: Kind, task: &Task) -> io::Result<Option<Tally>> {
    let mut listener = Listener::new();
    let mut tally = Tally::default();
    let mut waves = kind.waves(task);
    loop {
        let mut book = Vec::new();
        for (data, runs) in waves.by_ref().take(BOOK_LINES) {
            // No run of highs within a wave is long enough to end a capture.
            let event = listener.hear(&runs).expect("the wave was captured");
            tally.count(&event.decode_sniffed_with_phase(), &data);
            book.extend(record(event.pre_idle_ticks, samples_of(&event)));
            book.push(b'\n');
        }
        if book.is_empty() {
            return Ok(Some(tally));
        }
        let Some(reader) = &task.reader else { continue };
        let name = format!("a book of uneven frames of {} bits", 8 * kind.bytes);
        if Trial::whole(name, book).answers(reader)?.is_none() {
            return Ok(None);
        }
    }
}

/// How many runs of a wave are a tick longer or shorter than they should be. EVERY is each of them: a tick shorter, as it should be, or a
/// tick longer, with the same chance.
const OFF: [&str; 3] = ["every, by -1, 0 or +1", "one", "two"];
const EVERY: usize = 0;

/// Frames of so many bytes, with so many runs off.
#[derive(Clone, Copy)]
struct Kind {
    bytes: usize,
    off: usize,
}

impl Kind {
    /// Every frame is taken with all ways to put its runs off; else frames and ways at random.
    fn is_exhausted(self) -> bool {
        matches!((self.bytes, self.off), (1, 1 | 2) | (2, 1))
    }

    /// The data of frames with the runs of their waves.
    fn waves(self, task: &Task) -> Box<dyn Iterator<Item = (Vec<u8>, Vec<usize>)>> {
        let Self { bytes, off } = self;
        if self.is_exhausted() {
            let numbers = 0..1_u32 << (8 * bytes);
            return Box::new(numbers.flat_map(move |number| {
                let data = number.to_be_bytes()[4 - bytes..].to_vec();
                let ways = all_ways(exact_runs(&bits_of(&data)), 0, off);
                ways.into_iter().map(move |runs| (data.clone(), runs))
            }));
        }
        let mut random = Random::new(task.seed);
        Box::new((0..task.frames).map(move |_| {
            let data = random.any().to_be_bytes()[..bytes].to_vec();
            let mut runs = exact_runs(&bits_of(&data));
            put_off(&mut runs, off, &mut random);
            (data, runs)
        }))
    }

    fn name(self) -> String {
        format!("{} | {}", 8 * self.bytes, OFF[self.off])
    }

    fn row(self, tally: &Tally) -> String {
        let all = if self.is_exhausted() { "all " } else { "" };
        let waves = tally.waves();
        let shares = tally.counts.map(|count| share(count, waves)).join(" | ");
        format!("| {} | {all}{} | {shares} |", self.name(), grouped(waves))
    }

    /// Empty where no other frame was read.
    fn scores_row(self, tally: &Tally) -> String {
        let Some(least) = tally.least_wrong_lack else {
            return String::new();
        };
        let lacks = &tally.right_lacks;
        let below = lacks.iter().filter(|lack| **lack < least).count();
        let share = share(below, lacks.len());
        format!("| {} | {least} | {share} |\n", self.name())
    }
}

/// All ways to put so many of the runs from `from` on off by a tick.
fn all_ways(runs: Vec<usize>, from: usize, off: usize) -> Vec<Vec<usize>> {
    if off == 0 {
        return vec![runs];
    }
    let mut ways = Vec::new();
    for at in from..runs.len() {
        for ticks in [runs[at] - 1, runs[at] + 1] {
            let mut changed = runs.clone();
            changed[at] = ticks;
            ways.extend(all_ways(changed, at + 1, off - 1));
        }
    }
    ways
}

fn put_off(runs: &mut [usize], off: usize, random: &mut Random) {
    if off == EVERY {
        return put_every_run_off(runs, random);
    }
    let first = random.below(runs.len());
    let mut places = vec![first];
    if off == 2 {
        places.push((first + 1 + random.below(runs.len() - 1)) % runs.len());
    }
    for at in places {
        runs[at] = random.pick(&[runs[at] - 1, runs[at] + 1]);
    }
}

/// What was read, and by how much the scores of frames lack what the frame's exact wave would have.
#[derive(Default)]
struct Tally {
    /// In the order of the table.
    counts: [usize; 5],
    right_lacks: Vec<u16>,
    least_wrong_lack: Option<u16>,
}

impl Tally {
    fn count(&mut self, read: &SniffedDecode, sent: &[u8]) {
        let data = match read.frame {
            SniffedFrame::Backward8(byte) => vec![byte],
            SniffedFrame::Forward16(word) => word.to_be_bytes().to_vec(),
            SniffedFrame::Forward24(bytes) => bytes.to_vec(),
            SniffedFrame::UnsupportedLength(_) => return self.counts[3] += 1,
            SniffedFrame::DecodeFailed => return self.counts[4] += 1,
        };
        let lack = full_score(&data) - read.score;
        if data == sent {
            self.right_lacks.push(lack);
            return self.counts[0] += 1;
        }
        let least = self.least_wrong_lack.unwrap_or(lack);
        self.least_wrong_lack = Some(lack.min(least));
        self.counts[if data.len() == sent.len() { 1 } else { 2 }] += 1;
    }

    fn waves(&self) -> usize {
        self.counts.iter().sum()
    }
}

/// The score of a frame's exact wave: 25 for the start bit and each 1, and 24 for each 0.
fn full_score(data: &[u8]) -> u16 {
    let weights = bits_of(data).into_iter().map(|bit| 24 + u16::from(bit));
    25 + weights.sum::<u16>()
}

fn share(count: usize, of: usize) -> String {
    let percent = 100.0 * count as f64 / of as f64;
    format!("{} ({percent:.2} %)", grouped(count))
}

/// A number with its digits in threes.
fn grouped(number: usize) -> String {
    match number / 1000 {
        0 => number.to_string(),
        thousands => format!("{},{:03}", grouped(thousands), number % 1000),
    }
}
