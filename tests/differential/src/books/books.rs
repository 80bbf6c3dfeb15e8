//! Books of captures for the bench reader, made from a seed: clean ones, ones as a bench has them, and ones that are mostly damaged.

use crate::books::damage::damage;
use crate::books::waves::{exact_runs, put_every_run_off, samples_of, Listener};
use crate::fsm::DALI_RX_SAMPLE_BUF_LEN;
use crate::random::Random;
use crate::scripts::captures::any_capture;

/// Its name, and how many lines of ten are damaged.
#[derive(Clone, Copy, PartialEq, Eq)]
pub struct Kind(pub &'static str, usize);

/// Frames of 8, 16 and 24 bits, exactly as they are sent.
const CLEAN: Kind = Kind("clean", 0);
/// All that a bench hears, and damage.
pub const MIXED: Kind = Kind("mixed", 2);
pub const DAMAGED: Kind = Kind("damaged", 9);
/// The bits of a frame.
const FRAMES: [usize; 4] = [8, 16, 16, 24];

impl Kind {
    pub fn named(name: &str) -> Option<Self> {
        let mut kinds = [CLEAN, MIXED, DAMAGED].into_iter();
        kinds.find(|kind| kind.0 == name)
    }
}

/// The last line of a book that isn't clean may lack its LF if it has a byte; without one it would be no line.
pub fn book(seed: u64, kind: Kind, lines: usize) -> Vec<u8> {
    let mut random = Random::new(seed);
    let mut listener = Listener::new();
    let mut text = Vec::with_capacity(80 * lines);
    let mut may_lack_lf = false;
    for _ in 0..lines {
        let line = any_line(kind, &mut random, &mut listener);
        may_lack_lf = kind != CLEAN && !line.is_empty();
        text.extend(line);
        text.push(b'\n');
    }
    if may_lack_lf && random.one_in(2) {
        text.pop();
    }
    text
}

/// A good line.
pub fn record(silence: u8, samples: &[u8]) -> Vec<u8> {
    let mut line = format!("C\t{silence}\t{}\t", samples.len()).into_bytes();
    for digit in samples.iter().flat_map(|sample| [sample >> 4, sample & 15]) {
        line.push(b"0123456789abcdef"[usize::from(digit)]);
    }
    line
}

fn any_line(kind: Kind, random: &mut Random, listener: &mut Listener) -> Vec<u8> {
    let is_damaged = random.below(10) < kind.1;
    let samples = match kind {
        CLEAN => heard(&exact_runs(&any_bits(&FRAMES, random)), listener),
        _ if random.one_in(5) => {
            let capture = any_capture(random);
            let count = DALI_RX_SAMPLE_BUF_LEN.min(usize::from(capture.count));
            capture.samples[..count].to_vec()
        }
        _ => heard(&any_runs(random), listener),
    };
    let mut line = record(any_silence(random), &samples);
    if is_damaged {
        damage(&mut line, random);
    }
    line
}

fn heard(runs: &[usize], listener: &mut Listener) -> Vec<u8> {
    let event = listener.hear(runs);
    event.map_or(Vec::new(), |event| samples_of(&event).to_vec())
}

/// A frame that is exact or uneven, or one of few bits; noise; a line that is held; or two senders that clash.
fn any_runs(random: &mut Random) -> Vec<usize> {
    let mut runs = exact_runs(&any_bits(&FRAMES, random));
    match random.below(12) {
        0..=4 => {}
        5..=7 => put_every_run_off(&mut runs, random),
        8 => runs = exact_runs(&any_bits(&[0, 1, 2, 3, 4], random)),
        9 => runs = (0..random.below(60)).map(|_| 1 + random.below(7)).collect(),
        10 => runs = vec![2 + random.below(610)],
        _ => {
            // The half-bits that both have, then low until the winner's break is over.
            runs.truncate(2 * random.below(1 + runs.len() / 2));
            runs.push(random.pick(&[19, 23]));
        }
    }
    runs
}

fn any_bits(lengths: &[usize], random: &mut Random) -> Vec<bool> {
    let source = random.any();
    let length = random.pick(lengths);
    (0..length).map(|bit| source >> bit & 1 != 0).collect()
}

/// A station's silence stops at 255.
fn any_silence(random: &mut Random) -> u8 {
    let any = random.byte();
    random.pick(&[
        0, 1, 9, 10, 99, 100, 200, 254, 255, 255, 255, any, any, any, any, any,
    ])
}
