//! Scripts that follow from a seed alone: real use, its edges, and some bad lines.

use std::collections::VecDeque;

use crate::protocol::command::{hex, Operand, Rank, LONGEST_LINE, NAMES};
use crate::random::Random;
use crate::rust::encoder::{Frame, FRAME_BYTES};
use crate::scripts::captures::{answer_capture, any_capture, low_run_capture};
use crate::scripts::line_lines::LineLines;
use crate::scripts::spoil::spoiled;
use crate::scripts::station_lines::StationLines;

const BAD_LINE_IN: usize = 100;
/// The station's commands that don't hang on its state come this seldom.
const STATELESS_IN: usize = 180;
/// The one station has no part in the line; its commands come between the line's this seldom.
const BESIDE_LINE_IN: usize = 200;
const SNIFFED: u32 = 1 << 8 | 1 << 16 | 1 << 24;

const EVERYTHING: &[Kind] = &[Kind::Decoders, Kind::Readings, Kind::Encoder, Kind::Station];
const DECODERS: &[(usize, &str)] = &[
    (1, "weight"),
    (20, "phase"),
    (7, "search"),
    (4, "steps"),
    (2, KEPT_SEARCH),
    (4, "better"),
    (2, "lengths"),
];
const READINGS: &[(usize, &str)] = &[
    (8, "sniff"),
    (3, "sniffdec"),
    (5, "backward"),
    (2, "lowrun"),
    (2, "held"),
];
const ENCODER: &[(usize, &str)] = &[(1, "encode"), (2, "encodebuf")];
const STATELESS: &[(usize, &str)] = &[(1, "settle"), (1, "gate")];
/// Stands for the commands of the kept search, which make sense together alone.
const KEPT_SEARCH: &str = "bsnew";

macro_rules! operands {
    ($($operand:expr),*) => { vec![$($operand.text()),*] };
}

/// What a script holds: a mix of commands and some bad lines, or one kind of command alone.
#[derive(Clone, Copy, PartialEq, Eq)]
pub enum Kind {
    Everything,
    Decoders,
    Readings,
    Encoder,
    Station,
    /// The station's commands, with most of the ticks in long lines.
    StationLong,
    Line,
    Only(&'static str),
}

impl Kind {
    pub fn named(name: &str) -> Option<Self> {
        let mut stateless = [DECODERS, READINGS, ENCODER, STATELESS]
            .into_iter()
            .flatten();
        Some(match name {
            "decoders" => Kind::Decoders,
            "readings" => Kind::Readings,
            "encoder" => Kind::Encoder,
            "station" => Kind::Station,
            "station-long" => Kind::StationLong,
            "bsstep" | "bsrun" => Kind::Only(KEPT_SEARCH),
            _ if !NAMES.contains(&name) => return None,
            _ => match stateless.find(|(_, known)| *known == name) {
                Some((_, known)) => Kind::Only(known),
                // What changes or shows a line's state makes sense together alone, and so does what is for
                // the station's.
                None if name.starts_with('l') => Kind::Line,
                None => Kind::Station,
            },
        })
    }
}

pub struct Generator {
    random: Random,
    kind: Kind,
    /// The rest of a sequence on the kept search.
    kept_search: VecDeque<String>,
    station: StationLines,
    line: LineLines,
    /// A good line, after a bad one that was made of it: so no sequence loses one of its commands.
    held_back: Option<Vec<u8>>,
}

impl Generator {
    pub fn new(seed: u64, kind: Kind) -> Self {
        Self {
            random: Random::new(seed),
            kind,
            kept_search: VecDeque::new(),
            station: StationLines::new(kind == Kind::StationLong),
            line: LineLines::new(),
            held_back: None,
        }
    }

    /// Adds the next line, without an LF.
    pub fn push_line(&mut self, out: &mut Vec<u8>) {
        let line = self.held_back.take();
        let line = line.unwrap_or_else(|| self.next());
        let has_bad_lines = !matches!(self.kind, Kind::Only(_));
        if has_bad_lines && self.random.one_in(BAD_LINE_IN) {
            out.extend_from_slice(&spoiled(&line, &mut self.random));
            self.held_back = Some(line);
        } else {
            out.extend_from_slice(&line);
        }
    }

    fn next(&mut self) -> Vec<u8> {
        let random = &mut self.random;
        let kind = match self.kind {
            Kind::Everything => random.pick(EVERYTHING),
            kind => kind,
        };
        let names = match kind {
            Kind::Decoders if !self.kept_search.is_empty() => &[(1, KEPT_SEARCH)],
            Kind::Everything | Kind::Decoders => DECODERS,
            Kind::Readings => READINGS,
            Kind::Encoder => ENCODER,
            Kind::Station | Kind::StationLong if random.one_in(STATELESS_IN) => STATELESS,
            Kind::Station | Kind::StationLong => return self.station.next(random).line(),
            Kind::Line if random.one_in(BESIDE_LINE_IN) => return self.station.next(random).line(),
            Kind::Line => return self.line.next(random).line(),
            Kind::Only(name) => &[(1, name)],
        };
        let name = random.weighted(names);
        self.any_named(name).into_bytes()
    }

    fn any_named(&mut self, name: &str) -> String {
        let random = &mut self.random;
        let operands: Vec<String> = match name {
            "weight" => operands![[random.byte()]],
            "phase" => operands![any_maximum(random), any_phase(random), any_capture(random)],
            "search" => operands![any_mask(random), any_capture(random)],
            "steps" => operands![
                any_mask(random),
                any_step_count(random),
                any_capture(random)
            ],
            "better" => any_two_decodes(random),
            "lengths" => any_lengths(random),
            "sniff" => operands![any_capture(random)],
            "sniffdec" => vec![any_found(random)],
            "backward" => operands![answer_capture(random)],
            "lowrun" | "held" => operands![low_run_capture(random)],
            "encode" => operands![any_unencoded(random)],
            "encodebuf" => any_encoding_into(random),
            "settle" => operands![any_wide(random), any_narrow(random)],
            "gate" => operands![any_narrow(random)],
            _ => return self.next_of_kept_search(),
        };
        format!("{name} {}", operands.join(" "))
    }

    fn next_of_kept_search(&mut self) -> String {
        loop {
            match self.kept_search.pop_front() {
                Some(line) => return line,
                None => self.queue_kept_search(),
            }
        }
    }

    /// Steps, past Done and past the fifth too, with runs between. Now and then they go on where an earlier
    /// sequence left the search.
    fn queue_kept_search(&mut self) {
        let random = &mut self.random;
        if !random.one_in(10) {
            let mask = any_mask(random).text();
            self.kept_search.push_back(format!("bsnew {mask}"));
        }
        let same = random.one_in(2).then(|| any_capture(random));
        for _ in 0..random.between(0, 11) {
            let capture = same.clone().unwrap_or_else(|| any_capture(random)).text();
            let word = random.weighted(&[(3, "bsstep"), (1, "bsrun")]);
            self.kept_search.push_back(format!("{word} {capture}"));
        }
    }
}

fn any_phase(random: &mut Random) -> i8 {
    match random.below(20) {
        0 => random.pick(&[-128, 127]),
        1 => random.between(-20, 20),
        2 => random.byte() as i8,
        _ => random.between(-2, 2),
    }
}

fn any_maximum(random: &mut Random) -> u8 {
    match random.below(10) {
        0 => random.between(0, 2),
        1 => random.between(63, 66),
        2 => random.pick(&[71, 72, 73, 254, 255]),
        3 => random.byte(),
        _ => 32,
    }
}

fn any_mask(random: &mut Random) -> u32 {
    match random.below(12) {
        0..=3 => SNIFFED,
        4 | 5 => 1 << 8,
        6 => 0,
        7 => random.pick(&[1, 2, 4, 7, 1 << 31, u32::MAX]),
        8 => SNIFFED | random.pick(&[1, 2, 4, 1 << 31]),
        9 => 1 << random.below(32),
        10 => random.any() as u32 & random.any() as u32,
        _ => random.any() as u32,
    }
}

/// Now and then there are more of them than a line may ask for.
fn any_step_count(random: &mut Random) -> u8 {
    let most = random.weighted(&[(37, 8), (2, 20), (1, u8::MAX)]);
    random.between(0, most)
}

fn any_rank(random: &mut Random) -> Rank {
    Rank {
        len: any_length(random),
        phase: any_phase(random),
        score: any_score(random),
    }
}

/// A mask, and two decodes that are mostly equal in something.
fn any_two_decodes(random: &mut Random) -> Vec<String> {
    let candidate = any_rank(random);
    let mut current = any_rank(random);
    if random.one_in(2) {
        current.len = candidate.len;
    }
    current.phase = match random.below(6) {
        0 | 1 => candidate.phase.wrapping_neg(),
        2 => candidate.phase.wrapping_add(1),
        3 => 0,
        4 => current.phase,
        _ => candidate.phase,
    };
    current.score = match random.below(6) {
        0 => candidate.score.saturating_add(1),
        1 => candidate.score.saturating_sub(1),
        // Equal in the low byte alone.
        2 => candidate.score ^ 0x0100,
        3 => current.score,
        _ => candidate.score,
    };
    operands![any_mask(random), candidate, current]
}

/// Mostly a frame's length, or about one. A set of lengths has room for 0 to 31.
fn any_length(random: &mut Random) -> u8 {
    match random.below(8) {
        0..=4 => random.pick(&[8, 16, 24]),
        5 => random.pick(&[7, 9, 15, 17, 23, 25, 0, 1, 2, 3, 31, 32, 33, 63, 64, 255]),
        6 => random.between(0, 40),
        _ => random.byte(),
    }
}

fn any_score(random: &mut Random) -> u16 {
    match random.below(2) {
        0 => any_wide(random),
        _ => random.between(0, 900),
    }
}

fn any_wide(random: &mut Random) -> u16 {
    match random.below(3) {
        0 => random.pick(&[0, 1, 255, 256, 65280, 65281, 65534, 65535]),
        1 => random.between(65_000, 65_535),
        _ => random.any() as u16,
    }
}

fn any_narrow(random: &mut Random) -> u8 {
    match random.below(3) {
        0 => random.pick(&[0, 1, 3, 254, 255]),
        1 => random.between(0, 8),
        _ => random.byte(),
    }
}

fn any_lengths(random: &mut Random) -> Vec<String> {
    let most = random.weighted(&[(6, 6), (1, 200), (1, 1018)]);
    let listed = 0..random.between(0, most);
    let bytes: Vec<u8> = listed.map(|_| any_length(random)).collect();
    let n = match random.below(2) {
        0 if !bytes.is_empty() => random.pick(&bytes),
        _ => any_length(random),
    };
    operands![bytes, n]
}

/// What a search may have found, and what none finds.
fn any_found(random: &mut Random) -> String {
    match random.below(12) {
        0 => "none".to_string(),
        _ => format!("{} {}", any_rank(random).text(), hex(&random.bytes(8))),
    }
}

fn any_unencoded(random: &mut Random) -> Frame {
    Frame {
        bits: any_length(random),
        bytes: [(); FRAME_BYTES].map(|()| any_narrow(random)),
    }
}

/// The buffer has mostly about the seven bytes that are needed, and at the most what a line has room for.
fn any_encoding_into(random: &mut Random) -> Vec<String> {
    let frame = any_unencoded(random).text();
    let room = (LONGEST_LINE - "encodebuf  ".len() - frame.len()) / 2;
    let [least, most] = random.weighted(&[
        (1, [room - 2, room]),
        (1, [0, room]),
        (2, [0, 300]),
        (16, [0, 20]),
        (20, [5, 9]),
    ]);
    let size = random.between(least, most);
    vec![frame, random.bytes(size).text()]
}
