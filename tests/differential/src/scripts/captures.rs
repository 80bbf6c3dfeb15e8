//! Captures as stations make them, and as they never should: waves of frames, exact and bent, and bytes
//! that are no wave.

use std::iter::once;
use std::ops::Range;

use crate::protocol::command::{Capture, SAMPLES};
use crate::protocol::levels::{Levels, HIGH, LOW};
use crate::random::Random;
use crate::rust::encoder::HALF_BIT_TICKS;

pub const TICKS: usize = 8 * SAMPLES;
/// A station ends a capture on this many high ticks running.
pub const IDLE_TICKS: usize = 16;

const USUAL_BYTES: [u8; 16] = [
    0x0F, 0xF0, 0x00, 0xFF, 0x1E, 0xE1, 0x3C, 0xC3, 0x7F, 0x80, 0xFE, 0x01, 0x87, 0x78, 0x1F, 0xF8,
];

/// The ticks of a bit's two halves.
type BitTicks = &'static [[u8; 2]];
const EXACT: BitTicks = &[[HALF_BIT_TICKS as u8; 2]];
const FAST: BitTicks = &[[3, 4], [4, 3]];
const SLOW: BitTicks = &[[4, 5], [5, 4]];
const UNSTEADY: BitTicks = &[[3, 4], [4, 3], [4, 4], [4, 5], [5, 4]];

pub fn any_capture(random: &mut Random) -> Capture {
    let make: fn(&mut Random) -> Capture = random.weighted(&[
        (14, frame_wave),
        (1, any_runs),
        (1, two_frames),
        (1, overfull),
        (3, any_samples),
    ]);
    recounted(make(random), random)
}

/// What may come where an answer is awaited: mostly 8 bits, and lengths that are taken for them or must not
/// be.
pub fn answer_capture(random: &mut Random) -> Capture {
    let length = match random.below(10) {
        0..=5 => 8,
        6 => random.pick(&[7, 9, 9]),
        7 => 16,
        8 => return recounted(eight_bits_in_a_longer_frame(random), random),
        _ => return any_capture(random),
    };
    let bits = bits_of_length(length, random);
    recounted(bent_wave(&bits, random), random)
}

/// Captures whose longest low run is about a held line's, or about all of the capture, from any tick of a
/// byte on.
pub fn low_run_capture(random: &mut Random) -> Capture {
    let make: fn(&mut Random) -> Capture = random.weighted(&[
        (3, low_runs_alike),
        (2, low_run_at_the_end),
        (2, low_almost_throughout),
        (1, any_capture),
    ]);
    make(random)
}

pub fn bits_of(bytes: &[u8]) -> Vec<bool> {
    let bytes = bytes.iter();
    bytes
        .flat_map(|byte| (0..8).rev().map(move |bit| byte >> bit & 1 != 0))
        .collect()
}

/// The runs of a frame's exact wave in ticks, low first and then by turns.
pub fn exact_wave(bits: &[bool]) -> Vec<u8> {
    let mut runs = Vec::new();
    push_frame(&mut runs, bits, EXACT, &mut Random::new(0));
    runs
}

/// The runs of a frame's wave, exact or bent.
pub fn any_wave(random: &mut Random) -> Vec<u8> {
    bent_runs(&frame_bits(random), random)
}

/// Adds the start bit, which is a 1, and the frame's.
fn push_frame(runs: &mut Vec<u8>, bits: &[bool], ticks: BitTicks, random: &mut Random) {
    for bit in once(&true).chain(bits) {
        let [first, second] = random.pick(ticks);
        push_run(runs, !bit, first);
        push_run(runs, *bit, second);
    }
}

/// The last run goes on if it has this level.
fn push_run(runs: &mut Vec<u8>, high: bool, ticks: u8) {
    let last_is_high = runs.len() % 2 == 0;
    match runs.last_mut() {
        Some(last) if last_is_high == high => *last = last.saturating_add(ticks),
        _ => runs.push(ticks),
    }
}

fn frame_bits(random: &mut Random) -> Vec<bool> {
    let length = match random.below(10) {
        0..=2 => 8,
        3..=5 => 16,
        6 | 7 => 24,
        8 => random.below(36),
        _ => random.below(81),
    };
    bits_of_length(length, random)
}

fn bits_of_length(length: usize, random: &mut Random) -> Vec<bool> {
    let mut bits = bits_of(&match random.below(6) {
        0 => vec![0x00; length],
        1 => vec![0xFF; length],
        2 => vec![random.pick(&[0x55, 0xAA]); length],
        _ => random.bytes(length),
    });
    bits.truncate(length);
    bits
}

fn bent_runs(bits: &[bool], random: &mut Random) -> Vec<u8> {
    let ticks = random.weighted(&[(5, EXACT), (1, FAST), (1, SLOW), (1, UNSTEADY)]);
    let mut runs = Vec::new();
    push_frame(&mut runs, bits, ticks, random);
    let one = random.below(runs.len());
    match random.below(6) {
        0 => runs[one] = runs[one] - 1 + 2 * random.between(0, 1),
        1 => jitter(&mut runs, random),
        // Eight equal levels running stop a phase; about that many stop it from the late peek alone, or not.
        2 => runs[one] = random.between(6, 12),
        _ => {}
    }
    runs
}

/// Half of the runs get a tick less or more.
fn jitter(runs: &mut [u8], random: &mut Random) {
    for run in runs {
        *run = *run - 1 + random.pick(&[0, 1, 1, 2]);
    }
}

fn bent_wave(bits: &[bool], random: &mut Random) -> Capture {
    let mut runs = bent_runs(bits, random);
    let mut high_ticks_before = 0;
    // Now and then the capture begins earlier than the wave, or later.
    match random.below(15) {
        0 => high_ticks_before = random.between(1, 9),
        1 => runs[0] += random.between(1, 4),
        2 => runs[0] -= random.between(1, 2),
        _ => {}
    }
    let mut capture = captured(high_ticks_before, &runs);
    if random.one_in(6) {
        let reach = random.pick(&[64, 128, 256, TICKS]);
        for _ in 0..random.between(1, 6) {
            let tick = random.below(reach);
            capture.samples[tick / 8] ^= 0x80 >> (tick % 8);
        }
    }
    capture
}

fn frame_wave(random: &mut Random) -> Capture {
    bent_wave(&frame_bits(random), random)
}

/// A forward frame at phase 0 of which another phase often reads 8 bits, since the ninth is a tick too long.
fn eight_bits_in_a_longer_frame(random: &mut Random) -> Capture {
    let mut bits = bits_of_length(random.pick(&[16, 24]), random);
    bits[8] = true;
    bits[9] = false;
    let mut runs = exact_wave(&bits);
    let runs_to_ninth_bit = exact_wave(&bits[..9]).len();
    runs[runs_to_ninth_bit - random.between(1, 2)] += 1;
    captured(0, &runs)
}

fn two_frames(random: &mut Random) -> Capture {
    let mut runs = any_wave(random);
    push_run(&mut runs, HIGH, random.between(1, 20));
    push_frame(&mut runs, &frame_bits(random), EXACT, random);
    captured(0, &runs)
}

/// More bits than the data has room for, which only a fast wave gets into a capture.
fn overfull(random: &mut Random) -> Capture {
    let mut runs = Vec::new();
    let ticks = random.pick(&[FAST, UNSTEADY]);
    push_frame(&mut runs, &bits_of(&random.bytes(10)), ticks, random);
    captured(0, &runs)
}

fn any_runs(random: &mut Random) -> Capture {
    let longest = random.pick(&[4, 6, 9, 12, 20]);
    let runs: Vec<u8> = (0..random.between(1, 128))
        .map(|_| random.between(1, longest))
        .collect();
    captured(random.pick(&[0, 0, 0, 3, 8]), &runs)
}

fn any_samples(random: &mut Random) -> Capture {
    let throughout = random.pick(&USUAL_BYTES);
    let way = random.below(3);
    Capture {
        count: random.between(0, SAMPLES as u16),
        samples: [(); SAMPLES].map(|()| match way {
            0 => throughout,
            1 => random.pick(&USUAL_BYTES),
            _ => random.byte(),
        }),
    }
}

/// Low runs of the same number of ticks, or nearly, with little between them.
fn low_runs_alike(random: &mut Random) -> Capture {
    let usual = match random.below(4) {
        0 => random.between(2, 80),
        _ => random.between(22, 26),
    };
    let mut runs = Vec::new();
    for _ in 0..random.between(1, 8) {
        runs.push(random.between(usual - 1, usual + 1));
        runs.push(random.between(1, 12));
    }
    recounted(captured(random.below(24), &runs), random)
}

/// A low run that goes on to the last tick that counts, and often past it.
fn low_run_at_the_end(random: &mut Random) -> Capture {
    let count = random.between(1, SAMPLES);
    let end = 8 * count;
    let from = end.saturating_sub(random.between(20, 28));
    let early = 0..random.below(from.min(26) + 1);
    let past = random.pick(&[0, 0, 1, 2, 8, 25]);
    low_capture(count as u16, &[early, from..end + past])
}

fn low_almost_throughout(random: &mut Random) -> Capture {
    let least = random.pick(&[488, TICKS]);
    let ticks = random.between(least, TICKS);
    let from = random.below(TICKS - ticks + 1);
    low_capture(any_count(random, SAMPLES as u16), &[from..from + ticks])
}

/// What an idle station makes of a wave: whole bytes up to the sixteenth high tick after it, and one more.
fn captured(high_ticks_before: usize, runs: &[u8]) -> Capture {
    let mut end = high_ticks_before;
    let stretches = runs.iter().map(|run| {
        let start = end;
        end += usize::from(*run);
        start..end
    });
    let lows: Vec<Range<usize>> = stretches.step_by(2).collect();
    let low_ticks_end = lows.last().map_or(0, |low| TICKS.min(low.end));
    let count = SAMPLES.min((low_ticks_end + IDLE_TICKS) / 8 + 1);
    low_capture(count as u16, &lows)
}

/// A capture that is low in these stretches of ticks, as far as it has room for them, and high elsewhere.
fn low_capture(count: u16, lows: &[Range<usize>]) -> Capture {
    let mut ticks = [HIGH; TICKS];
    for low in lows {
        ticks[TICKS.min(low.start)..TICKS.min(low.end)].fill(LOW);
    }
    let levels: Levels = ticks.into_iter().collect();
    let mut samples = [0; SAMPLES];
    samples.copy_from_slice(levels.bytes());
    Capture { count, samples }
}

/// Now and then with another count than a station gives, and with something past it.
fn recounted(mut capture: Capture, random: &mut Random) -> Capture {
    if random.one_in(3) {
        capture.count = any_count(random, capture.count);
    }
    // What is past the count is no part of the capture: idle, new, left from an earlier one, or the wave's.
    let past = &mut capture.samples[SAMPLES.min(usize::from(capture.count))..];
    match random.below(4) {
        0 => past.fill(0xFF),
        1 => past.fill(0x00),
        2 => past.fill_with(|| random.byte()),
        _ => {}
    }
    capture
}

fn any_count(random: &mut Random, natural: u16) -> u16 {
    match random.below(8) {
        0 | 1 => random.between(0, SAMPLES as u16),
        2 | 3 => random.between(0, natural),
        4 => random.between(0, 3),
        5 => random.between(62, 66),
        6 => random.pick(&[255, 256, 320, 32767, 32768, 65535]),
        _ => random.any() as u16,
    }
}
