//! Times the proved decoder beside the Rust's on the same captures, in one run, and prints ratios.
//!
//! Both sides are called one capture at a time through functions that the compiler can't look into; their answers are compared.

use std::hint::black_box;

mod common;

#[path = "../tests/differential/src/rust/original.rs"]
mod original;
#[path = "../tests/differential/src/rust/shims.rs"]
mod shims;

// The unchanged files name each other, and the shims, from the crate's root.
use original::{fsm, manchester, phy, rx_decode};
use shims::{halfbits, platform};

use common::{ratios, Random, ROUNDS};
use fsm::RxCompletedEvent;
use manchester::{BestPhaseSearch, PhaseDecode, SampleWindow, SNIFFED_BIT_LENGTHS};
use rx_decode::{RxDecode, SniffedDecode, SniffedFrame};

const SAMPLES: usize = fsm::DALI_RX_SAMPLE_BUF_LEN;
const MAX_OUT_BITS: u8 = manchester::MANCHESTER_RX_MAX_DECODED_BITS;
const PHASES: [i8; 5] = [-2, -1, 0, 1, 2];

const CAPTURES: usize = 3_000;
const TURNS: usize = 12;

// The proved library `timed_decoder`. A reference to an array passes as a pointer.
extern "C" {
    fn timed_phase(
        samples: &[u8; SAMPLES],
        sample_count: u16,
        max_out_bits: u8,
        phase_ticks: i8,
    ) -> u64;
    fn timed_search(samples: &[u8; SAMPLES], sample_count: u16) -> u64;
    fn timed_sniffed(samples: &[u8; SAMPLES], sample_count: u16) -> u64;
}

/// The Rust is lent the event as it stands; `timed_decoder` makes one of samples and count at each call.
struct Capture {
    samples: [u8; SAMPLES],
    count: u16,
    event: RxCompletedEvent,
}

/// The same number as `timed_decoder` makes of a decode.
fn digest(decode: &PhaseDecode) -> u64 {
    let data = u64::from_be_bytes(decode.data);
    (data >> 32 << 32) + (u64::from(decode.bit_len) << 16) + u64::from(decode.score)
}

/// The same number as `timed_decoder` makes of a reading.
fn sniffed_digest(decode: &SniffedDecode) -> u64 {
    let frame: u32 = match decode.frame {
        SniffedFrame::Forward16(word) => 0x1000_0000 + u32::from(word),
        SniffedFrame::Backward8(byte) => 0x0800_0000 + u32::from(byte),
        SniffedFrame::Forward24([first, second, third]) => {
            u32::from_be_bytes([0x18, first, second, third])
        }
        SniffedFrame::UnsupportedLength(length) => 0x2000_0000 + u32::from(length),
        SniffedFrame::DecodeFailed => 0,
    };
    (u64::from(frame) << 16) + u64::from(decode.score)
}

#[inline(never)]
fn rust_phase(capture: &Capture, phase_ticks: i8) -> u64 {
    let window = SampleWindow::of_capture(&capture.samples, capture.count);
    digest(&window.decode_phase(MAX_OUT_BITS, phase_ticks))
}

#[inline(never)]
fn rust_search(capture: &Capture) -> u64 {
    let window = SampleWindow::of_capture(&capture.samples, capture.count);
    BestPhaseSearch::new(SNIFFED_BIT_LENGTHS)
        .run(&window)
        .map_or(0, |decode| digest(&decode))
}

#[inline(never)]
fn rust_sniffed(capture: &Capture) -> u64 {
    sniffed_digest(&capture.event.decode_sniffed_with_phase())
}

#[inline(never)]
fn proved_phase(capture: &Capture, phase_ticks: i8) -> u64 {
    unsafe { timed_phase(&capture.samples, capture.count, MAX_OUT_BITS, phase_ticks) }
}

#[inline(never)]
fn proved_search(capture: &Capture) -> u64 {
    unsafe { timed_search(&capture.samples, capture.count) }
}

#[inline(never)]
fn proved_sniffed(capture: &Capture) -> u64 {
    unsafe { timed_sniffed(&capture.samples, capture.count) }
}

/// The wave of a frame of 8, 16 or 24 random bits: half-bits of four ticks, each run of ticks off by up to `jitter`.
fn frame(random: &mut Random, jitter: u64) -> Capture {
    let bits = 8 * (1 + random.below(3));
    let mut ticks = Vec::new();
    for level in random.half_bits(bits) {
        let length = 4 + random.below(2 * jitter + 1) - jitter;
        ticks.extend((0..length).map(|_| level));
    }
    ticks.extend([1; 24]);
    captured(&ticks)
}

fn noise(random: &mut Random) -> Capture {
    let ticks: Vec<u8> = (0..8 * SAMPLES).map(|_| random.below(2) as u8).collect();
    captured(&ticks)
}

fn captured(ticks: &[u8]) -> Capture {
    let mut samples = [0; SAMPLES];
    let bytes = ticks.chunks_exact(8).take(SAMPLES);
    let count = bytes.len() as u16;
    for (sample, byte) in samples.iter_mut().zip(bytes) {
        *sample = byte.iter().fold(0, |sum, tick| 2 * sum + tick);
    }
    let mut event = RxCompletedEvent::new();
    event.samples = samples;
    event.sample_count = count;
    Capture {
        samples,
        count,
        event,
    }
}

/// The sum of the answers of all turns.
fn over_all(captures: &[Capture], call: impl Fn(&Capture) -> u64) -> u64 {
    let mut sum = 0u64;
    for _ in 0..TURNS {
        for capture in captures {
            sum = sum.rotate_left(1) ^ call(black_box(capture));
        }
    }
    sum
}

fn ratio(
    captures: &[Capture],
    rust: impl Fn(&Capture) -> u64,
    proved: impl Fn(&Capture) -> u64,
) -> f64 {
    ratios(|| over_all(captures, &rust), || over_all(captures, &proved)).median
}

fn all_phases(capture: &Capture, decode: impl Fn(&Capture, i8) -> u64) -> u64 {
    PHASES.iter().fold(0, |sum: u64, phase| {
        sum.rotate_left(7) ^ decode(capture, *phase)
    })
}

fn main() {
    let mut random = Random(62_386);
    let kinds: [(&str, Vec<Capture>); 3] = [
        (
            "clean frames",
            (0..CAPTURES).map(|_| frame(&mut random, 0)).collect(),
        ),
        (
            "jittered frames",
            (0..CAPTURES).map(|_| frame(&mut random, 1)).collect(),
        ),
        ("noise", (0..CAPTURES).map(|_| noise(&mut random)).collect()),
    ];
    println!("time of the proved code divided by the Rust's (median of {ROUNDS} rounds)");
    println!("captures          decode_phase   search  decode_sniffed_with_phase");
    for (name, captures) in &kinds {
        let phase = ratio(
            captures,
            |c| all_phases(c, rust_phase),
            |c| all_phases(c, proved_phase),
        );
        let search = ratio(captures, rust_search, proved_search);
        let sniffed = ratio(captures, rust_sniffed, proved_sniffed);
        println!("{name:<17} {phase:>12.2} {search:>8.2} {sniffed:>26.2}");
    }
}
