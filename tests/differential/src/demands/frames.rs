//! Whole frames: every one of 8 and 16 bits and many of 24, each encoded, sent, heard and read.

use std::vec::IntoIter;

use crate::demands::frame_lines::FrameLines;
use crate::random::Random;
use crate::runs::compare::{Batch, Batches};
use crate::runs::program::hex;

const FRAMES_OF_24_BITS: usize = 100_000;
/// A batch goes through one station.
const BATCH_FRAMES: usize = 5_000;

pub struct Frames {
    left: IntoIter<Vec<u8>>,
    frames: usize,
    lines: usize,
    ticks: usize,
}

impl Frames {
    pub fn new(seed: u64) -> Self {
        Self {
            left: mixed_frames(seed).into_iter(),
            frames: 0,
            lines: 0,
            ticks: 0,
        }
    }
}

impl Iterator for Frames {
    type Item = Batch;

    fn next(&mut self) -> Option<Batch> {
        let mut made = FrameLines::new();
        for data in self.left.by_ref().take(BATCH_FRAMES) {
            self.frames += 1;
            let bits = 8 * data.len();
            let name = format!("frame {}, {bits} bits of {}", self.frames, hex(&data));
            made.script.parts.push((made.script.lines, name));
            made.push_frame(&data);
        }
        self.lines += made.script.lines;
        self.ticks += made.script.ticks;
        made.script.batch()
    }
}

impl Batches for Frames {
    fn figures(&self) -> String {
        format!(
            "{} frames, {} lines and {} ticks",
            self.frames, self.lines, self.ticks
        )
    }
}

/// The data of each frame. They are mixed, so that frames of every length follow each other on a station.
fn mixed_frames(seed: u64) -> Vec<Vec<u8>> {
    let mut random = Random::new(seed);
    let of_8_bits = (0..=u8::MAX).map(|byte| vec![byte]);
    let of_16_bits = (0..=u16::MAX).map(|word| word.to_be_bytes().to_vec());
    let of_24_bits = (0..FRAMES_OF_24_BITS).map(|_| random.any().to_be_bytes()[..3].to_vec());
    let mut frames: Vec<Vec<u8>> = of_8_bits.chain(of_16_bits).chain(of_24_bits).collect();
    for at in (1..frames.len()).rev() {
        frames.swap(at, random.below(at + 1));
    }
    frames
}
