//! What the other senders do to a station's line: frames, noise, pauses and pulls, as runs of ticks.

use std::collections::VecDeque;

use crate::protocol::levels::{HIGH, LOW};
use crate::random::Random;
use crate::rust::encoder::HALF_BIT_TICKS;
use crate::rust::station::HalfBits;
use crate::scripts::captures::{any_wave, bits_of, exact_wave};

#[derive(Default)]
pub struct Others {
    /// Whether something comes when the planned runs are used up, or silence.
    pub are_busy: bool,
    planned: VecDeque<(bool, usize)>,
}

impl Others {
    pub fn next_level(&mut self, random: &mut Random) -> bool {
        loop {
            match self.planned.front_mut() {
                Some((high, left @ 1..)) => {
                    *left -= 1;
                    return *high;
                }
                Some(_) => drop(self.planned.pop_front()),
                None if self.are_busy => self.plan_something(random),
                None => self.plan(HIGH, 64),
            }
        }
    }

    /// Forgets what was planned; what is planned from now on begins with the next tick.
    pub fn forget(&mut self) {
        self.planned.clear();
    }

    pub fn plan(&mut self, high: bool, ticks: usize) {
        self.planned.push_back((high, ticks));
    }

    /// Low runs and high ones by turns.
    fn plan_runs(&mut self, runs: impl IntoIterator<Item = u8>) {
        for (number, ticks) in runs.into_iter().enumerate() {
            self.plan(number % 2 == 1, usize::from(ticks));
        }
    }

    /// The wave of a sender whose first half-bit is driven on the next tick.
    pub fn plan_half_bits(&mut self, half_bits: &HalfBits) {
        for half_bit in 0..half_bits.len {
            self.plan(!half_bits.pulls(half_bit), HALF_BIT_TICKS);
        }
    }

    pub fn plan_frame(&mut self, random: &mut Random) {
        self.plan_runs(match random.below(3) {
            0 => any_wave(random),
            _ => exact_wave(&bits_of(&any_frame(random))),
        });
    }

    fn plan_something(&mut self, random: &mut Random) {
        match random.below(40) {
            0..=15 => {
                self.plan_frame(random);
                self.plan_pause(random);
            }
            // One low tick starts no capture, nor do two with a high one between them.
            16..=19 => self.plan_runs([1, random.between(1, 4), 1, random.between(1, 4)]),
            20..=24 => self.plan_runs([random.between(2, 30), random.between(14, 18)]),
            25..=28 => {
                let longest = random.pick(&[1, 2, 3, 5, 8, 16]);
                let noise = random.between(4, 60);
                self.plan_runs((0..noise).map(|_| random.between(1, longest)));
            }
            // A capture holds 504 ticks of its wave.
            29 => self.plan(LOW, random.between(480, 600)),
            // The silence before a capture is told up to 255.
            30 => self.plan(HIGH, random.between(240, 270)),
            31 => self.plan(HIGH, random.between(300, 3000)),
            _ => self.plan_pause(random),
        }
    }

    /// Sixteen high ticks end a capture.
    fn plan_pause(&mut self, random: &mut Random) {
        let [least, most] = random.pick(&[[14, 18], [14, 18], [1, 13], [18, 60]]);
        self.plan(HIGH, random.between(least, most));
    }
}

/// One to three bytes.
pub fn any_frame(random: &mut Random) -> Vec<u8> {
    let bytes = random.any().to_be_bytes();
    let length = random.between(1, 3);
    match random.below(8) {
        0 => vec![0x00; length],
        1 => vec![0xFF; length],
        _ => bytes[..length].to_vec(),
    }
}
