//! Waves as runs of ticks, low and high by turns from a low one on, and a station of the Rust that hears them.

use std::iter::repeat_n;

use crate::fsm::{RxCompletedEvent, RX_IDLE_LINE_HIGH_TICKS, TX_HALF_BIT_TICKS};
use crate::random::Random;
use crate::rust::station::Station;

const HALF_BIT_TICKS: usize = TX_HALF_BIT_TICKS as usize;
/// The high ticks before each wave, beside those that ended the capture before it.
const QUIET_TICKS: usize = 8;

/// The runs of a frame's exact wave up to the last low one. The high ticks after it have no end of their own.
pub fn exact_runs(bits: &[bool]) -> Vec<usize> {
    let start_and_bits = [true].iter().chain(bits);
    let halves: Vec<bool> = start_and_bits.flat_map(|bit| [!bit, *bit]).collect();
    let equal_halves = halves.chunk_by(PartialEq::eq).map(<[bool]>::len);
    let mut runs: Vec<usize> = equal_halves.map(|halves| halves * HALF_BIT_TICKS).collect();
    if runs.len() % 2 == 0 {
        runs.pop();
    }
    runs
}

/// Each run becomes a tick shorter, stays as it is, or becomes a tick longer, with the same chance.
pub fn put_every_run_off(runs: &mut [usize], random: &mut Random) {
    for run in runs {
        *run = *run - 1 + random.below(3);
    }
}

/// One station for many waves.
pub struct Listener(Station);

impl Listener {
    pub fn new() -> Self {
        Self(Station::new())
    }

    /// What an Idle station captured of the wave, once the line has been idle again; none if it heard no two low ticks running.
    pub fn hear(&mut self, runs: &[usize]) -> Option<RxCompletedEvent> {
        let before = repeat_n(true, QUIET_TICKS);
        let numbered = runs.iter().enumerate();
        let wave = numbered.flat_map(|(number, ticks)| repeat_n(number % 2 == 1, *ticks));
        let after = repeat_n(true, usize::from(RX_IDLE_LINE_HIGH_TICKS));
        for high in before.chain(wave).chain(after) {
            self.0.tick(high);
        }
        self.0.take_rx()
    }
}

/// The samples that count.
pub fn samples_of(event: &RxCompletedEvent) -> &[u8] {
    &event.samples[..usize::from(event.sample_count)]
}
