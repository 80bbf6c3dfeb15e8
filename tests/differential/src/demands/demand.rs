//! What demand 3 says of one or two senders and their listeners, all of them Idle at the starts: from document 01's wave and findings 27 and
//! 28 of the readings. No station has a part in it. Ticks are counted from the starts, and the first is 1.

use std::iter::repeat_n;

use crate::demands::frame_lines::ARMED_TICKS;
use crate::protocol::levels::{Levels, HIGH, LOW};
use crate::rust::encoder::{half_bits_of, wave, HALF_BIT_TICKS};
use crate::rust::station::HalfBits;
use crate::scripts::captures::IDLE_TICKS;

/// When the demand's answers are owed.
pub const DEMANDED_TICKS: usize = 230;
const BREAK_TICKS: usize = 12;
/// From the clash to the sample after the break.
const TICKS_TO_SAMPLE: usize = BREAK_TICKS + 2;

fn driven_on(half_bit: u8) -> usize {
    ARMED_TICKS + 1 + HALF_BIT_TICKS * usize::from(half_bit)
}

/// A frame that one station sends, or two at once.
pub struct Sent<'a> {
    pub data: &'a [u8],
    pub half_bits: HalfBits,
    wave: Levels,
}

impl<'a> Sent<'a> {
    pub fn of(data: &'a [u8]) -> Self {
        Self {
            data,
            half_bits: half_bits_of(data),
            wave: wave(data),
        }
    }

    /// The level that each tick leaves.
    pub fn levels(&self) -> Levels {
        let armed = repeat_n(HIGH, ARMED_TICKS);
        let after = repeat_n(HIGH, DEMANDED_TICKS - ARMED_TICKS - self.wave.ticks());
        armed.chain(self.wave.iter()).chain(after).collect()
    }

    /// From the first low tick to the sixteenth high one running.
    fn captured_ticks(&self) -> usize {
        self.wave.ticks() - self.wave.high_ticks_at_end() + IDLE_TICKS
    }

    /// The tick on which the listeners' captures are complete. They sample a level on the tick after the one that left it.
    pub fn heard_on(&self) -> usize {
        driven_on(0) + self.captured_ticks()
    }

    /// The samples that a listener's capture counts: the bytes that are filled, and one of ones.
    pub fn samples(&self) -> Vec<u8> {
        let high = repeat_n(HIGH, IDLE_TICKS);
        let heard: Levels = self.wave.iter().chain(high).collect();
        let filled = self.captured_ticks() / 8;
        [&heard.bytes()[..filled], &[0xFF]].concat()
    }

    /// The tick on which the senders are Idle.
    pub fn sent_on(&self) -> usize {
        driven_on(self.half_bits.len - 1) + 1
    }
}

/// Two frames that differ, sent at once.
pub struct Clash {
    pub half_bits: [HalfBits; 2],
    /// The first half-bit that differs.
    parting: u8,
}

impl Clash {
    /// None for frames that are equal.
    pub fn of(half_bits: [HalfBits; 2]) -> Option<Self> {
        let [first, second] = &half_bits;
        let mut places = 0..first.len.max(second.len);
        let parting = places.find(|place| pulls(first, *place) != pulls(second, *place))?;
        Some(Self { half_bits, parting })
    }

    /// Whether it is this sender, 0 or 1, that pulls low where they part, and so finds the line idle after its break.
    pub fn wins(&self, sender: usize) -> bool {
        pulls(&self.half_bits[sender], self.parting)
    }

    /// The third tick of the first half-bit that the sender releases while the other one pulls.
    pub fn seen_on(&self, sender: usize) -> usize {
        let half_bits = &self.half_bits[sender];
        let mut places = self.parting..;
        let released = places.find(|place| !pulls(half_bits, *place));
        driven_on(released.unwrap_or(self.parting)) + 2
    }

    pub fn sampled_on(&self, sender: usize) -> usize {
        self.seen_on(sender) + TICKS_TO_SAMPLE
    }

    /// The level that each tick leaves: the half-bits that both have, then low up to the winner's break's end.
    pub fn levels(&self) -> Levels {
        let parted = driven_on(self.parting);
        let winner = usize::from(self.wins(1));
        let released = self.seen_on(winner) + BREAK_TICKS + 1;
        let level = |tick| match tick {
            ..=ARMED_TICKS => HIGH,
            _ if tick < parted => !pulls(&self.half_bits[0], place_on(tick)),
            _ if tick < released => LOW,
            _ => HIGH,
        };
        (1..=DEMANDED_TICKS).map(level).collect()
    }
}

/// The half-bit that is on the line after a tick.
fn place_on(tick: usize) -> u8 {
    ((tick - driven_on(0)) / HALF_BIT_TICKS) as u8
}

/// A store pulls nothing past its end.
fn pulls(half_bits: &HalfBits, place: u8) -> bool {
    place < half_bits.len && half_bits.pulls(place)
}
