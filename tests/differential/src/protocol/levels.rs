//! Levels of a line, tick after tick, packed as the protocol packs them: eight to a byte, the first at the
//! top.

use std::iter::repeat_n;

pub const HIGH: bool = true;
pub const LOW: bool = false;

/// High is 1. The bits past the last tick are the fill, which says nothing and is kept as it was given.
#[derive(Clone, PartialEq, Eq, Default)]
pub struct Levels {
    bytes: Vec<u8>,
    ticks: usize,
}

impl Levels {
    /// None if there are more bytes than so many ticks need, or fewer.
    pub fn of_bytes(bytes: Vec<u8>, ticks: usize) -> Option<Self> {
        (bytes.len() == ticks.div_ceil(8)).then_some(Self { bytes, ticks })
    }

    pub fn of_runs(runs: &[(bool, usize)]) -> Self {
        let runs = runs.iter();
        runs.flat_map(|(high, ticks)| repeat_n(*high, *ticks))
            .collect()
    }

    pub fn bytes(&self) -> &[u8] {
        &self.bytes
    }

    pub fn ticks(&self) -> usize {
        self.ticks
    }

    /// Adds a tick to levels whose fill is 0.
    pub fn push(&mut self, high: bool) {
        if self.ticks % 8 == 0 {
            self.bytes.push(0);
        }
        self.bytes[self.ticks / 8] |= u8::from(high) << (7 - self.ticks % 8);
        self.ticks += 1;
    }

    pub fn is_high(&self, tick: usize) -> bool {
        self.bytes[tick / 8] << (tick % 8) & 0x80 != 0
    }

    pub fn iter(&self) -> impl DoubleEndedIterator<Item = bool> + '_ {
        (0..self.ticks).map(|tick| self.is_high(tick))
    }

    pub fn high_ticks_at_end(&self) -> usize {
        self.iter().rev().take_while(|high| *high == HIGH).count()
    }

    /// Takes the fill from `bits`.
    pub fn set_fill(&mut self, bits: u8) {
        if self.ticks % 8 != 0 {
            self.bytes[self.ticks / 8] |= bits & (0xFF >> (self.ticks % 8));
        }
    }
}

impl FromIterator<bool> for Levels {
    fn from_iter<T: IntoIterator<Item = bool>>(ticks: T) -> Self {
        let mut levels = Self::default();
        ticks.into_iter().for_each(|high| levels.push(high));
        levels
    }
}
