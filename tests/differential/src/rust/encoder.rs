//! An encoder of our own, since the Rust's was not given: the wave that document 01 gives a frame, tick by
//! tick, and the half-bits read off it.

use std::iter::repeat_n;

use crate::protocol::levels::{Levels, HIGH, LOW};
use crate::rust::station::{HalfBits, Refusal, HALF_BIT_BYTES};
use crate::scripts::captures::bits_of;

pub const HALF_BIT_TICKS: usize = 4;
const RELEASED_HALF_BITS: usize = 4;
pub const FRAME_BYTES: usize = 3;

/// What an encoder is given. The bits are taken from the first byte's top bit on; bytes that they don't
/// reach count for nothing.
#[derive(Clone, Copy, PartialEq, Eq)]
pub struct Frame {
    pub bits: u8,
    pub bytes: [u8; FRAME_BYTES],
}

impl Frame {
    /// A frame of all the data, with `other` in place of the bytes that it doesn't reach.
    pub fn of(data: &[u8], other: u8) -> Self {
        let mut bytes = [other; FRAME_BYTES];
        bytes[..data.len()].copy_from_slice(data);
        Self {
            bits: 8 * data.len() as u8,
            bytes,
        }
    }

    pub fn encode(&self) -> Result<HalfBits, Refusal> {
        match self.bits {
            8 | 16 | 24 => Ok(half_bits_of(&self.bytes[..usize::from(self.bits / 8)])),
            _ => Err(Refusal::BitCount),
        }
    }

    /// Gives the number of half-bits. A refusal leaves the buffer as it is.
    pub fn encode_into(&self, buffer: &mut [u8]) -> Result<u8, Refusal> {
        let half_bits = self.encode()?;
        let store = buffer.get_mut(..HALF_BIT_BYTES);
        store
            .ok_or(Refusal::ShortBuffer)?
            .copy_from_slice(&half_bits.data);
        Ok(half_bits.len)
    }
}

/// The line's levels from the start bit, which is a 1, to the last bit's end.
pub fn wave(data: &[u8]) -> Levels {
    let bits = [true].into_iter().chain(bits_of(data));
    let halves = bits.flat_map(|bit| if bit { [LOW, HIGH] } else { [HIGH, LOW] });
    halves
        .flat_map(|high| repeat_n(high, HALF_BIT_TICKS))
        .collect()
}

/// A half-bit is four ticks of one level, so that every fourth tick shows them all.
pub fn half_bits_of(data: &[u8]) -> HalfBits {
    let wave = wave(data);
    let released = repeat_n(HIGH, RELEASED_HALF_BITS * HALF_BIT_TICKS);
    let halves = wave.iter().chain(released).step_by(HALF_BIT_TICKS);
    HalfBits::of(&halves.map(|high| high == LOW).collect())
}
