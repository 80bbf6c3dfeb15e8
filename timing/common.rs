//! What the programs that time the proved code beside the Rust share.

use std::time::Duration;

pub const ROUNDS: usize = 25;

pub struct Random(pub u64);

impl Random {
    pub fn below(&mut self, n: u64) -> u64 {
        self.0 ^= self.0 << 13;
        self.0 ^= self.0 >> 7;
        self.0 ^= self.0 << 17;
        self.0 % n
    }

    /// The half-bits of a frame of random bits: a start bit, then low and high for a 1, high and low for a 0.
    pub fn half_bits(&mut self, bits: u64) -> Vec<u8> {
        let mut half_bits = vec![0, 1];
        for _ in 0..bits {
            half_bits.extend(if self.below(2) == 1 { [0, 1] } else { [1, 0] });
        }
        half_bits
    }
}

/// The proved side's time divided by the Rust's.
pub struct Ratios {
    /// The median over the rounds.
    pub median: f64,
    /// Of each side's least time.
    pub least: f64,
}

/// Times both sides in each round, in turn first, and compares their answers.
pub fn ratios(mut rust: impl FnMut() -> u64, mut proved: impl FnMut() -> u64) -> Ratios {
    let mut ratios = Vec::with_capacity(ROUNDS);
    let mut least = (Duration::MAX, Duration::MAX);
    for round in 0..ROUNDS {
        let (ours, theirs) = if round % 2 == 0 {
            let theirs = timed(&mut rust);
            (timed(&mut proved), theirs)
        } else {
            (timed(&mut proved), timed(&mut rust))
        };
        assert_eq!(ours.1, theirs.1, "the two sides answer differently");
        ratios.push(ours.0.as_secs_f64() / theirs.0.as_secs_f64());
        least = (least.0.min(ours.0), least.1.min(theirs.0));
    }
    ratios.sort_by(f64::total_cmp);
    Ratios {
        median: ratios[ROUNDS / 2],
        least: least.0.as_secs_f64() / least.1.as_secs_f64(),
    }
}

fn timed(call: &mut impl FnMut() -> u64) -> (Duration, u64) {
    let start = processor_time();
    let answer = call();
    (processor_time() - start, answer)
}

/// What this thread has had of the processor, so that what others run meanwhile does not count.
fn processor_time() -> Duration {
    #[repr(C)]
    struct Time {
        seconds: i64,
        nanoseconds: i64,
    }
    extern "C" {
        fn clock_gettime(clock: i32, time: &mut Time) -> i32;
    }
    const THREAD_CPUTIME_ID: i32 = 3;
    let mut time = Time {
        seconds: 0,
        nanoseconds: 0,
    };
    let status = unsafe { clock_gettime(THREAD_CPUTIME_ID, &mut time) };
    assert_eq!(status, 0, "the thread's processor time can't be had");
    Duration::new(time.seconds as u64, time.nanoseconds as u32)
}
