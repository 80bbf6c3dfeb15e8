//! Times the proved station's tick beside the Rust's on the same levels, in one run, and prints ratios. There are two forms:
//!
//! - a call at a time, as firmware makes it: `in_place::tick` on a station lent for change, beside the Rust's `tick` on `&mut self`. Each tick is one
//!   call through a pointer that the compiler can't look behind, in one loop that both sides share;
//! - in a loop: `timed_ticks`, which takes the station by value and back at each tick, beside the same loop over the Rust's. Each loop stands behind
//!   one such call.
//!
//! Each run ends in a sum of the level driven at every tick and, at the end of each pass, of what the station tells. The sums of both sides and of
//! both forms are compared.

use std::hint::black_box;

mod common;

#[allow(dead_code)]
mod manchester {
    include!(env!("OXIDALI_MANCHESTER"));
}

#[allow(dead_code)]
mod fsm {
    use crate::platform as dali2rust_platform;
    include!(env!("OXIDALI_FSM"));

    // The file hands its line out to nobody, and a line that is shared through a cell slows its tick.
    impl<H: BitbangHal> DaliBitbangPhy<H> {
        pub fn line(&mut self) -> &mut H {
            &mut self.hal
        }
    }
}

#[path = "../tests/differential/src/rust/shims.rs"]
mod shims;

use common::{ratios, Random, ROUNDS};
use fsm::{BusState, DaliBitbangPhy};
use shims::halfbits::{self, HalfBitBuffer};
use shims::platform::{self, hal::BitbangHal};

const LEVELS: usize = 4_096;
const PASSES: u32 = 1_000;

/// The frame that `timed_ticks` sends.
const FRAME: HalfBitBuffer = HalfBitBuffer {
    data: [0xA6, 0x59, 0x96, 0xA9, 0x55, 0x6A, 0x80],
    length: HalfBitBuffer::MAX_DATA_HALF_BITS,
};

/// The ticks from a start with that frame to Idle.
const SENDING_TICKS: u32 = 217;

// The proved library `timed_ticks`, as timing/native gives it out. A struct passes by a pointer, and so does the place for one that is returned.
extern "C" {
    fn timed_ticks(levels: &[u8; LEVELS], passes: u32, sends: bool) -> u64;
    fn station_new(made: &mut Room);
    fn station_tick(station: &mut Room, bus_is_high: bool) -> bool;
    fn station_start_tx(started: &mut Room, station: &Room, halfbits: &[u8; 8]);
    fn station_idle_tick_count(station: &Room) -> u16;
    fn station_last_rx_event(event: &mut Event, station: &Room);
}

const ROOM: usize = 512;
const UNTOUCHED: u8 = 0xA5;

/// Room for a proved station, or for what a start returns: the station, and the answer behind it. How much of it they take is the compiler's
/// affair; the bytes at its end show that it is enough.
#[repr(C, align(16))]
struct Room([u8; ROOM]);

impl Room {
    fn is_enough(&self) -> bool {
        self.0[ROOM - 64..].iter().all(|byte| *byte == UNTOUCHED)
    }
}

/// The last event as the proved station hands it out.
#[repr(C, align(16))]
struct Event {
    samples: [u8; 64],
    sample_count: u16,
    _rest: [u8; ROOM],
}

/// A station that is called one tick at a time.
trait Called {
    fn tick(&mut self, bus_is_high: bool) -> bool;
    fn start(&mut self);
    fn told(&self, at: usize) -> u64;
}

type ProvedTick = unsafe extern "C" fn(&mut Room, bool) -> bool;

struct Proved {
    station: Box<Room>,
    spare: Box<Room>,
    tick: ProvedTick,
}

impl Proved {
    fn new() -> Proved {
        let mut station = Box::new(Room([UNTOUCHED; ROOM]));
        unsafe { station_new(&mut station) };
        Proved {
            station,
            spare: Box::new(Room([UNTOUCHED; ROOM])),
            tick: black_box(station_tick as ProvedTick),
        }
    }
}

impl Called for Proved {
    #[inline(always)]
    fn tick(&mut self, bus_is_high: bool) -> bool {
        unsafe { (self.tick)(&mut self.station, bus_is_high) }
    }

    fn start(&mut self) {
        let mut halfbits = [FRAME.length; 8];
        halfbits[..7].copy_from_slice(&FRAME.data);
        unsafe { station_start_tx(&mut self.spare, &self.station, &halfbits) };
        std::mem::swap(&mut self.station, &mut self.spare);
    }

    fn told(&self, at: usize) -> u64 {
        assert!(
            self.station.is_enough() && self.spare.is_enough(),
            "a station takes more room than it has"
        );
        let mut event = Event {
            samples: [0; 64],
            sample_count: 0,
            _rest: [0; ROOM],
        };
        let idle = unsafe {
            station_last_rx_event(&mut event, &self.station);
            station_idle_tick_count(&self.station)
        };
        sum_of(idle, event.sample_count, &event.samples, at)
    }
}

struct Line {
    heard_high: bool,
    driven_high: bool,
}

impl BitbangHal for Line {
    fn bus_is_high(&mut self) -> bool {
        self.heard_high
    }

    fn bus_set_high(&mut self) {
        self.driven_high = true;
    }

    fn bus_set_low(&mut self) {
        self.driven_high = false;
    }
}

type RustTick = fn(&mut DaliBitbangPhy<Line>, bool) -> bool;

struct Rust {
    station: DaliBitbangPhy<Line>,
    tick: RustTick,
}

impl Rust {
    fn new() -> Rust {
        Rust {
            station: new_station(),
            tick: black_box(rust_tick as RustTick),
        }
    }
}

impl Called for Rust {
    #[inline(always)]
    fn tick(&mut self, bus_is_high: bool) -> bool {
        (self.tick)(&mut self.station, bus_is_high)
    }

    fn start(&mut self) {
        self.station.start_tx(&FRAME);
    }

    fn told(&self, at: usize) -> u64 {
        let event = self.station.last_rx_event();
        sum_of(
            self.station.idle_tick_count(),
            event.sample_count,
            &event.samples,
            at,
        )
    }
}

fn new_station() -> DaliBitbangPhy<Line> {
    DaliBitbangPhy::new(Line {
        heard_high: true,
        driven_high: true,
    })
}

#[inline(never)]
fn rust_tick(station: &mut DaliBitbangPhy<Line>, bus_is_high: bool) -> bool {
    station.line().heard_high = bus_is_high;
    station.tick();
    station.line().driven_high
}

/// What a station tells, as in `timed_ticks`.
fn sum_of(idle: u16, sample_count: u16, samples: &[u8; 64], at: usize) -> u64 {
    u64::from(idle) + u64::from(sample_count) * 3 + u64::from(samples[at])
}

fn joined(sum: u64, told: u64) -> u64 {
    sum % (1 << 32) * 31 + told
}

/// A call at a time. A sender is started anew as soon as it is Idle, and hears itself.
#[inline(never)]
fn called(mut station: impl Called, levels: &[u8; LEVELS], passes: u32, sends: bool) -> u64 {
    let mut sum = 0;
    let mut driven_high = true;
    let mut sending = 0;
    for left in (0..passes).rev() {
        let mut highs = 0;
        for level in levels {
            if sends {
                if sending == 0 {
                    station.start();
                    sending = SENDING_TICKS;
                }
                sending -= 1;
            }
            driven_high = station.tick(if sends { driven_high } else { *level != 0 });
            highs += u64::from(driven_high);
        }
        sum = joined(sum, highs + station.told(left as usize % 64));
    }
    sum
}

/// The same loop and the same sum as `timed_ticks`.
#[inline(never)]
fn rust_ticks(levels: &[u8; LEVELS], passes: u32, sends: bool) -> u64 {
    let mut station = new_station();
    let mut sum = 0;
    for left in (0..passes).rev() {
        let mut highs = 0;
        for level in levels {
            if sends && station.bus_state() == BusState::Idle {
                station.start_tx(&FRAME);
            }
            let line = station.line();
            line.heard_high = if sends { line.driven_high } else { *level != 0 };
            station.tick();
            highs += u64::from(station.line().driven_high);
        }
        let event = station.last_rx_event();
        let told = sum_of(
            station.idle_tick_count(),
            event.sample_count,
            &event.samples,
            left as usize % 64,
        );
        sum = joined(sum, highs + told);
    }
    sum
}

#[inline(never)]
fn proved_ticks(levels: &[u8; LEVELS], passes: u32, sends: bool) -> u64 {
    unsafe { timed_ticks(levels, passes, sends) }
}

fn noise(random: &mut Random) -> [u8; LEVELS] {
    std::array::from_fn(|_| random.below(2) as u8)
}

/// Frames of 16 random bits, half-bits of four ticks, each followed by 40 to 100 high ticks.
fn frames(random: &mut Random) -> [u8; LEVELS] {
    let mut ticks = Vec::new();
    while ticks.len() < LEVELS {
        for level in random.half_bits(16) {
            ticks.extend([level; 4]);
        }
        let silence = 40 + random.below(61);
        ticks.extend((0..silence).map(|_| 1));
    }
    std::array::from_fn(|i| ticks[i])
}

fn main() {
    let mut random = Random(62_386);
    let idle = [1; LEVELS];
    let kinds = [
        ("noise", noise(&mut random), false),
        ("frames", frames(&mut random), false),
        ("idle", idle, false),
        ("sending", idle, true),
    ];
    println!("time of a proved tick divided by the Rust's ({ROUNDS} rounds)");
    println!("              a call at a time           in a loop");
    println!("levels     median  of least times   median  of least times");
    for (name, levels, sends) in &kinds {
        let levels = black_box(levels);
        let passes = black_box(PASSES);
        let sends = black_box(*sends);
        assert_eq!(
            called(Proved::new(), levels, passes, sends),
            proved_ticks(levels, passes, sends),
            "the two forms answer differently"
        );
        let call = ratios(
            || called(Rust::new(), levels, passes, sends),
            || called(Proved::new(), levels, passes, sends),
        );
        let looped = ratios(
            || rust_ticks(levels, passes, sends),
            || proved_ticks(levels, passes, sends),
        );
        println!(
            "{name:<10} {:>6.2} {:>15.2} {:>8.2} {:>15.2}",
            call.median, call.least, looped.median, looped.least
        );
    }
}
