//! One station of the unchanged Rust, and the line that it is given in place of its HAL.

use std::cell::Cell;
use std::rc::Rc;
use std::sync::atomic::Ordering;

use crate::fsm::{BusState, CollisionPolicy, DaliBitbangPhy, RxCompletedEvent, RxState};
use crate::halfbits::HalfBitBuffer;
use crate::platform::hal::BitbangHal;
use crate::protocol::levels::Levels;

pub const HALF_BIT_BYTES: usize = HalfBitBuffer::DATA_LEN;
pub const MOST_HALF_BITS: u8 = HalfBitBuffer::MAX_DATA_HALF_BITS;

/// The two levels that pass between a station and its line. A tick on which the Rust sets no level leaves
/// the driven one as it is.
pub struct Line {
    sampled_high: Cell<bool>,
    driven_high: Cell<bool>,
}

impl BitbangHal for Rc<Line> {
    fn bus_is_high(&mut self) -> bool {
        self.sampled_high.get()
    }

    fn bus_set_high(&mut self) {
        self.driven_high.set(true);
    }

    fn bus_set_low(&mut self) {
        self.driven_high.set(false);
    }
}

/// Half-bits as a start call takes them: so many of them are to be sent, from the first byte's top bit on;
/// 1 pulls low.
#[derive(Clone, Copy, PartialEq, Eq)]
pub struct HalfBits {
    pub len: u8,
    pub data: [u8; HALF_BIT_BYTES],
}

impl HalfBits {
    /// One half-bit for each tick; those that are 1 pull.
    pub fn of(pulls: &Levels) -> Self {
        let mut data = [0; HALF_BIT_BYTES];
        data[..pulls.bytes().len()].copy_from_slice(pulls.bytes());
        let len = pulls.ticks() as u8;
        Self { len, data }
    }

    pub fn pulls(&self, half_bit: u8) -> bool {
        match self.data.get(usize::from(half_bit / 8)) {
            Some(byte) => byte << (half_bit % 8) & 0x80 != 0,
            None => false,
        }
    }
}

#[derive(Clone, Copy, PartialEq, Eq)]
pub enum Start {
    Tx,
    Answer,
}

/// A call on a station, other than a tick.
#[derive(Clone, Copy, PartialEq, Eq)]
pub enum Call {
    Policy { policy: CollisionPolicy },
    Start { start: Start, half_bits: HalfBits },
    Poll,
    TakeIdle,
    TakeRx,
    Ack,
    State,
}

/// Document 01's numbers for why the encoder, a start call or the line says no.
#[derive(Clone, Copy, PartialEq, Eq, Debug)]
pub enum Refusal {
    BitCount = 5,
    ShortBuffer = 6,
    State = 7,
    Length = 8,
    StationNumber = 9,
    StationCount = 10,
}

pub struct Station {
    pub machine: DaliBitbangPhy<Rc<Line>>,
    line: Rc<Line>,
}

impl Station {
    pub fn new() -> Self {
        let line = Rc::new(Line {
            sampled_high: Cell::new(true),
            driven_high: Cell::new(true),
        });
        Self {
            machine: DaliBitbangPhy::new(line.clone()),
            line,
        }
    }

    /// Takes the sampled level and gives the driven one; high is true.
    pub fn tick(&mut self, high: bool) -> bool {
        self.line.sampled_high.set(high);
        self.machine.tick();
        self.drives_high()
    }

    /// The refusal is told from the state and the length, and held to the Rust's yes or no: were they
    /// to part, no number could stand for the Rust's answer, so the run ends there.
    pub fn start(&mut self, start: Start, half_bits: &HalfBits) -> Option<Refusal> {
        let refusal = self.refusal(start, half_bits.len);
        let buffer = HalfBitBuffer {
            data: half_bits.data,
            length: half_bits.len,
        };
        let started = match start {
            Start::Tx => self.machine.start_tx(&buffer),
            Start::Answer => self.machine.start_answer(&buffer),
        };
        assert_eq!(
            started,
            refusal.is_none(),
            "a start with {} half-bits was expected to be refused with {:?}, and the Rust said {started}",
            half_bits.len,
            refusal
        );
        refusal
    }

    fn refusal(&self, start: Start, len: u8) -> Option<Refusal> {
        let state_allows = match self.machine.bus_state() {
            BusState::Idle => true,
            BusState::Rx => start == Start::Answer,
            BusState::Tx | BusState::CollisionTx => false,
        };
        if !state_allows {
            Some(Refusal::State)
        } else if len == 0 || len > MOST_HALF_BITS {
            Some(Refusal::Length)
        } else {
            None
        }
    }

    pub fn take_rx(&mut self) -> Option<RxCompletedEvent> {
        self.machine.take_completed_rx_event()
    }

    pub fn drives_high(&self) -> bool {
        self.line.driven_high.get()
    }

    pub fn is_busy(&self) -> bool {
        self.machine.tx_busy.load(Ordering::Acquire)
    }

    pub fn bus_state(&self) -> BusState {
        self.machine.bus_state()
    }

    pub fn rx_state(&self) -> RxState {
        self.machine.rx_state()
    }

    pub fn is_debouncing(&self) -> bool {
        self.machine.line_debouncing()
    }

    pub fn last_event(&self) -> &RxCompletedEvent {
        self.machine.last_rx_event()
    }
}

pub fn all_are_idle(stations: &[Station]) -> bool {
    let mut stations = stations.iter();
    stations.all(|station| station.bus_state() == BusState::Idle)
}
