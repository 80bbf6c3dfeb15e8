//! The port's code held to the Rust on values that no calls make (`unreached` builds and starts this): windows, searches and stations with
//! anything in their fields. Each is made in the Rust's types and copied to the port's; the same call is made on both, and what it leaves of
//! the Rust's is copied again. docs/DIFFERENCES.md names the values on which the two may part; on any other a difference ends the run.

#[allow(dead_code)]
mod random;
#[path = "rust/shims.rs"]
mod shims;

// The unchanged files name these from the crate's root.
use shims::{halfbits, platform};

use std::fmt::Debug;
use std::process::ExitCode;

use fsm::{any_station, copied_station};
use manchester::{any_search, any_window, copied_decode, copied_search, copied_window};
use random::Random;

/// The port's crates without their contracts, with open fields.
#[allow(dead_code, unused_imports)]
mod port {
    include!(env!("PORT"));
}

#[allow(dead_code)]
mod manchester {
    include!(env!("OXIDALI_MANCHESTER"));

    use crate::port::{lengths, search, window};
    use crate::{any_bytes, near, Random};

    pub fn any_window(random: &mut Random) -> SampleWindow {
        let usual = [0x0F, 0xF0, 0x1E, 0x3C, 0xC3, 0x55, 0xFF, 0x00, 0x01, 0x80];
        let bytes = match random.below(3) {
            0 => [random.pick(&usual); WINDOW_LEN],
            1 => [(); WINDOW_LEN].map(|_| random.pick(&usual[..2])),
            _ => any_bytes(random),
        };
        let any = [random.below(WINDOW_LEN + 1), random.below(1 << 16)];
        let len = random.pick(&[0, any[0], any[1], 60 + any[1] % 11]) as u16;
        let any = [random.below(8 * WINDOW_LEN + 1), random.below(1 << 16)];
        let eights = 8 * usize::from(len);
        let bits = random.pick(&[eights, any[0], any[1], any[1] % 20, 505 + any[1] % 31]) as u16;
        SampleWindow { bytes, len, bits }
    }

    pub fn any_search(random: &mut Random) -> BestPhaseSearch {
        let best = PhaseDecode {
            bit_len: near(&[0, 2, 3, 8, 16, 24, 31, 32, 33], random.byte(), random),
            phase_ticks: near(&[-2, -1, 0, 1, 2, -128], random.byte() as i8, random),
            score: near(&[0, 200, 400, 825], random.any() as u16, random),
            data: any_bytes(random),
        };
        BestPhaseSearch {
            preferred: BitLengths(near(&[0x0101_0100, 0x100], random.any() as u32, random)),
            step: near(&[0, 1, 2, 3, 4, 5, 6, 254, 255], random.byte(), random),
            best: random.one_in(2).then_some(best),
        }
    }

    pub fn copied_window(window: &SampleWindow) -> window::SampleWindow {
        let SampleWindow { bytes, len, bits } = *window;
        window::SampleWindow { bytes, len, bits }
    }

    pub fn copied_decode(decode: PhaseDecode) -> window::PhaseDecode {
        window::PhaseDecode {
            bit_len: decode.bit_len,
            phase_ticks: decode.phase_ticks,
            score: decode.score,
            data: u64::from_be_bytes(decode.data),
        }
    }

    pub fn copied_search(search: &BestPhaseSearch) -> search::BestPhaseSearch {
        search::BestPhaseSearch {
            preferred: lengths::BitLengths(search.preferred.0),
            step: search.step,
            best: search.best.map(copied_decode),
        }
    }
}

#[allow(dead_code)]
mod fsm {
    use crate::platform as dali2rust_platform;
    include!(env!("OXIDALI_FSM"));

    use crate::port::{self, capture::Samples};
    use crate::{any_bytes, near, Random};

    /// The sampled level and the driven one; high is true.
    type Levels = [bool; 2];

    impl BitbangHal for Levels {
        fn bus_is_high(&mut self) -> bool {
            self[0]
        }

        fn bus_set_high(&mut self) {
            self[1] = true;
        }

        fn bus_set_low(&mut self) {
            self[1] = false;
        }
    }

    pub type Station = DaliBitbangPhy<Levels>;

    /// Fields that both have under one name: the place that the port has it in, and numbers about the limits, or the cases of an enum.
    macro_rules! stations {
        (numbers { $($number:ident in $($group:ident).+: $about:expr;)* }
         flags { $($flag:ident in $($flagged:ident).+;)* }
         cases { $($case:ident in $($cased:ident).+: $of:ident $($name:ident)*;)* }) => {
            pub fn any_station(sampled: bool, random: &mut Random) -> Station {
                let mut s = Station::new([sampled, true]);
                $(s.$number = near(&$about, random.any() as _, random);)*
                $(s.$flag = random.one_in(2);)*
                $(s.$case = random.pick(&[$($of::$name),*]);)*
                s.hal[1] = random.one_in(2);
                s.tx_busy = AtomicBool::new(random.one_in(2));
                s.tx_hb_data = any_bytes(random);
                s.rx_data = any_bytes(random);
                s.last_rx.samples = any_bytes(random);
                s.last_rx.sample_count = near(&[0, 64], random.any() as u16, random);
                s.last_rx.pre_idle_ticks = random.byte();
                s
            }

            pub fn copied_station(s: &Station) -> port::fsm::DaliBitbangPhy {
                let mut p = port::fsm::DaliBitbangPhy::new();
                $(p.$($group).+.$number = s.$number.into();)*
                $(p.$($flagged).+.$flag = s.$flag;)*
                $(p.$($cased).+.$case = match s.$case { $($of::$name => port::machine::$of::$name),* };)*
                p.core.bus.driven_high = s.hal[1];
                p.core.bus.tx_busy = s.tx_busy.load(Ordering::Acquire);
                let [a, b, c, d, e, f, g] = s.tx_hb_data;
                p.tx_hb.tx_hb_bits = u64::from_be_bytes([a, b, c, d, e, f, g, 0]);
                p.rx_data = copied_samples(&s.rx_data);
                p.event_data = copied_samples(&s.last_rx.samples);
                p.event_rx.rx_pos = s.last_rx.sample_count;
                p.event_rx.rx_pre_idle = s.last_rx.pre_idle_ticks;
                p
            }
        };
    }

    stations! {
        numbers {
            high_run_ticks in core.runs: [0, 1, 15, 16, 65534, 65535];
            low_run_ticks in core.runs: [0, 1, 65534, 65535];
            idlecnt in core.bus: [0, 1, 254, 255, 256, 65534, 65535];
            rx_debounce in core.bus: [0, 0, 1, 1, 2, 254, 255];
            rx_pos in core.rx: [0, 1, 62, 63, 64, 65, 65534, 65535];
            rx_byte in core.rx: [0, 255];
            rx_bit_cnt in core.rx: [0, 6, 7, 7, 8, 255];
            rx_idle in core.rx: [0, 14, 15, 16, 254, 255];
            rx_pre_idle in core.rx: [0, 255];
            tx_pre_idle in core.told: [0];
            tx_collision in core.told: [0, 1, 2, 254, 255];
            tx_hb_cnt in core.tx: [0, 1, 21, 22, 53, 54, 55, 56, 57, 255];
            tx_sp_cnt in core.tx: [0, 1, 2, 3, 4, 11, 12, 13, 14, 254, 255];
            tx_hb_len in tx_hb: [0, 1, 22, 54, 55, 56, 57, 255];
            tx_high in core.tx: [0, 1, 2];
            tx_armed in core.tx: [0, 0, 1, 2, 3];
        }
        flags { tx_idle_after_break in core.told; tx_yielded in core.told; tx_answer in core.tx; }
        cases {
            bus_state in core.bus: BusState Idle Rx Tx CollisionTx;
            rx_state in core.told: RxState Empty Receiving Completed;
            collision_policy in core: CollisionPolicy Auto Off On;
        }
    }

    fn copied_samples(bytes: &[u8; DALI_RX_SAMPLE_BUF_LEN]) -> Samples {
        let bytes_at = bytes.iter().enumerate();
        let samples = bytes_at.fold(Samples::new(), |samples, (at, b)| samples.with_byte(at, *b));
        assert_eq!(samples.bytes(), *bytes, "the port's words are these bytes");
        samples
    }
}

/// One of the values about a limit, or any other, by halves.
fn near<T: Copy>(about: &[T], any: T, random: &mut Random) -> T {
    let near = random.pick(about);
    random.pick(&[near, any])
}

fn any_bytes<const N: usize>(random: &mut Random) -> [u8; N] {
    [(); N].map(|_| random.byte())
}

/// The kinds of values on which the two may part, as docs/DIFFERENCES.md has them.
const KINDS: [&str; 4] = [
    "windows of more than 512 bits",
    "windows without a byte",
    "windows longer than their store",
    "Idle stations that remember two low ticks or more and hear another",
];

/// How many values of each kind there were, and on how many of them the two parted.
type Tally = [[u64; 2]; KINDS.len()];

/// False for a difference on a value of no kind, which is printed.
fn holds<T>(tally: &mut Tally, value: &dyn Debug, kind: Option<usize>, [rust, port]: [T; 2]) -> bool
where
    T: PartialEq + Debug,
{
    if let Some(kind) = kind {
        tally[kind][0] += 1;
        tally[kind][1] += u64::from(rust != port);
    } else if rust != port {
        println!("DIFFERENCE on {value:?}\n  Rust: {rust:?}\n  port: {port:?}");
        return false;
    }
    true
}

/// A phase of any window, and a step of any search over it.
fn window_holds(random: &mut Random, tally: &mut Tally) -> bool {
    let rust_window = any_window(random);
    let mut rust = any_search(random);
    let (window, search) = (copied_window(&rust_window), copied_search(&rust));
    let most = near(&[32, 255], random.byte(), random);
    let phase = near(&[-3, -2, -1, 0, 1, 2, 3], random.byte() as i8, random);
    let is_of_kind = [
        window.bits > 512 && 8 * i32::from(window.len) > 512 + i32::from(phase),
        window.len == 0 && window.bits > 2 && phase < -2,
        usize::from(window.len) > window.bytes.len() && phase > 16,
    ];
    let kind = is_of_kind.iter().position(|is| *is);
    let decoded = copied_decode(rust_window.decode_phase(most, phase));
    let decodes = [decoded, window.decode_phase(most, phase)];
    let found = match rust.step(&rust_window) {
        manchester::PhaseSearch::Searching => None,
        manchester::PhaseSearch::Done(found) => Some(found.map(copied_decode)),
    };
    let stepped = search.step(window);
    let port_found = match stepped.answer {
        port::search::PhaseSearch::Searching => None,
        port::search::PhaseSearch::Done(answer) => Some(answer.found),
    };
    let steps = [(copied_search(&rust), found), (stepped.search, port_found)];
    holds(tally, &(window, most, phase), kind, decodes)
        && holds(tally, &(window, search), None, steps)
}

/// The station that the port's call leaves, and both answers as text: the two name their cases and fields alike.
macro_rules! told {
    ($told:ident: $call:expr => $rust:expr, $port:expr) => {{
        let $told = $call;
        let answers = [format!("{:?}", $rust), format!("{:?}", $port)];
        ($told.station, answers)
    }};
}

/// A call on any station.
fn call_holds(random: &mut Random, tally: &mut Tally) -> bool {
    let (call, high) = (random.below(10), random.one_in(2));
    let mut rust = any_station(high, random);
    let port = copied_station(&rust);
    let data = any_bytes(random);
    let length = near(&[0, 1, 22, 54, 55], random.byte(), random);
    let lent = halfbits::HalfBitBuffer { data, length };
    let given = port::halfbits::HalfBitBuffer { data, length };
    let (mut left, [rust_answer, answer]) = match call {
        0 => told!(it: port.start_tx(given) => rust.start_tx(&lent), it.answer.is_ok()),
        1 => told!(it: port.start_answer(given) => rust.start_answer(&lent), it.answer.is_ok()),
        2 => told!(it: port.poll_tx_state() => rust.poll_tx_state() as u8, it.answer as u8),
        3 => told!(it: port.take_idle_after_break() => rust.take_idle_after_break(), it.answer),
        4 => told!(it: port.take_completed_rx_event() =>
            rust.take_completed_rx_event(), it.answer),
        _ => told!(it: port.tick(high) =>
            { rust.tick(); it.station.core.bus.driven_high }, it.driven_high),
    };
    // Where the last byte of a capture stood is kept by the port alone.
    left.event_rx.rx_byte = 0;
    left.event_rx.rx_bit_cnt = 0;
    left.event_rx.rx_idle = 0;
    let is_idle = port.core.bus.bus_state == port::machine::BusState::Idle;
    let kind = (call > 4 && is_idle && port.core.bus.rx_debounce >= 2 && !high).then_some(3);
    let both = [(copied_station(&rust), rust_answer), (left, answer)];
    holds(tally, &(port, call, high, given), kind, both)
}

fn main() -> ExitCode {
    let words = std::env::args().skip(1);
    let numbers: Vec<u64> = words.flat_map(|word| word.parse()).collect();
    let [values, seed] = numbers[..] else {
        eprintln!("usage: unreached VALUES SEED");
        return ExitCode::from(2);
    };
    let mut random = Random::new(seed);
    let mut tally = Tally::default();
    for _ in 0..values {
        if !(window_holds(&mut random, &mut tally) && call_holds(&mut random, &mut tally)) {
            return ExitCode::FAILURE;
        }
    }
    println!("seed {seed}: {values} windows and searches, {values} stations; no others part than");
    for (kind, [seen, parted]) in KINDS.iter().zip(tally) {
        println!("  {parted} of {seen} {kind}");
    }
    ExitCode::SUCCESS
}
