//! The protocol answered over the unchanged Rust, and the encoder's commands over our own.

use crate::fsm::{
    restart_gate_for, settle_ticks_on_wire, BusState, RxCompletedEvent, RxState, TxPollResult,
};
use crate::manchester::{
    is_better_decode, sample_weight, BestPhaseSearch, BitLengths, IsrDecode, PhaseDecode,
    PhaseSearch, SampleWindow, DECODED_BYTES,
};
use crate::protocol::command::{byte_string, Capture, Command, Operand, Rank};
use crate::protocol::levels::Levels;
use crate::rust::line::BenchLine;
use crate::rust::original::rx_decode::{RxDecode, SniffedFrame};
use crate::rust::station::{Call, HalfBits, Refusal, Station};

const MOST_STEPS: u8 = 5;

/// What stays from one line to the next.
pub struct Session {
    search: CountedSearch,
    station: Station,
    line: BenchLine,
}

impl Session {
    pub fn new() -> Self {
        Self {
            search: CountedSearch::new(0),
            station: Station::new(),
            line: BenchLine::of_one(),
        }
    }

    pub fn line(&self) -> &BenchLine {
        &self.line
    }

    /// Adds the answer to one line, and its LF; gives the command, and none for a bad line.
    pub fn answer(&mut self, line: &[u8], out: &mut Vec<u8>) -> Option<Command> {
        let command = Command::read(line);
        let answer = command.as_ref().map(|command| self.answer_to(command));
        out.extend_from_slice(answer.as_deref().unwrap_or("?").as_bytes());
        out.push(b'\n');
        command
    }

    fn answer_to(&mut self, command: &Command) -> String {
        match command {
            Command::Weight { sample: [sample] } => sample_weight(*sample).text(),
            Command::Phase {
                max,
                phase,
                capture,
            } => format!(
                "phase {}",
                window(capture).decode_phase(*max, *phase).text()
            ),
            Command::Search { mask, capture } => CountedSearch::new(*mask).run(&window(capture)),
            Command::Steps { mask, k, capture } => steps(*mask, *k, &window(capture)),
            Command::BsNew { mask } => {
                self.search = CountedSearch::new(*mask);
                ok()
            }
            Command::BsStep { capture } => match self.search.step(&window(capture)) {
                PhaseSearch::Done(Some(decode)) => format!("found {}", decode.text()),
                step => step_text(step),
            },
            Command::BsRun { capture } => self.search.run(&window(capture)),
            Command::Better {
                mask,
                candidate,
                current,
            } => is_better_decode(&ranked(candidate), &ranked(current), lengths(*mask)).text(),
            Command::Lengths { bytes, n } => BitLengths::of(bytes).contains(*n).text(),
            Command::Sniff { capture } => sniffed(&event(capture)),
            Command::SniffDec { found } => sniffed(&empty_event_that_holds(*found)),
            Command::Backward { capture } => match event(capture).decode_backward_byte() {
                None => "none".to_string(),
                Some(byte) => format!("byte {byte:02x}"),
            },
            Command::LowRun { capture } => event(capture).longest_dominant_run_ticks().text(),
            Command::Held { capture } => event(capture).is_line_held().text(),
            Command::Encode { frame } => match frame.encode() {
                Ok(half_bits) => half_bits.text(),
                Err(refusal) => refused(refusal),
            },
            Command::EncodeBuf { frame, buffer } => {
                let mut buffer = buffer.clone();
                let told = match frame.encode_into(&mut buffer) {
                    Ok(half_bits) => half_bits.text(),
                    Err(refusal) => refused(refusal),
                };
                format!("{told} {}", buffer.text())
            }
            Command::Settle { ticks, lead } => settle_ticks_on_wire(*ticks, *lead).text(),
            Command::Gate { ticks } => restart_gate_for(*ticks).text(),
            Command::New | Command::Tick { .. } | Command::Ticks { .. } | Command::Call(_) => {
                self.station.make(command)
            }
            Command::Line { .. }
            | Command::LineTicks { .. }
            | Command::LineLevel
            | Command::LineCall { .. } => self.line.make(command),
        }
    }
}

impl Station {
    /// Does what a command on the station says, and gives the answer; nothing for another command.
    pub fn make(&mut self, command: &Command) -> String {
        match command {
            Command::New => {
                *self = Self::new();
                ok()
            }
            Command::Tick { high } => format!("d {}", self.tick(*high).text()),
            Command::Ticks { levels } => {
                let driven: Levels = levels.iter().map(|high| self.tick(high)).collect();
                format!("d {}", byte_string(driven.bytes()))
            }
            Command::Call(call) => self.make_call(call),
            _ => String::new(),
        }
    }

    fn make_call(&mut self, call: &Call) -> String {
        match call {
            Call::Policy { policy } => {
                self.machine.set_collision_policy(*policy);
                ok()
            }
            Call::Start { start, half_bits } => match self.start(*start, half_bits) {
                None => ok(),
                Some(refusal) => refused(refusal),
            },
            Call::Poll => poll_word(self.machine.poll_tx_state()).to_string(),
            Call::TakeIdle => self.machine.take_idle_after_break().text(),
            Call::TakeRx => match self.take_rx() {
                None => "none".to_string(),
                Some(event) => format!("event {}", event_text(&event)),
            },
            Call::Ack => {
                self.machine.acknowledge_rx_frame();
                ok()
            }
            Call::State => state_text(self),
        }
    }
}

impl BenchLine {
    /// Does what a command on the line says, and gives the answer; nothing for another command.
    pub fn make(&mut self, command: &Command) -> String {
        match command {
            Command::Line { stations } => match BenchLine::of(*stations) {
                Ok(line) => {
                    *self = line;
                    ok()
                }
                Err(refusal) => refused(refusal),
            },
            Command::LineTicks { ticks } => {
                format!("l {}", byte_string(self.ticks(*ticks).bytes()))
            }
            Command::LineLevel => format!("l {}", self.is_high().text()),
            Command::LineCall { station, call } => match self.station_mut(*station) {
                Ok(station) => station.make_call(call),
                Err(refusal) => refused(refusal),
            },
            _ => String::new(),
        }
    }
}

/// The answers to a whole script; its last line may lack the LF.
pub fn answers(script: &[u8]) -> Vec<u8> {
    let mut session = Session::new();
    let mut answers = Vec::new();
    for line in script.split_inclusive(|byte| *byte == b'\n') {
        session.answer(line.strip_suffix(b"\n").unwrap_or(line), &mut answers);
    }
    answers
}

/// The Rust's search beside the count of steps, which the Rust has not.
#[derive(Clone, Copy)]
struct CountedSearch {
    search: BestPhaseSearch,
    steps: u8,
}

impl CountedSearch {
    fn new(mask: u32) -> Self {
        Self {
            search: BestPhaseSearch::new(lengths(mask)),
            steps: 0,
        }
    }

    fn step(&mut self, window: &SampleWindow) -> PhaseSearch {
        self.steps = MOST_STEPS.min(self.steps + 1);
        self.search.step(window)
    }

    /// What the Rust's own `run` finds, and the steps that a copy needs until it is done.
    fn run(self, window: &SampleWindow) -> String {
        let mut stepped = self;
        while stepped.step(window) == PhaseSearch::Searching {}
        let steps = stepped.steps;
        match self.search.run(window) {
            Some(decode) => format!("found {steps} {}", decode.text()),
            None => format!("nothing {steps}"),
        }
    }
}

fn window(capture: &Capture) -> SampleWindow {
    SampleWindow::of_capture(&capture.samples, capture.count)
}

fn lengths(mask: u32) -> BitLengths {
    let members: Vec<u8> = (0..32).filter(|length| mask >> length & 1 != 0).collect();
    BitLengths::of(&members)
}

fn ranked(rank: &Rank) -> PhaseDecode {
    PhaseDecode {
        bit_len: rank.len,
        phase_ticks: rank.phase,
        score: rank.score,
        data: [0; DECODED_BYTES],
    }
}

/// An event with this capture, and no search made of it yet.
fn event(capture: &Capture) -> RxCompletedEvent {
    RxCompletedEvent {
        samples: capture.samples,
        sample_count: capture.count,
        ..RxCompletedEvent::new()
    }
}

fn empty_event_that_holds(found: Option<PhaseDecode>) -> RxCompletedEvent {
    RxCompletedEvent {
        isr_decode: IsrDecode::Decoded(found),
        ..RxCompletedEvent::new()
    }
}

fn ok() -> String {
    "ok".to_string()
}

fn refused(refusal: Refusal) -> String {
    format!("refused {}", refusal as u8)
}

fn steps(mask: u32, k: u8, window: &SampleWindow) -> String {
    let mut search = BestPhaseSearch::new(lengths(mask));
    let steps = (0..k).map(|_| format!(" | {}", step_text(search.step(window))));
    format!("steps {k}{}", steps.collect::<String>())
}

fn step_text(step: PhaseSearch) -> String {
    match step {
        PhaseSearch::Searching => "searching".to_string(),
        PhaseSearch::Done(None) => "nothing".to_string(),
        PhaseSearch::Done(Some(decode)) => decode.text(),
    }
}

/// The Rust has two calls for a sniffed reading. Were they to part, neither frame could stand for the
/// Rust's answer, so the run ends there.
fn sniffed(event: &RxCompletedEvent) -> String {
    let decode = event.decode_sniffed_with_phase();
    let frame = event.decode_sniffed();
    assert_eq!(
        frame, decode.frame,
        "the Rust's two calls for a sniffed reading gave different frames"
    );
    let told = match frame {
        SniffedFrame::Backward8(byte) => format!("B8 {byte:02x}"),
        SniffedFrame::Forward16(word) => format!("F16 {word:04x}"),
        SniffedFrame::Forward24(bytes) => format!("F24 {}", bytes.text()),
        SniffedFrame::UnsupportedLength(length) => format!("LEN {length}"),
        SniffedFrame::DecodeFailed => "FAIL -".to_string(),
    };
    format!("{told} {} {}", decode.phase_ticks, decode.score)
}

pub fn push_half_bits(out: &mut Vec<u8>, half_bits: &HalfBits) {
    out.extend_from_slice(half_bits.text().as_bytes());
}

fn state_text(station: &Station) -> String {
    let machine = &station.machine;
    format!(
        "state {} {} {} {} {} {} {} {} {} {}",
        bus_word(machine.bus_state()),
        rx_word(machine.rx_state()),
        machine.line_debouncing().text(),
        machine.idle_tick_count(),
        machine.bus_low_run_ticks(),
        machine.tx_pre_idle_ticks(),
        machine.rx_pre_idle_ticks(),
        station.is_busy().text(),
        station.drives_high().text(),
        event_text(machine.last_rx_event())
    )
}

fn event_text(event: &RxCompletedEvent) -> String {
    let samples = event.samples.text();
    format!("{} {} {samples}", event.sample_count, event.pre_idle_ticks)
}

fn poll_word(result: TxPollResult) -> &'static str {
    match result {
        TxPollResult::Ok => "ok",
        TxPollResult::Collision => "collision",
        TxPollResult::Transmitting => "transmitting",
        TxPollResult::Yielded => "yielded",
    }
}

fn bus_word(state: BusState) -> &'static str {
    match state {
        BusState::Idle => "idle",
        BusState::Rx => "rx",
        BusState::Tx => "tx",
        BusState::CollisionTx => "collision",
    }
}

fn rx_word(state: RxState) -> &'static str {
    match state {
        RxState::Empty => "empty",
        RxState::Receiving => "receiving",
        RxState::Completed => "completed",
    }
}
