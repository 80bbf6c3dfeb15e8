//! Frames on their way through one station, as lines, with the answers that document 01 states for them: no Rust has a part in those.

use std::iter::{once, repeat_n};

use crate::demands::stated::StatedScript;
use crate::protocol::answer::push_half_bits;
use crate::protocol::command::{
    push_byte_string_field, push_hex_field, push_number_field, Capture, Command, SAMPLES,
};
use crate::protocol::levels::{Levels, HIGH, LOW};
use crate::rust::encoder::{half_bits_of, wave, Frame, HALF_BIT_TICKS};
use crate::rust::station::{Call, Start};
use crate::scripts::captures::{bits_of, IDLE_TICKS};

pub const ARMED_TICKS: usize = 3;
/// The last of the four released half-bits lasts one tick, and on the tick after it the station is Idle.
const TICKS_PAST_WAVE: usize = 3 * HALF_BIT_TICKS + 1 + 1;
const KINDS: [&[u8]; 3] = [b"B8", b"F16", b"F24"];
const SCORE_OF_1: u16 = 25;
const SCORE_OF_0: u16 = 24;

/// The lines of a station that is new before the first of them.
pub struct FrameLines {
    pub script: StatedScript,
    frames: usize,
    /// The samples of the last capture, and past its count what earlier ones left.
    samples: [u8; SAMPLES],
    /// The high ticks that the station heard last, which in Idle are its idle count.
    high_run: usize,
}

impl FrameLines {
    pub fn new() -> Self {
        Self {
            script: StatedScript::default(),
            frames: 0,
            samples: [0; SAMPLES],
            high_run: 0,
        }
    }

    /// The frame is encoded, sent, then heard from another sender, and read. Both starts, and waves with and without a
    /// low tick just before them, come by turns; the pauses are of different lengths.
    pub fn push_frame(&mut self, data: &[u8]) {
        let turn = self.frames;
        self.frames += 1;
        let wave = wave(data);
        self.encode(data, turn);
        self.send(data, &wave, [Start::Tx, Start::Answer][turn % 2]);
        let low_tick = repeat_n(LOW, turn / 2 % 2);
        let pause = IDLE_TICKS - wave.high_ticks_at_end() + turn % 5;
        let heard: Levels = repeat_n(HIGH, turn % 9)
            .chain(low_tick)
            .chain(wave.iter())
            .chain(repeat_n(HIGH, pause))
            .collect();
        self.hear(data, heard);
    }

    fn push_ticks(&mut self, heard: Levels, driven: &Levels) {
        self.high_run = heard.high_ticks_at_end();
        let mut answer = b"d".to_vec();
        push_byte_string_field(&mut answer, driven.bytes());
        self.script.push(&Command::Ticks { levels: heard }, &answer);
    }

    fn encode(&mut self, data: &[u8], turn: usize) {
        let frame = Frame::of(data, turn as u8);
        let mut answer = Vec::new();
        push_half_bits(&mut answer, &half_bits_of(data));
        self.script.push(&Command::Encode { frame }, &answer);
    }

    /// Every tick hears the level that the tick before left.
    fn send(&mut self, data: &[u8], wave: &Levels, start: Start) {
        let driven: Levels = repeat_n(HIGH, ARMED_TICKS)
            .chain(wave.iter())
            .chain(repeat_n(HIGH, TICKS_PAST_WAVE))
            .collect();
        let left = once(HIGH).chain(driven.iter());
        let heard = left.take(driven.ticks()).collect();
        let half_bits = half_bits_of(data);
        self.script
            .push(&Command::Call(Call::Start { start, half_bits }), b"ok");
        self.push_ticks(heard, &driven);
        self.script.push(&Command::Call(Call::Poll), b"ok");
    }

    fn hear(&mut self, data: &[u8], heard: Levels) {
        let quiet_ticks = heard.iter().take_while(|high| *high == HIGH).count();
        let pre_idle_ticks = self.high_run + quiet_ticks;
        let capture = self.capture(&heard, quiet_ticks);
        let driven = Levels::of_runs(&[(HIGH, heard.ticks())]);
        self.push_ticks(heard, &driven);
        let mut event = b"event".to_vec();
        push_number_field(&mut event, i32::from(capture.count));
        push_number_field(&mut event, pre_idle_ticks as i32);
        push_hex_field(&mut event, &capture.samples);
        self.script.push(&Command::Call(Call::TakeRx), &event);
        self.read(data, capture);
    }

    /// From the first low tick to the sixteenth high one running: the bytes that are filled by then, and one of ones.
    fn capture(&mut self, heard: &Levels, quiet_ticks: usize) -> Capture {
        let end = heard.ticks() - heard.high_ticks_at_end() + IDLE_TICKS;
        let ticks: Levels = heard.iter().take(end).skip(quiet_ticks).collect();
        let filled = ticks.ticks() / 8;
        self.samples[..filled].copy_from_slice(&ticks.bytes()[..filled]);
        self.samples[filled] = 0xFF;
        Capture {
            count: filled as u16 + 1,
            samples: self.samples,
        }
    }

    fn read(&mut self, data: &[u8], capture: Capture) {
        let of_answer = capture.clone();
        self.script
            .push(&Command::Sniff { capture }, &reading(data));
        if let [byte] = data {
            let mut answer = b"byte".to_vec();
            push_hex_field(&mut answer, &[*byte]);
            self.script
                .push(&Command::Backward { capture: of_answer }, &answer);
        }
    }
}

/// How the capture of the frame's wave is read.
pub fn reading(data: &[u8]) -> Vec<u8> {
    let phase = 0;
    let mut reading = KINDS[data.len() - 1].to_vec();
    push_hex_field(&mut reading, data);
    push_number_field(&mut reading, phase);
    push_number_field(&mut reading, i32::from(score(data)));
    reading
}

fn score(data: &[u8]) -> u16 {
    let bits = bits_of(data).into_iter();
    let of_bits: u16 = bits
        .map(|bit| if bit { SCORE_OF_1 } else { SCORE_OF_0 })
        .sum();
    SCORE_OF_1 + of_bits
}
