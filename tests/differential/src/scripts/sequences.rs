//! Sequences of commands on stations as real use makes them, and misuse. They are tried on a bench of the
//! generator's own while they are made, so that calls come at chosen moments.

use std::collections::VecDeque;

use crate::fsm::BusState;
use crate::protocol::command::{Command, MOST_TICKS, POLICIES};
use crate::protocol::levels::Levels;
use crate::random::Random;
use crate::rust::encoder::half_bits_of;
use crate::rust::station::{all_are_idle, Call, HalfBits, Start, Station, MOST_HALF_BITS};
use crate::scripts::others::any_frame;

/// One station that others pull about, or a line of stations.
pub trait Bench: Sized {
    fn stations(&self) -> &[Station];

    /// Does what the command says, and gives the answer.
    fn make(&mut self, command: &Command) -> String;

    /// Makes a tick, and gives the level that it sampled.
    fn tick(&mut self, random: &mut Random) -> bool;

    /// The commands that make ticks which sample these levels.
    fn ticks(sampled: Levels, random: &mut Random) -> Vec<Command>;

    fn call(station: u8, call: Call) -> Command;

    /// A question that is no call.
    fn question(random: &mut Random) -> Command;

    /// Plans what others do to a send that has begun.
    fn interfere(&mut self, _sent: &HalfBits, _random: &mut Random) {}

    /// Adds some commands.
    fn add_episode(sequences: &mut Sequences<Self>, random: &mut Random);
}

pub struct Sequences<B> {
    pub bench: B,
    queued: VecDeque<Command>,
}

impl<B: Bench> Sequences<B> {
    pub fn on(bench: B) -> Self {
        Self {
            bench,
            queued: VecDeque::new(),
        }
    }

    pub fn next(&mut self, random: &mut Random) -> Command {
        loop {
            match self.queued.pop_front() {
                Some(command) => return command,
                None => B::add_episode(self, random),
            }
        }
    }

    /// Does it to the own bench, adds it, and gives the answer.
    pub fn give(&mut self, command: Command) -> String {
        let answer = self.bench.make(&command);
        self.queued.push_back(command);
        answer
    }

    pub fn call(&mut self, station: u8, call: Call) -> String {
        self.give(B::call(station, call))
    }

    pub fn give_policy(&mut self, station: u8, random: &mut Random) {
        let policy = random.pick(&POLICIES);
        self.call(station, Call::Policy { policy });
    }

    pub fn start(&mut self, station: u8, start: Start, half_bits: HalfBits, random: &mut Random) {
        if self.call(station, Call::Start { start, half_bits }) == "ok" {
            self.bench.interfere(&half_bits, random);
        }
    }

    pub fn start_anything(&mut self, station: u8, random: &mut Random) {
        self.start(station, any_start(random), any_half_bits(random), random);
    }

    pub fn count(&self) -> u8 {
        self.bench.stations().len() as u8
    }

    pub fn station(&self, random: &mut Random) -> u8 {
        random.between(0, self.count() - 1)
    }

    pub fn run(&mut self, ticks: usize, random: &mut Random) {
        self.run_until(ticks, random, |_| false);
    }

    /// Ticks until the stations are as they should be, but no more than `most`; gives how many of them are
    /// left.
    pub fn run_until(
        &mut self,
        most: usize,
        random: &mut Random,
        reached: impl Fn(&[Station]) -> bool,
    ) -> usize {
        let mut left = most;
        while left > 0 && !reached(self.bench.stations()) {
            let mut sampled = Levels::default();
            while sampled.ticks() < left.min(MOST_TICKS) && !reached(self.bench.stations()) {
                sampled.push(self.bench.tick(random));
            }
            left -= sampled.ticks();
            self.queued.extend(B::ticks(sampled, random));
        }
        left
    }

    /// Calls that start nothing, at whatever moment it is.
    pub fn ask(&mut self, random: &mut Random) {
        for _ in 0..random.below(4) {
            if random.one_in(16) {
                self.give(B::question(random));
                continue;
            }
            let call = random.weighted(&[
                (9, Call::State),
                (6, Call::Poll),
                (3, Call::TakeIdle),
                (4, Call::TakeRx),
                (2, Call::Ack),
            ]);
            self.call(self.station(random), call);
        }
    }

    /// Ticks in stretches, with calls between them.
    pub fn go_on(&mut self, ticks: usize, random: &mut Random) {
        let mut left = ticks;
        while left > 0 {
            let longest = random.pick(&[4, 20, 200]);
            let stretch = match random.below(3) {
                0 => left,
                _ => left.min(random.between(1, longest)),
            };
            left -= stretch;
            left += match random.below(4) {
                0 => self.run_until(stretch, random, some_breaks),
                1 => self.run_until(stretch, random, all_are_idle),
                _ => self.run_until(stretch, random, |_| false),
            };
            self.ask(random);
            match random.below(16) {
                0 => self.give_policy(self.station(random), random),
                1 => self.start_anything(self.station(random), random),
                // Mostly that's enough once all are Idle again.
                2..=11 if all_are_idle(self.bench.stations()) => return,
                _ => {}
            }
        }
    }

    pub fn call_without_aim(&mut self, random: &mut Random) {
        for _ in 0..random.between(3, 20) {
            let station = self.station(random);
            match random.below(10) {
                0 | 1 => self.start_anything(station, random),
                2 => self.give_policy(station, random),
                3..=5 => self.run(random.between(0, 6), random),
                _ => self.ask(random),
            }
        }
    }

    /// Longer than the sixteen bits of the counts of equal levels, and then a send through which they go on.
    pub fn run_past_every_count(&mut self, random: &mut Random) {
        self.run(17 * MOST_TICKS, random);
        let station = self.station(random);
        self.call(station, Call::State);
        self.start_anything(station, random);
        self.run(random.between(4, 240), random);
        self.call(station, Call::State);
    }
}

fn some_breaks(stations: &[Station]) -> bool {
    let mut stations = stations.iter();
    stations.any(|station| station.bus_state() == BusState::CollisionTx)
}

pub fn any_start(random: &mut Random) -> Start {
    random.pick(&[Start::Tx, Start::Tx, Start::Answer])
}

/// Mostly a frame's, else any, and now and then more than a station takes.
pub fn any_half_bits(random: &mut Random) -> HalfBits {
    let mut half_bits = half_bits_of(&any_frame(random));
    match random.below(12) {
        0 => half_bits.len = random.byte(),
        1 => half_bits.len = random.pick(&[0, 1, 53, 54, 55, 56, 57, 255]),
        2..=4 => {
            half_bits.len = random.between(1, MOST_HALF_BITS);
            half_bits
                .data
                .copy_from_slice(&random.any().to_be_bytes()[1..]);
        }
        5 => {
            half_bits.len = random.pick(&[1, 2, 3, 8, 21, 22, 23]);
            half_bits.data.fill(random.pick(&[0x00, 0xFF, 0xAA, 0x33]));
        }
        _ => {}
    }
    half_bits
}
