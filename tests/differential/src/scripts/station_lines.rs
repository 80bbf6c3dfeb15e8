//! Sequences on one station: it hears what it sends, or not, and what others do to its line.

use crate::fsm::{BusState, RxState};
use crate::protocol::command::{Command, MOST_TICKS};
use crate::protocol::levels::{Levels, HIGH, LOW};
use crate::random::Random;
use crate::rust::encoder::{half_bits_of, HALF_BIT_TICKS};
use crate::rust::station::{all_are_idle, Call, HalfBits, Station};
use crate::scripts::others::{any_frame, Others};
use crate::scripts::sequences::{Bench, Sequences};

/// The one station's number, which its commands don't say.
const IT: u8 = 0;

pub struct LoneStation {
    /// Whether most ticks come in long lines, or lines are of all lengths.
    ticks_are_long: bool,
    station: Station,
    others: Others,
    /// Whether the level that the station drives is among those that make up its line.
    hears_itself: bool,
}

pub type StationLines = Sequences<LoneStation>;

impl StationLines {
    pub fn new(ticks_are_long: bool) -> Self {
        Sequences::on(LoneStation {
            ticks_are_long,
            station: Station::new(),
            others: Others::default(),
            hears_itself: true,
        })
    }
}

impl Bench for LoneStation {
    fn stations(&self) -> &[Station] {
        std::slice::from_ref(&self.station)
    }

    fn make(&mut self, command: &Command) -> String {
        self.station.make(command)
    }

    fn tick(&mut self, random: &mut Random) -> bool {
        let others_high = self.others.next_level(random);
        let high = others_high && (!self.hears_itself || self.station.drives_high());
        let before = self.station.bus_state();
        self.station.tick(high);
        let has_clashed = self.station.bus_state() == BusState::CollisionTx;
        if has_clashed && before == BusState::Tx && !random.one_in(4) {
            self.pull_about_the_sample_after_the_break(random);
        }
        high
    }

    fn ticks(mut sampled: Levels, random: &mut Random) -> Vec<Command> {
        let one_by_one = match sampled.ticks() {
            1..=3 => !random.one_in(4),
            4..=40 => random.one_in(20),
            _ => false,
        };
        if one_by_one {
            return sampled.iter().map(|high| Command::Tick { high }).collect();
        }
        if random.one_in(2) {
            sampled.set_fill(random.byte());
        }
        vec![Command::Ticks { levels: sampled }]
    }

    fn call(_: u8, call: Call) -> Command {
        Command::Call(call)
    }

    fn question(_: &mut Random) -> Command {
        let levels = Levels::default();
        Command::Ticks { levels }
    }

    /// The first tick is the one after the start. The half-bit `k` is driven on tick 4 + 4k, and the tick
    /// after the one that drives the last half-bit ends the send.
    fn interfere(&mut self, sent: &HalfBits, random: &mut Random) {
        let len = usize::from(sent.len);
        let end = HALF_BIT_TICKS * len;
        let driven_at = HALF_BIT_TICKS * random.between(1, len);
        self.others.forget();
        self.others.are_busy = random.one_in(3);
        match random.below(16) {
            0..=2 => self.others.plan(HIGH, end + 20),
            3 | 4 => self.pull(random.between(1, 3), random.between(1, 8), random),
            5 | 6 => self.pull(driven_at + random.between(2, 3), 1, random),
            7 | 8 => self.pull(driven_at, random.between(1, 5), random),
            9 => self.pull(driven_at + 2, random.between(1, 40), random),
            10 => self.pull(end + 3 - random.below(7), random.between(1, 4), random),
            11..=13 => self.send_against(sent, random),
            _ => self.others.are_busy = true,
        }
    }

    fn add_episode(sequences: &mut StationLines, random: &mut Random) {
        if random.one_in(5) {
            sequences.give(Command::New);
        }
        if random.one_in(4) {
            sequences.give_policy(IT, random);
        }
        sequences.bench.hears_itself = !random.one_in(4);
        let is_long = sequences.bench.ticks_are_long;
        match random.below(40) {
            0 if random.one_in(if is_long { 8 } else { 15 }) => sequences.hear_nothing_new(random),
            0..=13 => sequences.listen(random),
            14..=36 => sequences.send(random),
            _ => sequences.call_without_aim(random),
        }
        sequences.ask(random);
    }
}

impl LoneStation {
    /// Plans a pull from this tick on, counted from 1.
    fn pull(&mut self, tick: usize, ticks: usize, random: &mut Random) {
        self.others.plan(HIGH, tick - 1);
        self.others.plan(LOW, ticks);
        self.others.plan(HIGH, random.between(1, 60));
    }

    /// Another station sends too, at about the same time: another frame, or one that begins alike.
    fn send_against(&mut self, sent: &HalfBits, random: &mut Random) {
        let mut other = match random.below(3) {
            0 => *sent,
            _ => half_bits_of(&any_frame(random)),
        };
        if random.one_in(2) {
            let half_bit = random.below(usize::from(sent.len));
            other.data[half_bit / 8] ^= 0x80 >> (half_bit % 8);
        }
        self.others
            .plan(HIGH, 3 + random.pick(&[0, 0, 0, 1, 2, 3, 5, 8]));
        self.others.plan_half_bits(&other);
        self.others.plan(HIGH, random.between(14, 40));
    }

    /// The station lets go on the thirteenth tick after the clash and samples on the fourteenth.
    fn pull_about_the_sample_after_the_break(&mut self, random: &mut Random) {
        self.others.forget();
        self.others.plan(HIGH, 12);
        for _ in 13..=15 {
            self.others.plan(random.one_in(2), 1);
        }
        let after = random.between(0, 30);
        self.others.plan(random.one_in(2), after);
    }

    /// Plans what brings the station to a moment, and gives how to know it.
    fn plan_moment(&mut self, random: &mut Random) -> fn(&[Station]) -> bool {
        self.others.forget();
        self.others.are_busy = true;
        match random.below(12) {
            0..=4 => {
                self.others.are_busy = false;
                all_are_idle
            }
            5 | 6 => {
                self.others.plan(HIGH, random.between(0, 30));
                |stations| all_are_idle(stations) && stations[0].is_debouncing()
            }
            7 | 8 => {
                self.others.plan(HIGH, random.between(16, 40));
                self.others.plan_frame(random);
                if random.one_in(8) {
                    self.others.plan(LOW, random.between(380, 560));
                }
                |stations| stations[0].bus_state() == BusState::Rx
            }
            9 | 10 => {
                self.others.plan_frame(random);
                self.others.plan(HIGH, 24);
                |stations| stations[0].rx_state() == RxState::Completed
            }
            _ => |_| true,
        }
    }
}

impl StationLines {
    fn run_a_stretch(&mut self, random: &mut Random) {
        let [least, most] = if self.bench.ticks_are_long {
            random.weighted(&[(2, [0, 40]), (1, [40, 400]), (9, [1000, MOST_TICKS])])
        } else {
            random.weighted(&[(1, [0, 3]), (4, [1, 16]), (5, [16, 80]), (2, [80, 700])])
        };
        self.run(random.between(least, most), random);
    }

    fn listen(&mut self, random: &mut Random) {
        self.bench.others.are_busy = true;
        for _ in 0..random.between(1, 5) {
            self.run_a_stretch(random);
            self.ask(random);
        }
    }

    /// A start at a chosen moment of the station, or some ticks after it.
    fn send(&mut self, random: &mut Random) {
        let is_reached = self.bench.plan_moment(random);
        self.run_until(1000, random, is_reached);
        let later = random.weighted(&[(7, 0), (1, 3), (2, 40), (2, 120), (1, 600)]);
        self.run(random.between(0, later), random);
        self.start_anything(IT, random);
        self.ask(random);
        self.go_on(random.between(20, 260), random);
        if self.bench.ticks_are_long {
            self.run_a_stretch(random);
        } else if random.one_in(3) {
            self.capture_something_short(random);
        }
    }

    /// In a short capture the bytes can be seen that one left which a start broke off.
    fn capture_something_short(&mut self, random: &mut Random) {
        let others = &mut self.bench.others;
        others.forget();
        others.plan(HIGH, random.between(1, 40));
        others.plan(LOW, random.between(1, 20));
        others.plan(HIGH, random.between(15, 20));
        others.are_busy = false;
        self.run(random.between(30, 90), random);
        self.call(IT, Call::State);
    }

    fn hear_nothing_new(&mut self, random: &mut Random) {
        self.bench.others.forget();
        self.bench.others.are_busy = false;
        let ticks = random.between(65_500, 70_000);
        self.bench.others.plan(!random.one_in(3), ticks);
        self.run_past_every_count(random);
    }
}
