//! Sequences on a line of stations.

use crate::fsm::BusState;
use crate::protocol::command::Command;
use crate::protocol::levels::Levels;
use crate::random::Random;
use crate::rust::encoder::half_bits_of;
use crate::rust::line::{BenchLine, MOST_STATIONS};
use crate::rust::station::{all_are_idle, Call, HalfBits, Start, Station, HALF_BIT_BYTES};
use crate::scripts::others::any_frame;
use crate::scripts::pairs::any_pair;
use crate::scripts::sequences::{any_half_bits, any_start, Bench, Sequences};

pub type LineLines = Sequences<BenchLine>;

impl LineLines {
    pub fn new() -> Self {
        Sequences::on(BenchLine::of_one())
    }
}

impl Bench for BenchLine {
    fn stations(&self) -> &[Station] {
        self.stations()
    }

    fn make(&mut self, command: &Command) -> String {
        self.make(command)
    }

    fn tick(&mut self, _: &mut Random) -> bool {
        let sampled = self.is_high();
        self.tick();
        sampled
    }

    fn ticks(sampled: Levels, _: &mut Random) -> Vec<Command> {
        let ticks = sampled.ticks();
        vec![Command::LineTicks { ticks }]
    }

    fn call(station: u8, call: Call) -> Command {
        Command::LineCall { station, call }
    }

    fn question(random: &mut Random) -> Command {
        match random.below(2) {
            0 => Command::LineLevel,
            _ => Command::LineTicks { ticks: 0 },
        }
    }

    fn add_episode(sequences: &mut LineLines, random: &mut Random) {
        if random.one_in(3) {
            sequences.give(new_line(random));
        }
        if random.one_in(3) {
            for station in 0..sequences.count() {
                sequences.give_policy(station, random);
            }
        }
        match random.below(40) {
            0..=23 => sequences.send(random),
            24..=27 => sequences.answer_in_mid_capture(random),
            28..=31 => sequences.pull_briefly(random),
            32 => sequences.answer_one_another(random),
            33..=38 => sequences.call_without_aim(random),
            _ if random.one_in(20) => {
                let stations = random.between(1, 2);
                sequences.give(Command::Line { stations });
                sequences.run_past_every_count(random);
            }
            _ => sequences.call_what_is_not_there(random),
        }
        sequences.ask(random);
    }
}

impl LineLines {
    /// Mostly until all are Idle, and often a pause. The silence before a capture is told up to 255.
    fn come_to_rest(&mut self, random: &mut Random) {
        if !random.one_in(4) {
            self.run_until(400, random, all_are_idle);
        }
        let [least, most] = random.weighted(&[(10, [0, 0]), (10, [1, 20]), (1, [200, 300])]);
        self.run(random.between(least, most), random);
    }

    fn run_until_state(&mut self, most: usize, station: u8, state: BusState, random: &mut Random) {
        self.run_until(most, random, |stations| {
            stations[usize::from(station)].bus_state() == state
        });
    }

    /// One station starts or more, between the same two ticks or one after the other.
    fn send(&mut self, random: &mut Random) {
        self.come_to_rest(random);
        let stores = any_stores(random);
        let senders = self.count().min(random.pick(&[1, 2, 2, 2, 3, 4]));
        let first = self.station(random);
        let together = random.one_in(2);
        for number in 0..senders {
            if number > 0 && !together {
                // The first half-bit is driven on the fourth tick, and who is armed on the next yields to it.
                let [least, most] = random.pick(&[[1, 240], [2, 5], [2, 5], [0, 10], [0, 10]]);
                self.run(random.between(least, most), random);
            }
            let half_bits = match random.below(8) {
                0 => any_half_bits(random),
                _ => stores[usize::from(number % 2)],
            };
            let sender = (first + number) % self.count();
            self.start(sender, any_start(random), half_bits, random);
        }
        self.go_on(random.between(40, 280), random);
        for station in 0..self.count() {
            let call = random.pick(&[Call::Poll, Call::TakeIdle, Call::TakeRx, Call::State]);
            self.call(station, call);
        }
    }

    /// A capture that an answer breaks off, and then a shorter one, in which the bytes left can be seen.
    fn answer_in_mid_capture(&mut self, random: &mut Random) {
        self.come_to_rest(random);
        let sender = self.station(random);
        let listener = self.station(random);
        self.start(sender, Start::Tx, half_bits_of(&any_frame(random)), random);
        self.run_until_state(60, listener, BusState::Rx, random);
        self.run(random.between(0, 100), random);
        self.start(listener, Start::Answer, any_half_bits(random), random);
        self.call(listener, Call::State);
        self.go_on(random.between(40, 280), random);
        self.come_to_rest(random);
        self.start(sender, Start::Tx, brief_pull(random), random);
        self.run(random.between(20, 50), random);
        self.call(listener, Call::State);
    }

    /// Pulls so short that the others remember one low tick and no more, or make the shortest captures; and
    /// mostly a start just then.
    fn pull_briefly(&mut self, random: &mut Random) {
        self.come_to_rest(random);
        let sender = self.station(random);
        let answerer = self.station(random);
        self.start(sender, any_start(random), brief_pull(random), random);
        self.run_until_state(40, sender, BusState::Idle, random);
        self.ask(random);
        match random.below(3) {
            0 => self.start_anything(answerer, random),
            1 => self.start(answerer, any_start(random), brief_pull(random), random),
            _ => {}
        }
        self.go_on(random.between(40, 280), random);
    }

    /// By turns and without a pause, so that a listener's capture is filled and goes on.
    fn answer_one_another(&mut self, random: &mut Random) {
        let stations = random.between(2, MOST_STATIONS);
        self.give(Command::Line { stations });
        for turn in 0..random.between(2, 4) {
            let mut half_bits = half_bits_of(&random.bytes(3));
            half_bits.len -= random.between(0, 4);
            self.start(turn % 2, Start::Answer, half_bits, random);
            self.run_until_state(300, turn % 2, BusState::Idle, random);
            self.ask(random);
        }
        self.run(random.between(0, 30), random);
        self.call(stations - 1, Call::State);
    }

    /// Every call is refused on a station that the line hasn't.
    fn call_what_is_not_there(&mut self, random: &mut Random) {
        let most = random.pick(&[self.count(), u8::MAX]);
        let number = random.between(self.count(), most);
        self.start_anything(number, random);
        self.give_policy(number, random);
        for call in [
            Call::Poll,
            Call::TakeIdle,
            Call::TakeRx,
            Call::Ack,
            Call::State,
        ] {
            self.call(number, call);
        }
    }
}

/// Now and then of a number that no line has.
fn new_line(random: &mut Random) -> Command {
    let stations = match random.below(12) {
        0 => random.pick(&[0, MOST_STATIONS + 1, 127, u8::MAX]),
        _ => random.pick(&[1, 2, 2, 3, 3, 4, 4]),
    };
    Command::Line { stations }
}

/// Two stores of which one differs from the other in frame, bit or half-bit, or not at all.
fn any_stores(random: &mut Random) -> [HalfBits; 2] {
    if !random.one_in(4) {
        return any_pair(&[1, 2, 3], random).map(|data| half_bits_of(&data));
    }
    let first = any_half_bits(random);
    let mut second = first;
    let half_bit = random.below(8 * HALF_BIT_BYTES);
    second.data[half_bit / 8] ^= 0x80 >> (half_bit % 8);
    [first, second]
}

/// A few half-bits, the last of them mostly low.
pub fn brief_pull(random: &mut Random) -> HalfBits {
    let len = random.pick(&[1, 1, 1, 2, 2, 3, 4, 5]);
    let mut data = [0; HALF_BIT_BYTES];
    data[0] = match random.below(4) {
        0 => random.byte(),
        1 => 0xFF,
        _ => 0x80 >> (len - 1),
    };
    HalfBits { len, data }
}
