//! Runs of demand 3 on a line, one after the other, as lines, with what the demand states of their answers.

use crate::demands::demand::{Clash, Sent, DEMANDED_TICKS};
use crate::demands::frame_lines::reading;
use crate::demands::stated::StatedScript;
use crate::fsm::{CollisionPolicy, RxState};
use crate::protocol::command::{
    push_byte_string_field, push_hex_field, push_number_field, Capture, Command, MOST_TICKS,
    POLICIES,
};
use crate::protocol::levels::Levels;
use crate::random::Random;
use crate::runs::program::hex;
use crate::rust::line::{BenchLine, MOST_STATIONS};
use crate::rust::station::{Call, HalfBits, Start, HALF_BIT_BYTES};
use crate::scripts::line_lines::brief_pull;
use crate::scripts::others::any_frame;
use crate::scripts::pairs::any_pair;
use crate::scripts::sequences::any_half_bits;

const WATCHING: [CollisionPolicy; 2] = [CollisionPolicy::Auto, CollisionPolicy::On];
/// Stands for what the demand says of an answer of which it says nothing.
const NOTHING: &[u8] = b"";

/// How much is run, and what the stations bring along to the starts.
#[derive(Clone, Copy, Default)]
pub struct Figures {
    pub lone: usize,
    pub pairs: usize,
    pub equal_pairs: usize,
    pub lines: usize,
    pub ticks: usize,
    pub station_ticks: usize,
    pub debouncing: usize,
    pub untaken: usize,
}

impl Figures {
    pub fn text(&self) -> String {
        format!(
            "{} lone senders and {} pairs, {} of them equal (with {} debouncing stations and {} captures not taken at the starts), \
             {} lines and {} line ticks ({} by its stations)",
            self.lone,
            self.pairs,
            self.equal_pairs,
            self.debouncing,
            self.untaken,
            self.lines,
            self.ticks,
            self.station_ticks
        )
    }
}

/// A call on a station just after a tick, counted from the starts, and what the demand states of its answer.
struct Moment<'a> {
    tick: usize,
    station: u8,
    call: Call,
    stated: &'a [u8],
}

/// The lines of a program that is new before the first of them. A run mostly begins on the line that the one before left.
pub struct DemandLines {
    pub script: StatedScript,
    pub figures: Figures,
    /// Where the commands are tried while they are made.
    line: BenchLine,
}

impl DemandLines {
    /// The figures of the lines before these go on.
    pub fn new(figures: Figures) -> Self {
        Self {
            script: StatedScript::default(),
            figures,
            line: BenchLine::of_one(),
        }
    }

    pub fn push_lone(&mut self, random: &mut Random) {
        self.figures.lone += 1;
        let first_line = self.script.lines;
        self.come_to_rest_with(1, random);
        let sender = self.station(random);
        self.set_policies(&[], random);
        let data = any_frame(random);
        self.name(first_line, &[&data]);
        self.send(&Sent::of(&data), &[sender], random);
    }

    pub fn push_pair(&mut self, random: &mut Random) {
        self.figures.pairs += 1;
        let first_line = self.script.lines;
        self.come_to_rest_with(2, random);
        let senders = self.two_stations(random);
        self.set_policies(&senders, random);
        let frames = any_pair(&[2, 3], random);
        self.name(first_line, &[&frames[0], &frames[1]]);
        let [first, second] = frames.each_ref().map(|data| Sent::of(data));
        match Clash::of([first.half_bits, second.half_bits]) {
            None => {
                self.figures.equal_pairs += 1;
                self.send(&first, &senders, random);
            }
            Some(clash) => self.clash(&clash, senders, random),
        }
    }

    fn name(&mut self, first_line: usize, frames: &[&[u8]]) {
        let sent: Vec<String> = frames.iter().map(|data| hex(data)).collect();
        let number = self.figures.lone + self.figures.pairs;
        let name = format!("run {number}, {}", sent.join(" against "));
        self.script.parts.push((first_line, name));
    }

    fn count(&self) -> u8 {
        self.line.stations().len() as u8
    }

    fn station(&self, random: &mut Random) -> u8 {
        random.below(usize::from(self.count())) as u8
    }

    fn two_stations(&self, random: &mut Random) -> [u8; 2] {
        let first = self.station(random);
        let further = random.between(1, i32::from(self.count()) - 1) as u8;
        [first, (first + further) % self.count()]
    }

    /// Those who have to watch get a policy that does. Of the others, each gets any or keeps its own.
    fn set_policies(&mut self, watching: &[u8], random: &mut Random) {
        for station in 0..self.count() {
            let policy = if watching.contains(&station) {
                random.pick(&WATCHING)
            } else if random.one_in(2) {
                random.pick(&POLICIES)
            } else {
                continue;
            };
            self.call(station, Call::Policy { policy }, b"ok");
        }
    }

    /// Adds the command's line, and one of what is stated of its answer.
    fn push(&mut self, command: &Command, stated: &[u8]) {
        self.figures.lines += 1;
        self.figures.ticks += command.ticks();
        self.figures.station_ticks += command.ticks() * self.line.stations().len();
        self.script.push(command, stated);
    }

    /// Does it to the own line, and adds it.
    fn make(&mut self, command: &Command, stated: &[u8]) {
        self.line.make(command);
        self.push(command, stated);
    }

    fn call(&mut self, station: u8, call: Call, stated: &[u8]) {
        self.make(&Command::LineCall { station, call }, stated);
    }

    /// Brings a line of so many stations or more to where all are Idle, after some calls or none. The ticks end as soon as all are, so that
    /// what the calls left is still there.
    fn come_to_rest_with(&mut self, least: u8, random: &mut Random) {
        if self.count() < least || random.one_in(4) {
            let stations = random.between(i32::from(least), i32::from(MOST_STATIONS)) as u8;
            self.make(&Command::Line { stations }, NOTHING);
        }
        if !random.one_in(3) {
            for _ in 0..random.between(1, 12) {
                self.do_something(random);
            }
        }
        self.tick_until_all_are_idle();
        for station in self.line.stations() {
            self.figures.debouncing += usize::from(station.is_debouncing());
            self.figures.untaken += usize::from(station.rx_state() == RxState::Completed);
        }
    }

    fn do_something(&mut self, random: &mut Random) {
        let call = match random.below(12) {
            0..=3 => {
                let ticks = random.between(1, 24) as usize;
                return self.make(&Command::LineTicks { ticks }, NOTHING);
            }
            4..=6 => Call::Start {
                start: any_start(random),
                half_bits: some_half_bits(random),
            },
            7 => Call::Policy {
                policy: random.pick(&POLICIES),
            },
            8 => Call::Poll,
            9 => Call::TakeIdle,
            10 => Call::TakeRx,
            _ => Call::Ack,
        };
        let station = self.station(random);
        self.call(station, call, NOTHING);
    }

    fn tick_until_all_are_idle(&mut self) {
        let mut ticks = 0;
        while !self.line.all_are_idle() {
            assert!(ticks < MOST_TICKS, "the Rust's stations don't come to rest");
            self.line.tick();
            ticks += 1;
        }
        if ticks > 0 {
            self.push(&Command::LineTicks { ticks }, NOTHING);
        }
    }

    fn start(&mut self, station: u8, half_bits: HalfBits, random: &mut Random) {
        let start = any_start(random);
        self.call(station, Call::Start { start, half_bits }, b"ok");
    }

    /// One frame from all the senders. In half of the runs nothing is asked before the demand's last tick, in the others the ticks are
    /// found on which it is heard and sent.
    fn send(&mut self, sent: &Sent, senders: &[u8], random: &mut Random) {
        for sender in senders {
            self.start(*sender, sent.half_bits, random);
        }
        let stations = 0..self.count();
        let listeners: Vec<u8> = stations.filter(|each| !senders.contains(each)).collect();
        let event = stated_event(sent);
        let mut moments = Vec::new();
        let mut ask = |stations: &[u8], tick, call, stated| {
            moments.extend(stations.iter().map(|station| Moment {
                tick,
                station: *station,
                call,
                stated,
            }));
        };
        let (heard_on, sent_on) = (sent.heard_on(), sent.sent_on());
        if random.one_in(2) {
            ask(&listeners, heard_on - 1, Call::TakeRx, b"none");
            ask(&listeners, heard_on, Call::TakeRx, &event);
            ask(senders, sent_on - 1, Call::State, b"state tx ...");
            ask(senders, sent_on, Call::State, b"state idle ...");
            ask(senders, heard_on.max(sent_on), Call::Poll, b"ok");
        } else {
            ask(&listeners, DEMANDED_TICKS, Call::TakeRx, &event);
            ask(senders, DEMANDED_TICKS, Call::Poll, b"ok");
        }
        self.run(&sent.levels(), moments);
        for listener in listeners {
            self.read(listener, sent.data);
        }
    }

    fn clash(&mut self, clash: &Clash, senders: [u8; 2], random: &mut Random) {
        let mut moments = Vec::new();
        let breaks_are_watched = random.one_in(2);
        for (number, station) in senders.into_iter().enumerate() {
            self.start(station, clash.half_bits[number], random);
            let mut ask = |tick, call, stated| {
                moments.push(Moment {
                    tick,
                    station,
                    call,
                    stated,
                });
            };
            let (seen_on, sampled_on) = (clash.seen_on(number), clash.sampled_on(number));
            // A low sample is Idle's first low tick.
            let [found_idle, after_sample]: [&[u8]; 2] = if clash.wins(number) {
                [b"1", b"state idle * 0 ..."]
            } else {
                [b"0", b"state idle * 1 ..."]
            };
            if breaks_are_watched {
                ask(seen_on - 1, Call::State, &b"state tx ..."[..]);
                ask(seen_on, Call::State, b"state collision ...");
                ask(sampled_on - 1, Call::State, b"state collision ...");
                ask(sampled_on, Call::State, after_sample);
            }
            ask(DEMANDED_TICKS, Call::Poll, b"collision");
            ask(DEMANDED_TICKS, Call::TakeIdle, found_idle);
        }
        self.run(&clash.levels(), moments);
    }

    /// The ticks that lead to the moments, which leave these levels, and the calls.
    fn run(&mut self, levels: &Levels, mut moments: Vec<Moment>) {
        moments.sort_by_key(|moment| moment.tick);
        let mut now = 0;
        for moment in moments {
            if moment.tick > now {
                let left: Levels = levels.iter().take(moment.tick).skip(now).collect();
                self.tick(&left);
                now = moment.tick;
            }
            self.call(moment.station, moment.call, moment.stated);
        }
    }

    fn tick(&mut self, left: &Levels) {
        let command = Command::LineTicks {
            ticks: left.ticks(),
        };
        let mut answer = b"l".to_vec();
        push_byte_string_field(&mut answer, left.bytes());
        self.make(&command, &answer);
    }

    /// The event is the Rust's, to which the program's was held when it was taken.
    fn read(&mut self, listener: u8, data: &[u8]) {
        let event = self.line.stations()[usize::from(listener)].last_event();
        let capture = Capture {
            count: event.sample_count,
            samples: event.samples,
        };
        self.push(&Command::Sniff { capture }, &reading(data));
    }
}

/// The silence isn't stated, nor are the bytes past the count, which earlier captures left.
fn stated_event(sent: &Sent) -> Vec<u8> {
    let samples = sent.samples();
    let mut event = b"event".to_vec();
    push_number_field(&mut event, samples.len() as i32);
    event.extend_from_slice(b" *");
    push_hex_field(&mut event, &samples);
    event.push(b'*');
    event
}

fn any_start(random: &mut Random) -> Start {
    random.pick(&[Start::Tx, Start::Answer])
}

/// Of any length, but mostly short, so that all are soon Idle again.
fn some_half_bits(random: &mut Random) -> HalfBits {
    match random.below(8) {
        0..=2 => brief_pull(random),
        3..=6 => {
            let mut data = [0; HALF_BIT_BYTES];
            data[..2].copy_from_slice(&random.any().to_be_bytes()[..2]);
            HalfBits {
                len: random.between(1, 16) as u8,
                data,
            }
        }
        _ => any_half_bits(random),
    }
}
