//! Document 01's bench line: one to four of the unchanged Rust's stations on one wire, which nothing else
//! pulls.

use crate::protocol::levels::{Levels, HIGH};
use crate::rust::station::{all_are_idle, Refusal, Station};

pub const MOST_STATIONS: u8 = 4;

pub struct BenchLine {
    stations: Vec<Station>,
    /// The level that the last tick left.
    high: bool,
}

impl BenchLine {
    /// A new line, and none for a count that it can't have.
    pub fn of(stations: u8) -> Result<Self, Refusal> {
        match stations {
            1..=MOST_STATIONS => Ok(Self {
                stations: (0..stations).map(|_| Station::new()).collect(),
                high: HIGH,
            }),
            _ => Err(Refusal::StationCount),
        }
    }

    /// The line that is there before any is asked for.
    pub fn of_one() -> Self {
        Self {
            stations: vec![Station::new()],
            high: HIGH,
        }
    }

    /// Every station samples the level that the tick before left; only then is the level made up that this
    /// one leaves.
    pub fn tick(&mut self) -> bool {
        let sampled = self.high;
        for station in &mut self.stations {
            station.tick(sampled);
        }
        self.high = self.stations.iter().all(Station::drives_high);
        self.high
    }

    /// The level that each of so many ticks leaves.
    pub fn ticks(&mut self, ticks: usize) -> Levels {
        (0..ticks).map(|_| self.tick()).collect()
    }

    pub fn all_are_idle(&self) -> bool {
        all_are_idle(&self.stations)
    }

    pub fn is_high(&self) -> bool {
        self.high
    }

    pub fn stations(&self) -> &[Station] {
        &self.stations
    }

    pub fn station_mut(&mut self, number: u8) -> Result<&mut Station, Refusal> {
        let station = self.stations.get_mut(usize::from(number));
        station.ok_or(Refusal::StationNumber)
    }
}
