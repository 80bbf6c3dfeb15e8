//! Runs of demand 3: one sender or two on a line that any calls led to.

use crate::demands::demand_lines::{DemandLines, Figures};
use crate::random::Random;
use crate::runs::compare::{Batch, Batches};

const BATCH_RUNS: usize = 2_000;

/// Both kinds of runs are mixed.
pub struct Runs {
    random: Random,
    lone_left: usize,
    pairs_left: usize,
    figures: Figures,
}

impl Runs {
    pub fn new(seed: u64, lone: usize, pairs: usize) -> Self {
        Self {
            random: Random::new(seed),
            lone_left: lone,
            pairs_left: pairs,
            figures: Figures::default(),
        }
    }

    fn push_run(&mut self, made: &mut DemandLines) {
        let random = &mut self.random;
        if random.below(self.lone_left + self.pairs_left) < self.lone_left {
            self.lone_left -= 1;
            made.push_lone(random);
        } else {
            self.pairs_left -= 1;
            made.push_pair(random);
        }
    }
}

impl Iterator for Runs {
    type Item = Batch;

    fn next(&mut self) -> Option<Batch> {
        let mut made = DemandLines::new(self.figures);
        for _ in 0..BATCH_RUNS.min(self.lone_left + self.pairs_left) {
            self.push_run(&mut made);
        }
        self.figures = made.figures;
        made.script.batch()
    }
}

impl Batches for Runs {
    fn figures(&self) -> String {
        self.figures.text()
    }
}
