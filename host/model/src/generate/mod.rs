//! A generator of random bench input that keeps its own unit, so as to choose each line by the present state.

mod actions;
mod boundary;
mod directed;
mod few_walks;
mod kinds;
mod lines;
mod noise;
mod plan;
mod random;
mod scripts;
mod stats;
mod watch;

use crate::bench::{parse, Line, Machine};
use crate::state::{Unit, Wait};
pub use boundary::{boundary_walks, BoundaryWalk};
pub use few_walks::FewWalks;
pub use noise::Noise;
use plan::Plan;
use random::Random;
pub use stats::{filled_all_cells, went_round, Stats};
pub use stats::{CELLS_FILLED, COUNTER_ROUND, PAST_ALL_WORDS, UPPER_WORDS};
use std::collections::VecDeque;
use watch::Watch;

pub struct Generator {
    random: Random,
    machine: Machine,
    plan: Plan,
    queue: VecDeque<Vec<u8>>,
    stats: Stats,
    /// Lines until a new episode begins.
    episode: u32,
    /// Lines since the registers were last read out.
    hidden: u32,
    /// How many pages were swept over, so that a sweep goes on where the last one ended.
    swept: usize,
    /// Rises with each violation and falls with each other answer; too much of it ends the episode.
    trouble: u32,
}

impl Generator {
    /// A generator that steers by this fresh unit.
    pub fn new(seed: u64, unit: Unit) -> Generator {
        let mut random = Random::new(seed);
        let plan = Plan::new(&mut random, unit.cells());
        Generator {
            random,
            machine: Machine::of(unit),
            plan,
            queue: VecDeque::new(),
            stats: Stats::default(),
            episode: 0,
            hidden: 0,
            swept: 0,
            trouble: 0,
        }
    }

    pub fn stats(&self) -> &Stats {
        &self.stats
    }

    /// The next line, without its newline.
    pub fn next_line(&mut self) -> Vec<u8> {
        let line = self.chosen();
        self.follow(&line);
        line
    }

    /// The line that is to come next, not yet followed.
    fn chosen(&mut self) -> Vec<u8> {
        self.drop_stale_lines();
        while self.queue.is_empty() {
            self.choose();
        }
        self.queue.pop_front().unwrap_or_default()
    }

    /// A script cut short by a violation is mostly given up; now and then it goes on and is refused.
    fn drop_stale_lines(&mut self) {
        let waiting = matches!(self.machine.unit.wait(), Wait::Status | Wait::ProgramCounter);
        if waiting && self.random.percent(85) {
            self.queue.clear();
        }
    }

    /// Does to the generator's own machine what the bench program will do.
    fn follow(&mut self, line: &[u8]) {
        self.episode = self.episode.saturating_sub(1);
        self.hidden += 1;
        match parse(line) {
            None => self.stats.bad_line(),
            Some(Line::Word { address, value }) => {
                self.stats.word_line();
                self.machine.put_word(address, value);
            }
            Some(Line::Call(call)) => {
                let watch = Watch::new(&self.machine.unit, &self.machine.memory, call);
                let reply = self.machine.call(call);
                watch.count(&mut self.stats, &self.machine.unit, reply);
                self.trouble = match reply.answer {
                    4..=10 => self.trouble + 5,
                    _ => self.trouble.saturating_sub(1),
                };
            }
        }
    }
}
