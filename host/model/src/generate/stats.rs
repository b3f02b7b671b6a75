//! Counts of what a generated input reaches, and their table.

use crate::state::Unit;
use std::collections::BTreeMap;
use std::fmt;

/// What `filled_all_cells` and `went_round` tell.
pub const CELLS_FILLED: &str = "cells: all of the unit's filled";
pub const COUNTER_ROUND: &str = "cells: the counter went round";
/// The scratchpad words that a unit has with 24 cells alone, and the word after them.
pub const UPPER_WORDS: &str = "777640 to 777677";
pub const PAST_ALL_WORDS: &str = "777700";

/// Whether a call left every cell of the unit held, where one or more were empty before it.
pub fn filled_all_cells(before: &Unit, after: &Unit) -> bool {
    let full = |unit: &Unit| !unit.tags().contains(&0);
    full(after) && !full(before)
}

/// Whether a call's walk stepped the counter from the unit's last cell to 10o. The counter falls in one other way, when all cells are emptied,
/// and then none is held.
pub fn went_round(before: &Unit, after: &Unit) -> bool {
    after.counter() < before.counter() && after.tags().iter().any(|&tag| tag != 0)
}

/// A call is answered 0 to 10.
const ANSWERS: usize = 11;

#[derive(Default)]
pub struct Stats {
    counts: BTreeMap<String, u64>,
    answers: BTreeMap<&'static str, [u64; ANSWERS]>,
}

impl Stats {
    pub fn bad_line(&mut self) {
        self.count("lines: BAD");
    }

    pub fn word_line(&mut self) {
        self.count("lines: W");
    }

    pub(super) fn count(&mut self, name: impl Into<String>) {
        *self.counts.entry(name.into()).or_default() += 1;
    }

    pub(super) fn count_if(&mut self, holds: bool, name: impl Into<String>) {
        if holds {
            self.count(name);
        }
    }

    /// One answer in a mode of the unit.
    pub(super) fn answer(&mut self, mode: &'static str, answer: u8) {
        self.answers.entry(mode).or_default()[usize::from(answer)] += 1;
    }

    /// How often an answer was given.
    pub fn answered(&self, answer: u8) -> u64 {
        self.answers.values().map(|row| row[usize::from(answer)]).sum()
    }

    /// The modes of the unit in which an answer was given, in their order.
    pub fn modes_of(&self, answer: u8) -> Vec<&'static str> {
        let given = self.answers.iter().filter(|(_, row)| row[usize::from(answer)] > 0);
        given.map(|(&mode, _)| mode).collect()
    }

    /// How often a named thing was counted.
    pub fn counted(&self, name: &str) -> u64 {
        self.counts.get(name).copied().unwrap_or(0)
    }

    fn write_answers(&self, to: &mut fmt::Formatter) -> fmt::Result {
        write!(to, "{:<22}", "answers")?;
        for answer in 0..ANSWERS {
            write!(to, "{answer:>7}")?;
        }
        writeln!(to)?;
        for (mode, row) in &self.answers {
            write!(to, "{mode:<22}")?;
            for count in row {
                write!(to, "{count:>7}")?;
            }
            writeln!(to)?;
        }
        write!(to, "{:<22}", "all")?;
        for answer in 0..ANSWERS {
            write!(to, "{:>7}", self.answered(answer as u8))?;
        }
        writeln!(to)
    }
}

impl fmt::Display for Stats {
    fn fmt(&self, to: &mut fmt::Formatter) -> fmt::Result {
        self.write_answers(to)?;
        writeln!(to)?;
        for (name, count) in &self.counts {
            writeln!(to, "{count:>8}  {name}")?;
        }
        Ok(())
    }
}
