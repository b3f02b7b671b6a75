//! What lies at a physical address, and reads and stores there.

use crate::state::{Unit, ERRORS, FCN, IU, KTEM, KTUM, MANY_CELLS};

/// What a physical address names.
#[derive(Clone, Copy, PartialEq, Eq, Debug)]
pub enum Target {
    Memory(usize),
    Window,
    Ktmr,
    Ktcs,
    /// One of the eight, KTIC 0 to KTEM 7.
    Register(usize),
    Scratchpad(usize),
    Nothing,
}

impl Target {
    /// What lies there for a unit with so many cells, over so much memory.
    #[inline]
    pub fn at(physical: u32, length: usize, cells: usize) -> Target {
        if (physical as usize) < length {
            return Target::Memory(physical as usize);
        }
        match physical {
            0o777572..=0o777573 => Target::Window,
            0o777574..=0o777575 => Target::Ktmr,
            0o777576..=0o777577 => Target::Ktcs,
            0o777600..=0o777617 => Target::Register((physical - 0o777600) as usize / 2),
            0o777620..=0o777637 => Target::Scratchpad((physical - 0o777620) as usize / 2),
            // "777640o to 777677o are registers of a 24-cell unit and nowhere for an 8-cell one."
            0o777640..=0o777677 if cells == MANY_CELLS => {
                Target::Scratchpad((physical - 0o777620) as usize / 2)
            }
            _ => Target::Nothing,
        }
    }
}

/// Which part of a word a store covers.
#[derive(Clone, Copy, PartialEq, Eq, Debug)]
pub(crate) enum Part {
    Word,
    Low,
    High,
}

impl Part {
    /// DATOB writes the low 8 bits of data, into the high byte if the address is odd.
    #[inline]
    fn merge(self, old: u16, data: u16) -> u16 {
        match self {
            Part::Word => data,
            Part::Low => (old & 0o177400) | (data & 0o377),
            Part::High => (old & 0o377) | (data << 8),
        }
    }
}

/// The memory word at an even place, or none at or beyond the memory's end.
#[inline]
pub(crate) fn word_at(memory: &[u8], place: usize) -> Option<u16> {
    match memory.get(place..place + 2) {
        Some(&[low, high]) => Some(u16::from_le_bytes([low, high])),
        _ => None,
    }
}

impl Unit {
    /// Reads give the whole word at the even address.
    #[inline]
    pub(crate) fn read(&self, memory: &[u8], target: Target) -> u16 {
        match target {
            Target::Memory(at) => word_at(memory, at & !1).unwrap_or(0),
            Target::Ktmr => u16::from(self.counter) << 8,
            Target::Ktcs => self.ktcs,
            Target::Register(number) => self.registers[number],
            Target::Scratchpad(cell) => self.words[cell],
            Target::Window | Target::Nothing => 0,
        }
    }

    #[inline]
    pub(crate) fn store(&mut self, memory: &mut [u8], target: Target, part: Part, data: u16) {
        match target {
            Target::Memory(at) => store_in_memory(memory, at, part, data),
            Target::Ktcs => self.store_ktcs(part, data),
            Target::Register(number) => self.store_register(number, part, data),
            // "leaves the tag, and does nothing in an empty cell (H)"
            Target::Scratchpad(cell) if self.tags[cell] != 0 => {
                self.words[cell] = part.merge(self.words[cell], data);
            }
            // KTMR: "stores into it are accepted and do nothing"
            Target::Scratchpad(_) | Target::Ktmr | Target::Window | Target::Nothing => {}
        }
    }

    /// Any store clears IU and bits 15-11; one that covers bits 1-0 sets FCN.
    fn store_ktcs(&mut self, part: Part, data: u16) {
        self.ktcs &= !(IU | ERRORS);
        if part != Part::High {
            self.ktcs = (self.ktcs & !FCN) | (data & FCN);
        }
    }

    fn store_register(&mut self, number: usize, part: Part, data: u16) {
        self.registers[number] = part.merge(self.registers[number], data);
        if number == KTUM || number == KTEM {
            self.empty_all_cells();
        }
    }
}

#[inline]
fn store_in_memory(memory: &mut [u8], at: usize, part: Part, data: u16) {
    if part == Part::Word {
        memory[at..at + 2].copy_from_slice(&data.to_le_bytes());
    } else {
        memory[at] = (data & 0o377) as u8;
    }
}
