//! What the generator does next in each state of the unit.

use super::kinds::*;
use super::lines::{access_line, bad_line, trap_line, word_line};
use super::plan::{EXEC_MAP, USER_MAP};
use super::Generator;
use crate::state::{Wait, ERRORS, VECTORS};

impl Generator {
    /// Puts at least one line into the queue.
    pub(super) fn choose(&mut self) {
        if self.random.one_in(150) {
            let line = bad_line(&mut self.random);
            return self.queue.push_back(line);
        }
        if self.random.one_in(50) {
            return self.stray_call();
        }
        match self.machine.unit.wait() {
            Wait::Status | Wait::ProgramCounter => self.service(),
            Wait::SecondStart => self.start_read(),
            Wait::None if self.machine.unit.fcn() == 3 => self.before_start(),
            Wait::None => self.run(),
        }
    }

    pub(super) fn run(&mut self) {
        let unit = self.machine.unit;
        if self.episode == 0 || self.trouble > 40 {
            return self.new_episode();
        }
        if self.hidden > 400 {
            return self.read_out();
        }
        if unit.ktcs() & ERRORS != 0 && self.random.one_in(3) {
            return self.set_fcn();
        }
        match (unit.fcn(), unit.user_mode(), self.random.below(100)) {
            (0, _, 0..=19) => self.set_fcn(),
            (1, _, 0..=14) => self.instruction(),
            (1, _, 15..=22) => self.set_fcn(),
            (2, true, 0..=15) => self.traps(),
            (2, true, 16..=18) => self.queue.push_back(b"I".to_vec()),
            (2, true, 19..=23) => self.set_fcn(),
            (2, false, 0..=16) => self.start_user(),
            (2, false, 17..=19) => self.restore_map_registers(),
            (2, false, 20..=23) if unit.fetch_memory().public => self.set_fcn(),
            (2, _, 24..=64) => self.directed(),
            _ => self.any_action(),
        }
    }

    pub(super) fn any_action(&mut self) {
        match self.random.below(100) {
            0..=17 => self.plain_access(),
            18..=38 => self.instruction(),
            39..=51 => self.register_access(),
            52..=73 => self.window(),
            74..=76 => self.start_user(),
            77..=81 => self.traps(),
            82..=83 => self.queue.push_back(b"I".to_vec()),
            84..=86 => self.change_map_behind(),
            87..=93 => self.change_map_by_access(),
            94 => self.wild_access(),
            _ => self.set_fcn(),
        }
    }

    pub(super) fn push_access(&mut self, kind: [u64; 3], address: u16, data: u16) {
        let line = access_line(&mut self.random, kind, address, data);
        self.queue.push_back(line);
    }

    pub(super) fn push_word(&mut self, place: u16, value: u16) {
        let line = word_line(&mut self.random, place, value);
        self.queue.push_back(line);
    }

    /// An operation with its width, and a state that is not FETCH.
    pub(super) fn kind(&mut self) -> [u64; 3] {
        let operation = self.random.pick(&[0, 0, 0, 1, 2, 2, 3]);
        let state = self.random.pick(&[1, 2, 2, 3, 3, 4]);
        let width = match operation {
            2 => 0,
            3 => 1,
            _ => u64::from(self.random.one_in(3)),
        };
        [operation, state, width]
    }

    pub(super) fn paged(&self, state: u64) -> bool {
        match self.machine.unit.fcn() {
            0 => false,
            1 => state == 2 || state == 3,
            _ => true,
        }
    }

    /// Where the register page begins for an access in this state, as the plan has it.
    pub(super) fn register_base(&self, state: u64) -> Option<u16> {
        if !self.paged(state) {
            Some(0o177000)
        } else if self.machine.unit.user_mode() {
            self.plan.user_registers.map(|page| page << 9)
        } else {
            Some(self.plan.exec_registers << 9)
        }
    }

    /// Whether the plan makes this page of the present mode the register page.
    pub(super) fn is_register_page(&self, page: u16) -> bool {
        let usual = if self.machine.unit.user_mode() {
            self.plan.user_registers
        } else {
            Some(self.plan.exec_registers)
        };
        usual == Some(page) || self.plan.weak_registers == page
    }

    /// Whether the plan has pages of the present mode to sweep over.
    pub(super) fn sweeps_here(&self) -> bool {
        !self.plan.swept.is_empty() && self.plan.swept_by_user == self.machine.unit.user_mode()
    }

    /// An even address in the pages in play.
    pub(super) fn address(&mut self, state: u64) -> u16 {
        let paged = self.paged(state);
        let page = match self.random.below(50) {
            0 => self.random.below(128) as u16,
            1..=10 if paged && self.sweeps_here() => self.random.pick(&self.plan.swept),
            _ if paged => self.random.pick(&self.plan.pages),
            1 => 0o160 + self.random.below(16) as u16,
            _ => 8 + self.random.below(12) as u16,
        };
        let offset = if paged && self.is_register_page(page) {
            self.register_offset()
        } else if paged && (page == USER_MAP || page == EXEC_MAP) && self.random.percent(90) {
            // Away from the map words of the pages in play.
            0o300 + 2 * self.random.below(6) as u16
        } else if self.random.percent(70) {
            2 * self.random.below(6) as u16
        } else {
            2 * self.random.below(256) as u16
        };
        (page << 9) | offset
    }

    pub(super) fn register_offset(&mut self) -> u16 {
        // KTWN, KTMR, KTCS, the eight, and the unit's own scratchpad words.
        let registers = 11 + self.machine.unit.cells() as u64;
        match self.random.below(30) {
            0 => 2 * self.random.below(256) as u16,
            1 => self.random.pick(&[0o570, 0o636, UPPER_OFFSET, 0o676, PAST_ALL_OFFSET]),
            2..=4 => KTWN_OFFSET,
            5 => self.upper_offset(),
            _ => KTWN_OFFSET + 2 * self.random.below(registers) as u16,
        }
    }

    /// From 640 to 700: registers of a unit with 24 cells but for the last, and nowhere for one with 8.
    pub(super) fn upper_offset(&mut self) -> u16 {
        UPPER_OFFSET + 2 * self.random.below(17) as u16
    }

    /// Odd by byte half the time, odd by word seldom, more often where it costs no sequence.
    pub(super) fn maybe_odd(&mut self, width: u64) -> u16 {
        let seldom = if self.machine.unit.fcn() < 2 { 15 } else { 50 };
        let odd = if width == 1 { self.random.one_in(2) } else { self.random.one_in(seldom) };
        u16::from(odd)
    }

    /// Data that is worth fetching or mapping by later.
    pub(super) fn data(&mut self) -> u16 {
        match self.random.below(4) {
            0 => self.random.word(),
            1 => self.plan.entry(&mut self.random),
            _ => self.instruction_word(),
        }
    }

    pub(super) fn instruction_word(&mut self) -> u16 {
        let low = self.random.below(0o400) as u16;
        if self.machine.unit.fetch_memory().public && self.random.one_in(3) {
            return 0o000400;
        }
        if self.machine.unit.user_mode() && self.random.one_in(12) {
            return self.random.pick(&[0, 1, 5]);
        }
        match self.random.below(20) {
            0..=3 => 0o004000 | low | ((low & 1) << 8),
            4..=5 => 0o000200 | (low & 7),
            6..=8 => 0o000002,
            9..=12 => 0o104400 | low,
            13 => self.random.pick(&[0, 1, 5]),
            14..=15 => 0o000400,
            // Neighbours of the ranges.
            16 => self.random.pick(&[
                0o003777, 0o005000, 0o000177, 0o000210, 0o104377, 0o105000, 0o000003, 0o000004,
                0o000401, 0o000377,
            ]),
            _ => 0o010000 | (self.random.word() >> 4),
        }
    }

    pub(super) fn plain_access(&mut self) {
        let kind = self.kind();
        let address = self.address(kind[1]) | self.maybe_odd(kind[2]);
        let data = self.data();
        self.push_access(kind, address, data);
    }

    pub(super) fn wild_access(&mut self) {
        let kind = self.kind();
        let address = self.random.word();
        let data = self.random.word();
        self.push_access(kind, address, data);
    }

    /// A bad shape, or any call at all, whatever is due.
    pub(super) fn stray_call(&mut self) {
        match self.random.below(16) {
            0..=6 => {
                let kind = [6, 7, 4].map(|bound| self.random.below(bound));
                let address = self.random.word();
                let data = self.random.word();
                self.push_access(kind, address, data);
            }
            7..=8 => {
                let kind =
                    self.random.pick(&[[2, 2, 1], [3, 2, 0], [1, 0, 0], [2, 0, 0], [0, 0, 1]]);
                let address = self.address(kind[1]);
                self.push_access(kind, address, 0);
            }
            9..=10 => self.plain_access(),
            11..=12 => self.queue.push_back(b"I".to_vec()),
            13 => {
                let vector = self.random.pick(&[0, 1, 5, 6, 0o11, 0o35, 0o40, 0o177777]);
                let line = trap_line(&mut self.random, vector);
                self.queue.push_back(line);
            }
            14 => {
                let vector = self.random.pick(&VECTORS);
                let line = trap_line(&mut self.random, vector);
                self.queue.push_back(line);
            }
            _ => self.queue.push_back(b"X".to_vec()),
        }
    }

    /// Mostly the SERVICE DATO that is due.
    pub(super) fn service(&mut self) {
        let address = self.random.word();
        let data = self.random.word();
        if self.random.percent(94) {
            self.push_access([DATO, SERVICE, 0], address, data);
        } else {
            self.plain_access();
        }
    }

    /// FCN 3 before the first START read: a fetch, the read, or something refused.
    pub(super) fn before_start(&mut self) {
        match self.random.below(10) {
            0..=2 => {
                self.fetch_planted();
            }
            3..=8 => self.start_read(),
            _ => self.plain_access(),
        }
    }

    pub(super) fn start_read(&mut self) {
        let state = 1 + self.random.below(4);
        let address = self.random.word();
        match self.random.below(25) {
            0 => self.push_access([DATI, FETCH, 0], address, 0),
            1 => self.push_access([DATI, state, 1], address, 0),
            2 => self.push_access([1, state, 0], address, 0),
            _ => self.push_access([DATI, state, 0], address, 0),
        }
    }
}
