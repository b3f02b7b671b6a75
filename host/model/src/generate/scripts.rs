//! Longer things the generator does: instructions, windows, starting users, changing maps, reading out.

use super::directed::{open_private, shut};
use super::kinds::*;
use super::lines::trap_line;
use super::plan::{Plan, MAP_PAGES};
use super::Generator;
use crate::instruction::Kind;
use crate::maps::{is_simple, pointed_place, route, Route};
use crate::registers::word_at;
use crate::state::{Unit, KTEM, KTUM, VECTORS};

impl Generator {
    /// A fetch of an instruction that was put there for it; gives the word.
    pub(super) fn fetch_planted(&mut self) -> u16 {
        let word = self.instruction_word();
        self.fetch_of(word);
        word
    }

    /// A fetch of this word, put there first if the fetch gets to memory; gives the address.
    pub(super) fn fetch_of(&mut self, word: u16) -> u16 {
        let mut address = self.address(FETCH) | self.maybe_odd(0);
        if word == 0o000400 && self.machine.unit.fetch_memory().public {
            let user = self.machine.unit.user_mode();
            address = self.find_address(user, open_private);
        }
        let mut probe = self.machine.unit;
        // The probe's fetch stores nothing, so the machine's own memory may be lent.
        let reply = probe.access(&mut self.machine.memory, DATI, FETCH, 0, address, 0);
        let place = reply.physical.and_then(|physical| u16::try_from(physical).ok());
        if let Some(place) = place {
            let map = MAP_PAGES.contains(&(place >> 9));
            // A word of the same kind that is there already does as well.
            let there = Kind::of(reply.data) == Kind::of(word);
            if !there && (!map || self.random.one_in(10)) {
                self.push_word(place, word);
            }
        }
        self.push_access([DATI, FETCH, 0], address, 0);
        address
    }

    /// A fetch and accesses that fit the instruction, more or less.
    pub(super) fn instruction(&mut self) {
        let word = self.fetch_planted();
        for _ in 0..self.random.pick(&[0, 1, 2, 2, 3]) {
            // Seldom DESTINATION, which sets DS by itself.
            let state = self.random.pick(&[1, 2, 3, 3, 3, 4, 4, 4]);
            let kind = match Kind::of(word) {
                _ if self.random.one_in(5) => self.kind(),
                Kind::Jsr | Kind::Trap => [DATO, state, 0],
                Kind::Rts | Kind::Rti => [DATI, state, 0],
                _ => self.kind(),
            };
            let address = self.address(kind[1]) | self.maybe_odd(kind[2]);
            let data = self.data();
            self.push_access(kind, address, data);
        }
    }

    /// A read or store at a register, in a state that reaches one.
    pub(super) fn register_access(&mut self) {
        let mut kind = self.kind();
        if self.random.one_in(3) {
            kind = self.random.pick(&[[DATOB, 2, 1], [DATOB, 1, 1], [DATO, 3, 0], [DATI, 3, 1]]);
        }
        let Some(base) = self.register_base(kind[1]) else {
            return self.plain_access();
        };
        // Map register stores empty all cells: not at every turn.
        let mut offset = self.register_offset();
        if self.random.one_in(5) {
            offset = self.random.pick(&[KTUM_OFFSET, KTEM_OFFSET, KTMR_OFFSET]);
        }
        let address = base | offset | self.maybe_odd(kind[2]);
        let data = match offset {
            KTUM_OFFSET if self.random.percent(80) => self.plan.ktum,
            KTEM_OFFSET if self.random.percent(80) => self.plan.ktem,
            _ => self.data(),
        };
        let data = if address & 1 == 1 { data >> 8 } else { data };
        self.push_access(kind, address, data);
    }

    /// KTAD, then an access to the window.
    pub(super) fn window(&mut self) {
        let kind = self.kind();
        let Some(base) = self.register_base(kind[1]) else {
            return self.plain_access();
        };
        if self.random.percent(85) {
            let target = self.window_address(kind[2]);
            self.push_access([DATO, kind[1], 0], base | KTAD_OFFSET, target);
        }
        let data = self.data();
        let odd = u16::from(kind[2] == 1 && self.random.one_in(2));
        let mut base = base;
        if self.paged(kind[1]) && self.random.one_in(4) {
            base = self.plan.weak_registers << 9;
        }
        if self.random.one_in(14) {
            return self.push_access([DATI, FETCH, 0], base | KTWN_OFFSET, 0);
        }
        self.push_access(kind, base | KTWN_OFFSET | odd, data);
    }

    /// A user address for KTAD: any, a register, or one on a page that is shut.
    pub(super) fn window_address(&mut self, width: u64) -> u16 {
        if self.random.one_in(5) {
            return self.find_address(true, shut) | self.maybe_odd(width);
        }
        let page = self.random.pick(&self.plan.pages);
        let offset = match self.plan.user_registers {
            Some(registers) if registers == page => self.register_offset(),
            _ => 2 * self.random.below(6) as u16,
        };
        let odd = self.maybe_odd(width) | u16::from(self.random.one_in(15));
        match (self.plan.user_registers, self.random.below(8)) {
            (Some(registers), 0..=3) => (registers << 9) | self.window_offset() | odd,
            _ => (page << 9) | offset | odd,
        }
    }

    /// A register's offset, the window's own half the time.
    fn window_offset(&mut self) -> u16 {
        if self.random.one_in(2) {
            KTWN_OFFSET
        } else {
            self.register_offset()
        }
    }

    /// A store into KTCS, mostly one that sets FCN.
    pub(super) fn set_fcn(&mut self) {
        let state = self.random.pick(&[1, DESTINATION, DESTINATION, 3]);
        let Some(base) = self.register_base(state) else {
            return self.plain_access();
        };
        let unit = self.machine.unit;
        let choices: &[u16] = match (unit.user_mode(), unit.fetch_memory().public) {
            (true, _) => &[0, 1, 1, 1, 2, 2, 3, 3],
            (false, true) => &[0, 1, 1, 1, 1, 2, 2, 3],
            (false, false) => &[0, 1, 2, 2, 2, 2, 3],
        };
        let fcn = self.random.pick(choices) | (self.random.word() & !3);
        match self.random.below(8) {
            0 => self.push_access([DATOB, state, 1], base | KTCS_OFFSET, fcn),
            1 => self.push_access([DATOB, state, 1], base | KTCS_OFFSET | 1, fcn),
            _ => self.push_access([DATO, state, 0], base | KTCS_OFFSET, fcn),
        }
    }

    /// In exec: FCN 3 and, by the state's own rules, the two START reads.
    pub(super) fn start_user(&mut self) {
        if self.machine.unit.user_mode() {
            return self.instruction();
        }
        let Some(base) = self.register_base(DESTINATION) else {
            return self.plain_access();
        };
        if self.random.one_in(4) {
            let data = self.random.word();
            self.push_access([DATO, DESTINATION, 0], base | KTPC_OFFSET, data);
            let data = self.random.word();
            self.push_access([DATO, DESTINATION, 0], base | KTPS_OFFSET, data);
        }
        self.push_access([DATO, DESTINATION, 0], base | KTCS_OFFSET, 3);
    }

    /// A trap, 34o often, and then mostly after two TRAP words.
    pub(super) fn traps(&mut self) {
        let vector = if self.random.one_in(4) { 0o34 } else { self.random.pick(&VECTORS) };
        if vector == 0o34 && self.random.percent(60) {
            let word = 0o104400 | self.random.below(0o400) as u16;
            let address = self.fetch_of(word);
            self.push_access([DATI, FETCH, 0], address, 0);
        }
        let line = trap_line(&mut self.random, vector);
        self.queue.push_back(line);
    }

    /// Puts the plan's map registers back if something changed them.
    pub(super) fn restore_map_registers(&mut self) {
        let registers = self.machine.unit.registers();
        let Some(base) = self.register_base(DESTINATION) else {
            return self.plain_access();
        };
        if registers[KTUM] != self.plan.ktum {
            self.push_access([DATO, DESTINATION, 0], base | KTUM_OFFSET, self.plan.ktum);
        } else if registers[KTEM] != self.plan.ktem {
            self.push_access([DATO, DESTINATION, 0], base | KTEM_OFFSET, self.plan.ktem);
        } else {
            self.start_user();
        }
    }

    /// A page in play, often one that a cell holds.
    fn mapped_page(&mut self) -> (bool, u16) {
        let tags = self.machine.unit.tags();
        let mut tag = self.random.pick(tags);
        let ktum = self.machine.unit.registers()[KTUM];
        let shared = |&&tag: &&u8| tag & 0o200 != 0 && !is_simple(ktum, u16::from(tag & 0o177));
        if let Some(&held) = tags.iter().find(shared) {
            // A page reached by a pointer, so that pointers get stored into as well.
            tag = self.random.pick(&[tag, held]);
        }
        if tag != 0 && self.random.percent(60) {
            (tag & 0o200 != 0, u16::from(tag & 0o177))
        } else {
            (self.random.one_in(2), self.random.pick(&self.plan.pages))
        }
    }

    /// The place of a map word or pointer, under the present map registers.
    pub(super) fn map_place(&mut self) -> (u32, bool) {
        let (user, page) = self.mapped_page();
        let registers = self.machine.unit.registers();
        match route(registers[KTUM], registers[KTEM], user, page) {
            Route::ExecZero => (0o1000, false),
            Route::ExecSimple(place) | Route::ExecPerProcess(place) | Route::UserSimple(place) => {
                (place, false)
            }
            Route::UserShared(place) if self.random.one_in(2) => (place, true),
            Route::UserShared(place) => {
                let pointer = word_at(&self.machine.memory, place as usize).unwrap_or(0);
                (pointed_place(pointer), false)
            }
        }
    }

    /// A new value for a map place: an entry or a pointer, or the old value again.
    pub(super) fn map_value(&mut self, place: u32, pointer: bool) -> u16 {
        let old = word_at(&self.machine.memory, place as usize);
        match old {
            Some(old) if self.random.one_in(5) => old,
            _ if pointer => self.plan.pointer(&mut self.random),
            _ => self.plan.entry(&mut self.random),
        }
    }

    /// A map word changed by a W line: the cells do not see it.
    pub(super) fn change_map_behind(&mut self) {
        let (place, pointer) = self.map_place();
        let value = self.map_value(place, pointer);
        match u16::try_from(place) {
            Ok(place) => self.push_word(place, value),
            Err(_) => self.plain_access(),
        }
    }

    /// A map word changed by a store of the processor, through a page that leads there.
    pub(super) fn change_map_by_access(&mut self) {
        let (place, pointer) = self.map_place();
        let value = self.map_value(place, pointer);
        let state = 1 + self.random.below(4);
        let Some(address) = self.virtual_address(state, place) else {
            return self.plain_access();
        };
        if self.random.one_in(4) {
            let odd = self.random.below(2) as u16;
            self.push_access([DATOB, state, 1], address | odd, value >> (8 * odd));
        } else {
            self.push_access([DATO, state, 0], address, value);
        }
    }

    /// An address in the pages in play that leads to this physical place now.
    pub(super) fn virtual_address(&self, state: u64, place: u32) -> Option<u16> {
        if !self.paged(state) {
            return u16::try_from(place).ok().filter(|&place| place < 0o160000);
        }
        let offset = (place & 0o777) as u16;
        let leads = |&&page: &&u16| {
            let mut probe: Unit = self.machine.unit;
            let user = probe.user_mode();
            let entry = probe.entry(&self.machine.memory, user, page << 9);
            entry.is_ok_and(|entry| entry.resident() && entry.physical(offset) == place)
        };
        self.plan.pages.iter().find(leads).map(|&page| (page << 9) | offset)
    }

    /// Gets to FCN 0 and then reads every register and scratchpad word.
    pub(super) fn read_out(&mut self) {
        if self.machine.unit.fcn() != 0 {
            let state = self.random.pick(&[1, DESTINATION]);
            return match self.register_base(state) {
                Some(base) if self.random.percent(80) => {
                    self.push_access([DATO, state, 0], base | KTCS_OFFSET, 0);
                }
                _ => self.queue.push_back(b"X".to_vec()),
            };
        }
        self.hidden = 0;
        let past_the_last = SCRATCHPAD_OFFSET + 2 * self.machine.unit.cells() as u16;
        for offset in (KTMR_OFFSET..past_the_last).step_by(2) {
            self.push_access([DATI, 2, 0], 0o177000 | offset, 0);
        }
        for _ in 0..2 {
            let offset = self.upper_offset();
            self.push_access([DATI, 2, 0], 0o177000 | offset, 0);
        }
        let fcn = self.random.pick(&[0, 1, 2, 2, 3]);
        self.push_access([DATO, DESTINATION, 0], 0o177576, fcn);
    }

    /// New maps, from FCN 0; INIT if there is no other way there.
    pub(super) fn new_episode(&mut self) {
        let plain = self.random.percent(70);
        if self.machine.unit.fcn() != 0 || self.machine.unit.user_mode() || plain {
            self.queue.push_back(b"X".to_vec());
        }
        self.plan = Plan::new(&mut self.random, self.machine.unit.cells());
        for (place, word) in self.plan.words(&mut self.random) {
            self.push_word(place, word);
        }
        for (offset, value) in [(KTUM_OFFSET, self.plan.ktum), (KTEM_OFFSET, self.plan.ktem)] {
            if self.random.one_in(4) {
                self.push_access([DATOB, DESTINATION, 1], 0o177001 | offset, value >> 8);
                self.push_access([DATOB, DESTINATION, 1], 0o177000 | offset, value & 0o377);
            } else {
                self.push_access([DATO, DESTINATION, 0], 0o177000 | offset, value);
            }
        }
        let fcn = self.random.pick(&[0, 1, 2, 2, 3, 3]);
        self.push_access([DATO, DESTINATION, 0], 0o177576, fcn);
        self.trouble = 0;
        self.episode = 500 + self.random.below(700) as u32;
    }
}
