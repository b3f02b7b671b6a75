//! Short scripts towards paths that chance alone reaches too seldom.

use super::boundary::boundary_pages;
use super::kinds::*;
use super::plan::USER_MAP;
use super::Generator;
use crate::instruction::Kind;
use crate::maps::{is_simple, Entry};

/// Pages a read and a store get through to.
fn open(entry: &Entry) -> bool {
    entry.resident() && entry.write_enabled() && entry.word & 0o777 < 128
}

fn open_public(entry: &Entry) -> bool {
    open(entry) && entry.public()
}

pub(super) fn open_private(entry: &Entry) -> bool {
    open(entry) && !entry.public() && !entry.exec_zero
}

/// Pages a store does not get through to.
pub(super) fn shut(entry: &Entry) -> bool {
    !entry.resident() || !entry.write_enabled()
}

impl Generator {
    /// In FCN 2 only.
    pub(super) fn directed(&mut self) {
        if !self.plan.swept.is_empty() && self.random.one_in(8) {
            return self.sweep();
        }
        if self.random.one_in(20) {
            return self.upper_words();
        }
        if self.random.one_in(12) {
            return self.both_sides_of_the_boundary();
        }
        match (self.machine.unit.user_mode(), self.random.below(12)) {
            (_, 0..=1) => self.whole_instruction(),
            (_, 2) => self.enter_private(),
            (_, 3) => self.look_from_public(),
            (_, 4) => self.scratchpad(),
            (_, 5) => self.privacy_in_fcn_1(),
            (true, 6) => self.user_restart(),
            (true, 7) => self.queue.push_back(b"I".to_vec()),
            (true, 8) => self.window(),
            (true, _) => self.traps(),
            (false, 6..=7) => self.instruction_in_fcn_1(),
            (false, 8) => self.store_map_register(),
            (false, 9) => self.outdated_page(),
            (false, 10) => self.window(),
            (false, _) => self.start_user(),
        }
    }

    /// An even address on a page of this mode with such an entry, if a few tries find one.
    pub(super) fn find_address(&mut self, user: bool, wanted: fn(&Entry) -> bool) -> u16 {
        let mut address = self.page_address();
        for _ in 0..16 {
            let mut probe = self.machine.unit;
            match probe.entry(&self.machine.memory, user, address) {
                Ok(entry) if wanted(&entry) => break,
                _ => address = self.page_address(),
            }
        }
        address
    }

    /// The same in the present mode.
    fn find_here(&mut self, wanted: fn(&Entry) -> bool) -> u16 {
        let user = self.machine.unit.user_mode();
        self.find_address(user, wanted)
    }

    fn page_address(&mut self) -> u16 {
        let page = self.random.pick(&self.plan.pages);
        // Far from the map words of the pages in play, should the page be a map.
        (page << 9) | (0o300 + 2 * self.random.below(6) as u16)
    }

    /// Puts a word where a fetch will find it, and fetches it.
    fn fetch_at(&mut self, address: u16, word: u16) {
        let user = self.machine.unit.user_mode();
        let mut probe = self.machine.unit;
        let entry = probe.entry(&self.machine.memory, user, address);
        let place = entry.ok().and_then(|entry| u16::try_from(entry.physical(address)).ok());
        if let Some(place) = place {
            self.push_word(place, word);
        }
        self.push_access([DATI, FETCH, 0], address, 0);
    }

    fn stack_word(&mut self) -> u16 {
        self.random.pick(&[0o004567, 0o000207, 0o000200, 0o000002, 0o000002, 0o104400, 0o104777])
    }

    /// JSR, RTS, RTI or TRAP and its accesses to open pages, SS and DS clear before.
    fn whole_instruction(&mut self) {
        let word = self.stack_word();
        let address = self.find_here(open);
        self.fetch_at(address, word);
        let operation = match Kind::of(word) {
            Kind::Jsr | Kind::Trap => DATO,
            _ => DATI,
        };
        for _ in 0..3 {
            let state = self.random.pick(&[1, 3, 4]);
            let address = self.find_here(open);
            let data = self.data();
            self.push_access([operation, state, 0], address, data);
        }
    }

    /// A fetch on a public page, then one on a private page at an entry point or not.
    fn enter_private(&mut self) {
        let address = self.find_here(open_public);
        self.fetch_at(address, 0o010101);
        let word = self.random.pick(&[0o000400, 0o000400, 0o000401, 0o010101]);
        let address = self.find_here(open_private);
        self.fetch_at(address, word);
    }

    /// A fetch on a public page, then the window or a private page.
    fn look_from_public(&mut self) {
        let address = self.find_here(open_public);
        self.fetch_at(address, 0o010101);
        let kind = self.kind();
        let usual = self.register_base(kind[1]).unwrap_or(0);
        let weak = self.plan.weak_registers << 9;
        let base = self.random.pick(&[usual, weak, weak]);
        let private = self.find_here(open_private);
        let address = self.random.pick(&[base | KTWN_OFFSET, base | KTWN_OFFSET, private]);
        let data = self.data();
        self.push_access(kind, address, data);
    }

    /// A user who stores FCN 3 and fetches before being started again.
    fn user_restart(&mut self) {
        let Some(base) = self.register_base(DESTINATION) else {
            return self.traps();
        };
        let address = self.find_here(open);
        self.push_access([DATO, DESTINATION, 0], base | KTCS_OFFSET, 3);
        self.fetch_planted();
        self.push_access([DATI, FETCH, 0], address, 0);
    }

    /// SS and DS cleared by a fetch, then FCN 1 and an instruction fetched unpaged.
    fn instruction_in_fcn_1(&mut self) {
        let Some(base) = self.register_base(DESTINATION) else {
            return self.traps();
        };
        let address = self.find_here(open);
        self.fetch_at(address, 0o010101);
        // SERVICE, so that the store itself does not set DS.
        self.push_access([DATO, SERVICE, 0], base | KTCS_OFFSET, 1);
        let place = 0o010000 + 2 * self.random.below(0o400) as u16;
        let word = self.stack_word();
        self.push_word(place, word);
        self.push_access([DATI, FETCH, 0], place, 0);
        for _ in 0..2 {
            let operation = self.random.pick(&[DATI, DATO, DATO]);
            let state = self.random.pick(&[1, 3, 4, 4]);
            let address = if state == 3 { self.find_here(open) } else { place };
            self.push_access([operation, state, 0], address, 0o010101);
        }
        self.push_access([DATO, SERVICE, 0], 0o177576, 2);
    }

    /// The public flag set in FCN 2, then a private page reached for in FCN 1.
    fn privacy_in_fcn_1(&mut self) {
        let Some(base) = self.register_base(DESTINATION) else {
            return self.traps();
        };
        let address = self.find_here(open_public);
        let private = self.find_here(open_private);
        self.fetch_at(address, 0o010101);
        self.push_access([DATO, SERVICE, 0], base | KTCS_OFFSET, 1);
        let operation = self.random.pick(&[DATI, DATO]);
        let state = self.random.pick(&[2, 3]);
        self.push_access([operation, state, 0], private, 0o010101);
    }

    /// A user page brought in by the window, its map word or pointer stored into, and the page
    /// looked at before and after it is forgotten.
    fn outdated_page(&mut self) {
        let Some(base) = self.register_base(DESTINATION) else {
            return self.traps();
        };
        let one = self.random.pick(&self.plan.pages);
        let other = self.random.pick(&self.plan.pages);
        // The higher of two, so as to get shared pages more often.
        let page = one.max(other);
        let address = (page << 9) | (2 * self.random.below(6) as u16);
        let word = if is_simple(self.plan.ktum, page) {
            self.plan.entry(&mut self.random)
        } else {
            self.plan.pointer(&mut self.random)
        };
        self.push_access([DATO, SERVICE, 0], base | KTAD_OFFSET, address);
        self.push_access([DATI, SERVICE, 0], base | KTWN_OFFSET, 0);
        let map_word = (USER_MAP << 9) | (0o400 + 2 * page);
        if self.random.one_in(3) {
            self.push_access([DATOB, SERVICE, 1], map_word | 1, word >> 8);
        } else {
            self.push_access([DATO, SERVICE, 0], map_word, word);
        }
        self.push_access([DATI, SERVICE, 0], base | KTWN_OFFSET, 0);
        self.push_access([DATO, SERVICE, 0], base | KTUM_OFFSET, self.plan.ktum);
        self.push_access([DATI, SERVICE, 0], base | KTWN_OFFSET, 0);
    }

    /// Accesses to as many pages as there are cells or some more, each one long enough ago to walk: directly, or by the window for the
    /// user's pages in exec.
    fn sweep(&mut self) {
        let window = match self.register_base(DESTINATION) {
            _ if self.sweeps_here() => None,
            Some(base) if self.plan.swept_by_user => Some(base),
            _ => return self.traps(),
        };
        for _ in 0..self.machine.unit.cells() + self.random.below(8) as usize {
            let page = self.plan.swept[self.swept % self.plan.swept.len()];
            self.swept += 1;
            let kind = self.kind();
            let mut address = (page << 9) | (2 * self.random.below(6) as u16);
            if let Some(base) = window {
                self.push_access([DATO, SERVICE, 0], base | KTAD_OFFSET, address);
                address = base | KTWN_OFFSET;
            }
            let data = self.data();
            self.push_access(kind, address, data);
        }
    }

    /// An access to 777640 to 777677 or to 777700: directly, by fetch or by the window.
    fn upper_words(&mut self) {
        let Some(base) = self.register_base(DESTINATION) else {
            return self.traps();
        };
        let offset = if self.random.one_in(4) { PAST_ALL_OFFSET } else { self.upper_offset() };
        let kind = self.kind();
        let odd = self.maybe_odd(kind[2]);
        let data = self.data();
        match (self.plan.user_registers, self.random.below(5)) {
            (Some(page), 0..=1) => {
                let inner = (page << 9) | offset | odd;
                self.push_access([DATO, SERVICE, 0], base | KTAD_OFFSET, inner);
                self.push_access(kind, base | KTWN_OFFSET, data);
            }
            (_, 2) => self.push_access([DATI, FETCH, 0], base | offset, 0),
            _ => self.push_access(kind, base | offset | odd, data),
        }
    }

    /// All cells emptied by a map register's store, then its last simple page and the first beyond it walked for: KTEM's directly, KTUM's by
    /// a user directly and by exec through the window.
    fn both_sides_of_the_boundary(&mut self) {
        let Some(base) = self.register_base(DESTINATION) else {
            return self.traps();
        };
        let user = self.machine.unit.user_mode();
        let by_window = !user && self.random.one_in(2);
        let (offset, register) = if user || by_window {
            (KTUM_OFFSET, self.plan.ktum)
        } else {
            (KTEM_OFFSET, self.plan.ktem)
        };
        self.push_access([DATO, SERVICE, 0], base | offset, register);
        for page in boundary_pages(register) {
            let mut address = (page << 9) | (2 * self.random.below(6) as u16);
            if by_window {
                self.push_access([DATO, SERVICE, 0], base | KTAD_OFFSET, address);
                address = base | KTWN_OFFSET;
            }
            let kind = self.kind();
            let data = self.data();
            self.push_access(kind, address, data);
        }
    }

    /// A scratchpad word or KTMR stored into and read, mostly by byte.
    fn scratchpad(&mut self) {
        let state = 1 + self.random.below(4);
        let Some(base) = self.register_base(state) else {
            return self.whole_instruction();
        };
        let cells = self.machine.unit.cells() as u64;
        let scratchpad = SCRATCHPAD_OFFSET + 2 * self.random.below(cells) as u16;
        let offset = self.random.pick(&[scratchpad, scratchpad, KTMR_OFFSET]);
        let word = self.plan.entry(&mut self.random);
        match self.random.below(3) {
            0 => self.push_access([DATOB, state, 1], base | offset, word),
            1 => self.push_access([DATOB, state, 1], base | offset | 1, word >> 8),
            _ => self.push_access([DATO, state, 0], base | offset, word),
        }
        let width = self.random.below(2);
        self.push_access([DATI, state, width], base | offset, 0);
    }

    /// KTUM or KTEM stored into, mostly with the value it has.
    fn store_map_register(&mut self) {
        let Some(base) = self.register_base(DESTINATION) else {
            return self.traps();
        };
        let choices = [(KTUM_OFFSET, self.plan.ktum), (KTEM_OFFSET, self.plan.ktem)];
        let (offset, value) = self.random.pick(&choices);
        let state = 1 + self.random.below(4);
        match self.random.below(4) {
            0 => self.push_access([DATOB, state, 1], base | offset, value),
            1 => self.push_access([DATOB, state, 1], base | offset | 1, value >> 8),
            _ => self.push_access([DATO, state, 0], base | offset, value),
        }
        self.push_access([DATI, state, 0], base | KTMR_OFFSET, 0);
    }
}
