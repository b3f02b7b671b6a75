//! An episode's plan: the map registers, the pages in play, and the map words they get.

use super::boundary::boundary_pages;
use super::random::Random;
use crate::maps::{pointed_place, route, Route};
use crate::state::FEW_CELLS;

/// Physical pages that hold maps; the others in use hold data.
pub const MAP_PAGES: [u16; 6] = [1, 2, 3, 4, 5, 6];
const REGISTER_PAGE: u16 = 0o777;

/// Virtual pages that lead to the maps themselves.
pub const USER_MAP: u16 = 20;
pub const EXEC_MAP: u16 = 21;

/// Pages to sweep over in turn, more than there are cells, so that each one walks. Seldom does a map word of another page in play, or a
/// word that a pointer leads to, stand at their places.
const SWEPT_PAGES: std::ops::Range<u16> = 32..64;

/// How often a page is resident, public and write-enabled, in percent.
#[derive(Clone, Copy)]
pub struct Keys {
    resident: u64,
    public: u64,
    write: u64,
}

pub struct Plan {
    pub ktum: u16,
    pub ktem: u16,
    /// Virtual pages in play, in both modes.
    pub pages: Vec<u16>,
    /// The exec's virtual page that is the register page.
    pub exec_registers: u16,
    /// The user's, if there is one.
    pub user_registers: Option<u16>,
    /// A page of both modes that is the register page too, with keys of any sort.
    pub weak_registers: u16,
    /// Pages of one mode, to fill all of many cells by; with few cells the others do that.
    pub swept: Vec<u16>,
    /// Whether it is the user's mode.
    pub swept_by_user: bool,
    keys: Keys,
}

impl Plan {
    /// A plan for a unit with so many cells.
    pub fn new(random: &mut Random, cells: usize) -> Plan {
        let ktum = map_register(random);
        let exec_zero_registers = random.one_in(6);
        let ktem = if exec_zero_registers {
            // Exec page 0 is the register page; the others then come from KTUM's page.
            (random.pick(&[0, 0, 0, 2]) << 9) | REGISTER_PAGE
        } else {
            map_register(random)
        };
        let mut pages = pages_in_play(random, [ktum, ktem]);
        let exec_registers = if exec_zero_registers { 0 } else { random.pick(&[127, 127, 127, 5]) };
        let user_page = random.pick(&pages);
        let weak_registers = 6 + random.below(8) as u16;
        pages.push(weak_registers);
        let many = cells > FEW_CELLS;
        Plan {
            ktum,
            ktem,
            exec_registers,
            weak_registers,
            user_registers: random.percent(75).then_some(user_page),
            keys: keys(random),
            swept: if many { SWEPT_PAGES.collect() } else { Vec::new() },
            swept_by_user: many && random.one_in(2),
            pages,
        }
    }

    /// The words to be put in memory for the plan's pages: place and value.
    pub fn words(&self, random: &mut Random) -> Vec<(u16, u16)> {
        let mut words = Vec::new();
        for user in [false, true] {
            for &page in &self.pages {
                let entry = self.entry(random);
                self.put(random, &mut words, user, page, entry);
            }
            // The pages through which map words can be stored into.
            for (page, register) in [(USER_MAP, self.ktum), (EXEC_MAP, self.ktem)] {
                let entry = 0o120000 | (random.word() & 0o040000) | (register & 0o777);
                self.put(random, &mut words, user, page, entry);
            }
        }
        for &page in &self.swept {
            let entry = self.swept_entry(random);
            self.put(random, &mut words, self.swept_by_user, page, entry);
        }
        for user in [false, true] {
            let weak = random.pick(&[0o120000, 0o140000, 0o100000, 0o060000, 0o160000]);
            self.put(random, &mut words, user, self.weak_registers, weak | REGISTER_PAGE);
        }
        let registers = random.pick(&[0o120777, 0o160777, 0o160777]);
        self.put(random, &mut words, false, self.exec_registers, registers);
        if let Some(page) = self.user_registers {
            let registers = random.pick(&[0o120777, 0o160777, 0o160777]);
            self.put(random, &mut words, true, page, registers);
        }
        words
    }

    /// A map word of a page that is swept over: all keys and a data page, but for one in some forty.
    fn swept_entry(&self, random: &mut Random) -> u16 {
        if random.one_in(40) {
            self.entry(random)
        } else {
            0o160000 | data_page(random)
        }
    }

    /// A map word with the plan's keys.
    pub fn entry(&self, random: &mut Random) -> u16 {
        let page = match random.below(100) {
            0 => 128 + random.below(384) as u16,
            1..=4 => random.pick(&MAP_PAGES),
            5 => REGISTER_PAGE,
            6..=9 => random.below(128) as u16,
            _ => data_page(random),
        };
        let mut word = page;
        for (bit, chance) in
            [(15, self.keys.resident), (14, self.keys.public), (13, self.keys.write)]
        {
            word |= u16::from(random.percent(chance)) << bit;
        }
        if random.one_in(5) {
            word |= random.word() & 0o017000;
        }
        word
    }

    /// A pointer of a shared page, mostly into a map page.
    pub fn pointer(&self, random: &mut Random) -> u16 {
        let page = match random.below(9) {
            0 => 128 + random.below(384) as u16,
            _ => random.pick(&MAP_PAGES),
        };
        // Mostly away from the pages in play, so that shared words are not simple ones too.
        let number = if random.one_in(6) { random.below(128) } else { 64 + random.below(32) };
        ((number as u16) << 9) | page
    }

    fn put(&self, random: &mut Random, to: &mut Vec<(u16, u16)>, user: bool, page: u16, word: u16) {
        match route(self.ktum, self.ktem, user, page) {
            Route::ExecZero => {}
            Route::ExecSimple(place) | Route::ExecPerProcess(place) | Route::UserSimple(place) => {
                push_place(to, place, word);
            }
            Route::UserShared(place) => {
                let pointer = self.pointer(random);
                push_place(to, place, pointer);
                push_place(to, pointed_place(pointer), word);
            }
        }
    }
}

/// The lowest and the highest pages, those that lead to the maps, two more, and those at the boundary of each map register.
fn pages_in_play(random: &mut Random, map_registers: [u16; 2]) -> Vec<u16> {
    let mut pages = vec![0, 1, 2, 3, 4, 5, 126, 127, USER_MAP, EXEC_MAP];
    for _ in 0..2 {
        pages.push(random.below(128) as u16);
    }
    pages.extend(map_registers.into_iter().flat_map(boundary_pages));
    pages
}

/// A physical page that holds no map.
fn data_page(random: &mut Random) -> u16 {
    8 + random.below(12) as u16
}

fn push_place(to: &mut Vec<(u16, u16)>, place: u32, word: u16) {
    if let Ok(place) = u16::try_from(place) {
        to.push((place, word));
    }
}

/// N of any size, often small, or such that all pages are simple or all but the last; M mostly a map page.
fn map_register(random: &mut Random) -> u16 {
    let last_simple = match random.below(10) {
        0..=2 => 127,
        3..=7 => random.below(5) as u16,
        8 => 126,
        _ => random.below(128) as u16,
    };
    let page = match random.below(60) {
        0 => REGISTER_PAGE,
        1 => 128 + random.below(384) as u16,
        2 => random.below(128) as u16,
        _ => random.pick(&MAP_PAGES),
    };
    (last_simple << 9) | page
}

fn keys(random: &mut Random) -> Keys {
    Keys {
        resident: random.pick(&[88, 97, 97, 100]),
        public: random.pick(&[0, 30, 50, 50, 70, 90, 100]),
        write: random.pick(&[70, 90, 97, 100]),
    }
}
