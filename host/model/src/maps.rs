//! From a page to its entry: the map registers, the walk, and the cells.

use crate::registers::word_at;
use crate::state::{Unit, FEW_CELLS, FIRST_CELL, KTEM, KTUM};

/// Map word bits: 15 resident, 14 public, 13 write-enabled.
const RESIDENT: u16 = 0o100000;
const PUBLIC: u16 = 0o040000;
const WRITE_ENABLED: u16 = 0o020000;

/// Where the walk for a page begins.
#[derive(Clone, Copy, PartialEq, Eq, Debug)]
pub enum Route {
    /// Exec page 0: physical page M of KTEM.
    ExecZero,
    /// The place of an exec page's map word in KTEM's page.
    ExecSimple(u32),
    /// The place of an exec page's map word in KTUM's page.
    ExecPerProcess(u32),
    /// The place of a user page's map word.
    UserSimple(u32),
    /// The place of a user page's pointer.
    UserShared(u32),
}

/// "The walk itself should report that it ran off memory": a map word or pointer that it needs is at or beyond L.
#[derive(Clone, Copy, PartialEq, Eq, Debug)]
pub(crate) struct RanOff;

/// What an access gets for its page.
#[derive(Clone, Copy, PartialEq, Eq, Debug)]
pub(crate) struct Entry {
    pub word: u16,
    pub exec_zero: bool,
}

impl Entry {
    #[inline]
    pub fn resident(&self) -> bool {
        self.word & RESIDENT != 0
    }

    #[inline]
    pub fn public(&self) -> bool {
        self.word & PUBLIC != 0
    }

    #[inline]
    pub fn write_enabled(&self) -> bool {
        self.word & WRITE_ENABLED != 0
    }

    #[inline]
    pub fn physical(&self, address: u16) -> u32 {
        page_base(self.word) + u32::from(address & 0o777)
    }
}

/// The first address of the physical page in a word's low 9 bits.
#[inline]
fn page_base(word: u16) -> u32 {
    u32::from(word & 0o777) * 512
}

/// N of a map register: "the field is the number of the last simple page".
#[inline]
pub fn last_simple_page(register: u16) -> u16 {
    register >> 9
}

/// "So pages 0 to N are simple, N=0 means one page, and N=127 means all."
#[inline]
pub fn is_simple(register: u16, page: u16) -> bool {
    page <= last_simple_page(register)
}

/// Where the walk for a page begins under these map registers.
#[inline]
pub fn route(ktum: u16, ktem: u16, user: bool, page: u16) -> Route {
    let high = 256 + 2 * u32::from(page);
    if user && is_simple(ktum, page) {
        Route::UserSimple(page_base(ktum) + high)
    } else if user {
        Route::UserShared(page_base(ktum) + high)
    } else if page == 0 {
        Route::ExecZero
    } else if is_simple(ktem, page) {
        Route::ExecSimple(page_base(ktem) + high)
    } else {
        // "word at 512·M(KTUM)+2p": in the low half of the page, where the others add 256.
        Route::ExecPerProcess(page_base(ktum) + 2 * u32::from(page))
    }
}

/// The place of the map word a pointer leads to.
#[inline]
pub fn pointed_place(pointer: u16) -> u32 {
    page_base(pointer) + 256 + 2 * u32::from(pointer >> 9)
}

/// A map word or pointer. No register is read for one, so that each place from L on is off memory.
#[inline]
fn map_word(memory: &[u8], place: u32) -> Result<u16, RanOff> {
    word_at(memory, place as usize).ok_or(RanOff)
}

/// The page a map register names as a part of the memory, or an empty part if it is not wholly there.
pub fn map_page(memory: &[u8], map_register: u16) -> &[u8] {
    let base = page_base(map_register) as usize;
    memory.get(base..base + 512).unwrap_or(&[])
}

/// 128 for user plus the page; exec page 0 would be 0, which means empty.
#[inline]
pub(crate) fn tag_of(user: bool, address: u16) -> u8 {
    let page = (address >> 9) as u8;
    if user {
        0o200 | page
    } else {
        page
    }
}

impl Unit {
    /// Step 6: the entry by hit or walk, or that the walk ran off memory. Exec page 0 is never walked, and a hit walks nothing.
    #[inline]
    pub(crate) fn entry(
        &mut self,
        memory: &[u8],
        user: bool,
        address: u16,
    ) -> Result<Entry, RanOff> {
        let tag = tag_of(user, address);
        if tag == 0 {
            let word = RESIDENT | WRITE_ENABLED | (self.registers[KTEM] & 0o777);
            return Ok(Entry { word, exec_zero: true });
        }
        if let Some(cell) = self.hit(tag) {
            return Ok(Entry { word: self.words[cell], exec_zero: false });
        }
        let word = self.walk(memory, user, address >> 9)?;
        self.fill(tag, word);
        Ok(Entry { word, exec_zero: false })
    }

    /// The first cell that holds this tag. Each loop has a length that the compiler knows, since this is the part of a hit that is timed.
    #[inline]
    pub(crate) fn hit(&self, tag: u8) -> Option<usize> {
        let holds = |&held: &u8| held == tag;
        match self.cells {
            _ if !self.has_cells => None,
            FEW_CELLS => self.tags[..FEW_CELLS].iter().position(holds),
            _ => self.tags.iter().position(holds),
        }
    }

    /// The page's map word. One report for a map word, for a pointer's own word and for the word that a pointer leads to.
    #[inline]
    fn walk(&self, memory: &[u8], user: bool, page: u16) -> Result<u16, RanOff> {
        match route(self.registers[KTUM], self.registers[KTEM], user, page) {
            // Not reached: the look-up makes no walk for exec page 0.
            Route::ExecZero => Err(RanOff),
            Route::ExecSimple(place) | Route::ExecPerProcess(place) | Route::UserSimple(place) => {
                map_word(memory, place)
            }
            Route::UserShared(place) => {
                let pointer = map_word(memory, place)?;
                map_word(memory, pointed_place(pointer))
            }
        }
    }

    /// A finished walk fills the cell the counter names; the counter steps, and comes round after the unit's last cell.
    #[inline]
    fn fill(&mut self, tag: u8, word: u16) {
        if !self.has_cells {
            return;
        }
        let cell = usize::from(self.counter - FIRST_CELL);
        self.tags[cell] = tag;
        self.words[cell] = word;
        let last = cell + 1 == self.cells;
        self.counter = if last { FIRST_CELL } else { self.counter + 1 };
    }
}
