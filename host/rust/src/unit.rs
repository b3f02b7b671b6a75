//! The unit, and the map page that tools get.

use crate::library::*;
use crate::numbered::NumberedAccess;
use crate::numbers::{Operation, Register, State, Vector, Wait, Width};
use crate::reply::Reply;
use core::fmt;

/// How many words a unit takes, with either number of cells.
pub const UNIT_WORDS: usize = 67;

/// The number of associative cells that the KT11-B has.
pub const CELLS_8: u64 = 8;

/// The number of associative cells that the option has.
pub const CELLS_24: u64 = 24;

/// The most memory that can be lent, in bytes: 760000 octal. The length is also even.
pub const LONGEST_MEMORY: usize = 0o760000;

/// A paging unit. It owns its words and holds no memory: the host lends its memory anew with each access.
///
/// Calls by enum are for hosts; calls by number take every number there is, and refuse those outside their lists.
#[derive(Clone, PartialEq, Eq)]
pub struct Unit {
    words: [u16; UNIT_WORDS],
}

impl Unit {
    /// A fresh unit with 8 cells: all zero, then INIT.
    ///
    /// ```
    /// let unit = kt11b::Unit::fresh();
    /// assert_eq!((unit.cells(), unit.counter()), (Some(8), Some(0o10)));
    /// ```
    pub fn fresh() -> Unit {
        Unit::with_cells(CELLS_8).expect("the library makes a unit with 8 cells")
    }

    /// A fresh unit with so many cells, [`CELLS_8`] or [`CELLS_24`]: all zero, then INIT.
    ///
    /// Nothing else sets the number: no call changes it. Every other number gives no unit, and the library's reply, whose
    /// answer is [`Answer::OtherCount`](crate::Answer::OtherCount).
    ///
    /// ```
    /// use kt11b::{Answer, Unit};
    ///
    /// let unit = Unit::with_cells(24).expect("24 is one of the two numbers");
    /// assert_eq!((unit.cells(), unit.counter()), (Some(24), Some(0o10)));
    ///
    /// let refused = Unit::with_cells(16).expect_err("16 is not");
    /// assert_eq!(refused.answer(), Answer::OtherCount);
    /// assert_eq!(refused.answer_number(), 30);
    /// ```
    pub fn with_cells(cells: u64) -> Result<Unit, Reply> {
        let mut words = [0; UNIT_WORDS];
        // Sound: `words` is UNIT_WORDS words that nothing else refers to.
        let reply = Reply::from_number(unsafe { kt11b_fresh(words.as_mut_ptr(), cells) });
        if reply.is_done() {
            Ok(Unit { words })
        } else {
            Err(reply)
        }
    }

    /// A unit of words that [`words`](Unit::words) gave, in this run or in an earlier one of the same [`VERSION`](crate::VERSION).
    ///
    /// Any words are taken. Words that don't hold a unit are refused by each call with
    /// [`Answer::NoUnit`](crate::Answer::NoUnit), and then nothing changes. In the words of a unit with 8 cells, those with room
    /// for the 16 that it hasn't got, 26 to 41 and 50 to 65, can be anything and change no answer; a fresh unit has 0 there.
    pub fn from_words(words: [u16; UNIT_WORDS]) -> Unit {
        Unit { words }
    }

    /// The words in which the unit lies.
    pub fn words(&self) -> &[u16; UNIT_WORDS] {
        &self.words
    }

    /// Whether the words hold a unit. Those of [`fresh`](Unit::fresh) and [`with_cells`](Unit::with_cells) do, and every call
    /// keeps it so.
    pub fn is_unit(&self) -> bool {
        self.counter().is_some()
    }

    /// One access of the processor's.
    ///
    /// The reply has the word read, or 0 for a store, and the physical address. Memory changes only by a store that is done.
    /// Its length is even and at most [`LONGEST_MEMORY`]; others are refused.
    #[inline]
    pub fn access(
        &mut self,
        memory: &mut [u8],
        operation: Operation,
        state: State,
        width: Width,
        address: u16,
        data: u16,
    ) -> Reply {
        let [operation, state, width] = [operation as u64, state as u64, width as u64];
        self.access_numbered(memory, NumberedAccess { operation, state, width, address, data })
    }

    /// The same by the numbers of operation, state and width.
    #[inline]
    pub fn access_numbered(&mut self, memory: &mut [u8], access: NumberedAccess) -> Reply {
        let NumberedAccess { operation, state, width, address, data } = access;
        let length = memory.len() as u64;
        let unit = self.words.as_mut_ptr();
        // Sound: the words and the memory are two exclusive borrows, so they do not overlap, and the length is the memory's.
        // An empty slice's pointer is not null.
        let number = unsafe {
            kt11b_access(unit, memory.as_mut_ptr(), length, operation, state, width, address, data)
        };
        Reply::from_number(number)
    }

    /// A device interrupts.
    pub fn interrupt(&mut self) -> Reply {
        // Sound: the words are borrowed for this call alone.
        Reply::from_number(unsafe { kt11b_interrupt(self.words.as_mut_ptr()) })
    }

    /// The processor traps through a vector.
    pub fn trap(&mut self, vector: Vector) -> Reply {
        self.trap_numbered(vector as u64)
    }

    /// The same by the vector's number.
    pub fn trap_numbered(&mut self, vector: u64) -> Reply {
        // Sound: the words are borrowed for this call alone.
        Reply::from_number(unsafe { kt11b_trap(self.words.as_mut_ptr(), vector) })
    }

    /// The bus signal INIT: clears KTCS, the wait, the fetch memory and the cells. The other registers stay.
    pub fn init(&mut self) -> Reply {
        // Sound: the words are borrowed for this call alone.
        Reply::from_number(unsafe { kt11b_init(self.words.as_mut_ptr()) })
    }

    /// A register's word, or none if the words don't hold a unit.
    pub fn register(&self, register: Register) -> Option<u16> {
        held(self.register_numbered(register as u64))
    }

    /// The same by the register's number, with the library's whole reply.
    pub fn register_numbered(&self, number: u64) -> Reply {
        // Sound: the library only reads here.
        Reply::from_number(unsafe { kt11b_register(self.words.as_ptr(), number) })
    }

    /// The number of cells that the unit was made with, 8 or 24, or none if the words don't hold a unit.
    pub fn cells(&self) -> Option<usize> {
        // Sound: the library only reads here.
        let reply = Reply::from_number(unsafe { kt11b_cells(self.words.as_ptr()) });
        held(reply).map(usize::from)
    }

    /// A cell's tag: 128 for user plus the page, 0 for an empty cell. None at or beyond the unit's own number of
    /// [`cells`](Unit::cells), or if the words don't hold a unit.
    pub fn cell_tag(&self, index: usize) -> Option<u16> {
        held(self.cell_tag_numbered(index as u64))
    }

    /// The same with the library's whole reply.
    pub fn cell_tag_numbered(&self, index: u64) -> Reply {
        // Sound: the library only reads here.
        Reply::from_number(unsafe { kt11b_cell_tag(self.words.as_ptr(), index) })
    }

    /// A cell's scratchpad word. None at or beyond the unit's own number of [`cells`](Unit::cells), or if the words don't hold a
    /// unit.
    pub fn cell_word(&self, index: usize) -> Option<u16> {
        held(self.cell_word_numbered(index as u64))
    }

    /// The same with the library's whole reply.
    pub fn cell_word_numbered(&self, index: u64) -> Reply {
        // Sound: the library only reads here.
        Reply::from_number(unsafe { kt11b_cell_word(self.words.as_ptr(), index) })
    }

    /// The replacement counter, 10 to 17 octal with 8 cells and 10 to 37 with 24, or none if the words don't hold a unit.
    pub fn counter(&self) -> Option<u16> {
        // Sound: the library only reads here.
        held(Reply::from_number(unsafe { kt11b_counter(self.words.as_ptr()) }))
    }

    /// What the unit waits for, or none if the words don't hold a unit.
    pub fn wait(&self) -> Option<Wait> {
        // Sound: the library only reads here.
        let reply = Reply::from_number(unsafe { kt11b_wait(self.words.as_ptr()) });
        held(reply).and_then(Wait::of)
    }
}

/// The data of a reading that was done.
fn held(reply: Reply) -> Option<u16> {
    reply.is_done().then_some(reply.data())
}

impl Default for Unit {
    fn default() -> Unit {
        Unit::fresh()
    }
}

impl fmt::Debug for Unit {
    fn fmt(&self, to: &mut fmt::Formatter<'_>) -> fmt::Result {
        let mut shown = to.debug_struct("Unit");
        for register in Register::ALL {
            let Some(word) = self.register(register) else {
                return shown.field("words that don't hold a unit", &self.words).finish();
            };
            shown.field(register.name(), &format_args!("{word:06o}"));
        }
        shown.field("wait", &self.wait()).field("cells", &self.cells()).finish_non_exhaustive()
    }
}

/// The page that a map register's word names, as a part of the memory; an empty part if it is not wholly in it.
///
/// ```
/// let memory = vec![0u8; 4096];
/// assert_eq!(kt11b::map_page(&memory, 0o004005).len(), 512);
/// assert!(kt11b::map_page(&memory, 0o004010).is_empty());
/// ```
pub fn map_page(memory: &[u8], word: u16) -> &[u8] {
    // Sound: the library gets two numbers and no pointer. What it gives is tested here again, by `get`.
    let place = unsafe { kt11b_map_page(memory.len() as u64, word) };
    let first = usize::try_from(place).unwrap_or(usize::MAX);
    first.checked_add(512).and_then(|end| memory.get(first..end)).unwrap_or(&[])
}
