//! The words in which a unit lies, made of the model's unit as T-08, the request for the 24-cell option, has them. The sentences are
//! those of the request and of the issue that settles it.

use kt11b::UNIT_WORDS;
use kt11b_model::{Unit, KTDT, KTEM, KTIC, KTUM};

/// "16 the number of cells (8 or 24), 17 the counter"
pub const COUNT_PLACE: usize = 16;
const COUNTER_PLACE: usize = 17;
/// "18 + i the tag and 42 + i the word of cell i for i from 0 to 23"
pub const TAGS_PLACE: usize = 18;
pub const WORDS_PLACE: usize = 42;
/// "66 the last word"
pub const LAST_PLACE: usize = 66;

/// The words of the model's unit.
pub fn words_of(unit: &Unit) -> [u16; UNIT_WORDS] {
    // In an 8-cell unit "there is room for the 16 cells that it hasn't got", and "making sets them to 0".
    let mut words = [0; UNIT_WORDS];
    // The "first word, whose value is a new one since it tells the layout", reads "K2" as bytes, the last one "1B".
    words[0] = u16::from_le_bytes(*b"K2");
    words[LAST_PLACE] = u16::from_le_bytes(*b"1B");
    // "0 to 15 as today (.. KTCS, KTIC to KTDT, wait, fetch memory, KTUM, KTEM)": KTCS packed, every other field in a word of its own.
    let registers = unit.registers();
    words[1] = unit.ktcs();
    words[2..8].copy_from_slice(&registers[KTIC..=KTDT]);
    words[8] = u16::from(unit.wait_number());
    // The fetch memory: the newer word, the older, the count of DATOs, that of all accesses, and the flag as a number.
    let fetched = unit.fetch_memory();
    words[9] = fetched.last;
    words[10] = fetched.before;
    words[11] = u16::from(fetched.datos);
    words[12] = u16::from(fetched.accesses);
    words[13] = u16::from(fetched.public);
    words[14] = registers[KTUM];
    words[15] = registers[KTEM];
    words[COUNT_PLACE] = unit.cells() as u16;
    words[COUNTER_PLACE] = u16::from(unit.counter());
    // "All tags side by side, then all words"
    for (cell, (&tag, &word)) in unit.tags().iter().zip(unit.words()).enumerate() {
        words[TAGS_PLACE + cell] = u16::from(tag);
        words[WORDS_PLACE + cell] = word;
    }
    words
}
