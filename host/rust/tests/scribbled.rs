//! Words that don't hold a unit: always answered, never changed.

mod common;

use common::{Rig, BOTH};
use kt11b::{Answer, NumberedAccess, Register, Unit, Vector, UNIT_WORDS};

/// Every call and every reading of words that don't hold a unit.
fn refuses_everything(words: [u16; UNIT_WORDS]) {
    let mut rig = Rig::new();
    rig.unit = Unit::from_words(words);
    assert!(!rig.unit.is_unit());
    let unlisted = NumberedAccess { operation: 4, state: 9, width: 9, address: 0, data: 0 };
    let answers = rig.unchanged(|rig| {
        [
            rig.write(0o001004, 0o123456),
            rig.by_number(unlisted),
            rig.unit.interrupt(),
            rig.unit.trap(Vector::Emt),
            rig.unit.trap_numbered(5),
            rig.unit.init(),
            rig.unit.register_numbered(2),
            rig.unit.register_numbered(99),
            rig.unit.cell_tag_numbered(0),
            rig.unit.cell_word_numbered(99),
        ]
    });
    for reply in answers {
        assert_eq!((reply.answer(), reply.data()), (Answer::NoUnit, 0));
        assert_eq!(reply.physical(), None);
    }
    assert_eq!(rig.unit.register(Register::Ktcs), None);
    assert_eq!(rig.unit.cell_tag(0), None);
    assert_eq!(rig.unit.cell_word(0), None);
    assert_eq!((rig.unit.wait(), rig.unit.cells(), rig.unit.counter()), (None, None, None));
}

#[test]
fn words_that_never_held_a_unit() {
    refuses_everything([0; UNIT_WORDS]);
    refuses_everything([0o177777; UNIT_WORDS]);
    refuses_everything([0o123456; UNIT_WORDS]);
}

/// The words that enclose the unit.
#[test]
fn a_scribbled_end() {
    for (cells, place) in BOTH.into_iter().flat_map(|cells| [(cells, 0), (cells, UNIT_WORDS - 1)]) {
        let mut words = *Rig::with_cells(cells).unit.words();
        words[place] ^= 1;
        refuses_everything(words);
    }
}

/// Any one word set to any of these values is either refused whole or taken whole; a call never half-works.
#[test]
fn one_word_scribbled_over() {
    for cells in BOTH {
        let words = *Rig::user_with_cells(cells).unit.words();
        for place in 0..UNIT_WORDS {
            every_value_at(place, words);
        }
    }
}

fn every_value_at(place: usize, mut words: [u16; UNIT_WORDS]) {
    for value in [1, 2, 3, 4, 0o10, 0o17, 0o20, 0o30, 0o37, 0o40, 0o377, 0o100000, 0o177777] {
        words[place] = value;
        let mut unit = Unit::from_words(words);
        if unit.is_unit() {
            let cells = unit.cells();
            assert_eq!(unit.init().answer(), Answer::Done);
            assert!(unit.is_unit() && unit.cells() == cells);
        } else {
            refuses_everything(words);
        }
    }
}

/// "Words that say 8 cells with a counter above 17o, or 24 with one above 37o, or either with one below 10o, are no unit (70).
/// So are words with any other count."
#[test]
fn numbers_and_counters() {
    for number in [0, 1, 7, 8, 9, 16, 23, 24, 25, 30, 0o400 + 8, 0o177777] {
        for counter in [0, 0o7, 0o10, 0o17, 0o20, 0o37, 0o40, 0o410, 0o177777] {
            let mut words = *Unit::fresh().words();
            words[16] = number;
            words[17] = counter;
            let unit = Unit::from_words(words);
            if (number == 8 || number == 24) && (0o10..0o10 + number).contains(&counter) {
                assert_eq!((unit.cells(), unit.counter()), (Some(number.into()), Some(counter)));
            } else {
                refuses_everything(words);
            }
        }
    }
}

/// The 34 words of version 1 began with "KT".
#[test]
fn words_of_another_layout() {
    for cells in BOTH {
        let mut words = *Rig::with_cells(cells).unit.words();
        assert_eq!(words[0].to_le_bytes(), *b"K2");
        words[0] = u16::from_le_bytes(*b"KT");
        refuses_everything(words);
    }
}

/// INIT does not make a unit, `fresh` and `with_cells` do.
#[test]
fn a_fresh_one_holds_a_unit() {
    assert!(Unit::fresh().is_unit());
    for cells in BOTH {
        let unit = Rig::user_with_cells(cells).unit;
        let restored = Unit::from_words(*unit.words());
        assert!(restored == unit && restored.cells() == Some(cells as usize));
    }
}
