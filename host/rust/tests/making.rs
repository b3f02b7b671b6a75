//! Making a unit: with 8 or 24 cells, and with no other number.

mod common;

use common::{parts, Rig, BOTH};
use kt11b::{Answer, Unit, CELLS_24, CELLS_8, UNIT_WORDS};

extern "C" {
    // The crate makes each unit in words of its own, so what a refusal leaves of other words is asked of the library.
    fn kt11b_fresh(unit: *mut u16, cells: u64) -> u64;
}

/// "The number is of any size (64 bits at the doors)": those up to 300, and large ones that end in 8 or 24.
fn numbers() -> impl Iterator<Item = u64> {
    let large = [65_535, 65_544, 65_560, 1 << 32, (1 << 32) + 8, (1 << 32) + 24, (1 << 63) + 8];
    (0..=300).chain(large).chain([u64::MAX - 7, u64::MAX])
}

/// "8 and 24 give a fresh unit .. Every other number gives 30 and no unit."
#[test]
fn every_number() {
    for number in numbers() {
        match Unit::with_cells(number) {
            Ok(unit) => {
                assert!(BOTH.contains(&number), "{number}");
                assert_eq!(unit.cells(), Some(number as usize));
            }
            Err(reply) => {
                assert!(!BOTH.contains(&number), "{number}");
                assert_eq!(parts(reply), (Answer::OtherCount, 0, None), "{number}");
                assert_eq!((reply.answer_number(), reply.is_done()), (30, false));
            }
        }
    }
}

/// "a fresh unit (all zero, then INIT) with so many cells, counter 10o": the number, the counter and the two ends are not 0.
#[test]
fn every_word_of_a_fresh_unit() {
    for cells in BOTH {
        let mut expected = [0; UNIT_WORDS];
        expected[0] = u16::from_le_bytes(*b"K2");
        expected[16] = cells as u16;
        expected[17] = 0o10;
        expected[66] = u16::from_le_bytes(*b"1B");
        assert_eq!(*Rig::with_cells(cells).unit.words(), expected);
    }
}

#[test]
fn fresh_has_eight() {
    let eight = Rig::with_cells(CELLS_8).unit;
    assert!(Unit::fresh() == eight && Unit::default() == eight);
    assert_eq!(Unit::fresh().cells(), Some(8));
    // "Two units of different counts are different units".
    assert!(Rig::with_cells(CELLS_24).unit != eight);
}

/// "the library leaves the host's words as they were, whatever they were, also a unit that stood there"
#[test]
fn a_refusal_leaves_the_words() {
    let units = BOTH.map(|cells| *Rig::user_with_cells(cells).unit.words());
    let others = [[0; UNIT_WORDS], [0o177777; UNIT_WORDS], [0o123456; UNIT_WORDS]];
    for before in units.into_iter().chain(others) {
        for number in numbers().filter(|number| !BOTH.contains(number)) {
            let mut words = before;
            // Sound: `words` is UNIT_WORDS words that nothing else refers to.
            let reply = unsafe { kt11b_fresh(words.as_mut_ptr(), number) };
            assert_eq!(reply, 30 << 40, "{number}");
            assert_eq!(words, before, "{number}");
        }
    }
}

/// A making that is done leaves nothing of what stood there, a unit of the other number or words that are none.
#[test]
fn a_making_sets_every_word() {
    let units = BOTH.map(|cells| *Rig::user_with_cells(cells).unit.words());
    for before in units.into_iter().chain([[0o177777; UNIT_WORDS]]) {
        for cells in BOTH {
            let mut words = before;
            // Sound: `words` is UNIT_WORDS words that nothing else refers to.
            let reply = unsafe { kt11b_fresh(words.as_mut_ptr(), cells) };
            assert_eq!(reply, 0, "answer 0, data 0, no physical address");
            assert!(Unit::from_words(words) == Rig::with_cells(cells).unit);
        }
    }
}
