//! The reading functions for a front panel or a debugger: what they show, and that they change nothing.

mod common;

use common::{parts, Rig, BOTH};
use kt11b::{Answer, Register, Unit, Wait};

#[test]
fn a_fresh_unit() {
    for cells in BOTH {
        fresh_with_cells(cells);
    }
}

fn fresh_with_cells(cells: u64) {
    let unit = Rig::with_cells(cells).unit;
    for register in Register::ALL {
        let expected = if register == Register::Ktmr { 0o004000 } else { 0 };
        assert_eq!(unit.register(register), Some(expected), "{register:?}");
    }
    assert_eq!(unit.cells(), Some(cells as usize));
    for cell in 0..cells as usize {
        assert_eq!((unit.cell_tag(cell), unit.cell_word(cell)), (Some(0), Some(0)));
    }
    assert_eq!(unit.counter(), Some(0o10));
    assert_eq!(unit.wait(), Some(Wait::Nothing));
}

/// 01's table of registers, with the unpaged address of each.
const ADDRESSES: [(Register, u16); 10] = [
    (Register::Ktmr, 0o177574),
    (Register::Ktcs, 0o177576),
    (Register::Ktic, 0o177600),
    (Register::Ktsp, 0o177602),
    (Register::Ktpc, 0o177604),
    (Register::Ktps, 0o177606),
    (Register::Ktad, 0o177610),
    (Register::Ktdt, 0o177612),
    (Register::Ktum, 0o177614),
    (Register::Ktem, 0o177616),
];

/// The reading function and an unpaged DATI of the register's address show the same word, another one for each register.
#[test]
fn registers_as_the_bus_shows_them() {
    let mut rig = Rig::new();
    for (register, address) in ADDRESSES {
        if register != Register::Ktcs {
            rig.write(address, address ^ 0o123000);
        }
    }
    for (register, address) in ADDRESSES {
        let expected = match register {
            Register::Ktmr => 0o004000,
            Register::Ktcs => 0,
            _ => address ^ 0o123000,
        };
        assert_eq!(rig.read(address).data(), expected, "{register:?}");
        assert_eq!(rig.unit.register(register), Some(expected), "{register:?}");
    }
    assert_eq!(ADDRESSES.map(|(register, _)| register), Register::ALL);
}

/// "Tag: 128 for user plus p"; "fills the cell the counter names, then the counter steps 10o to 17o and round".
#[test]
fn cells_and_counter() {
    let mut rig = Rig::user();
    rig.read(0o001000);
    assert_eq!(rig.unit.cell_tag(0), Some(0o201));
    assert_eq!(rig.unit.cell_word(0), Some(0o120020));
    assert_eq!(rig.unit.counter(), Some(0o11));
    rig.read(0o003000);
    assert_eq!(rig.unit.cell_tag(1), Some(0o203));
    assert_eq!(rig.unit.cell_word(1), Some(0o100021));
    assert_eq!(rig.unit.register(Register::Ktmr), Some(0o005000));
}

#[test]
fn numbers_outside_their_lists() {
    let unit = Unit::fresh();
    for number in [0, 11, 12, 300, 1 << 32, u64::MAX] {
        assert_eq!(unit.register_numbered(number).answer(), Answer::Misshapen, "{number}");
    }
}

/// "answer 1 at or beyond the unit's own number".
#[test]
fn indices_beyond_the_cells() {
    for cells in BOTH {
        let unit = Rig::with_cells(cells).unit;
        for index in [7, 8, 9, 23, 24, 25, 300, 1 << 32, (1 << 32) + 7, u64::MAX] {
            let answer = if index < cells { Answer::Done } else { Answer::Misshapen };
            assert_eq!(parts(unit.cell_tag_numbered(index)), (answer, 0, None), "{index}");
            assert_eq!(parts(unit.cell_word_numbered(index)), (answer, 0, None), "{index}");
        }
        let past = cells as usize;
        assert_eq!((unit.cell_tag(past - 1), unit.cell_word(past - 1)), (Some(0), Some(0)));
        assert_eq!((unit.cell_tag(past), unit.cell_word(past)), (None, None));
    }
}

#[test]
fn reading_changes_nothing() {
    let mut rig = Rig::user();
    rig.read(0o001000);
    rig.unchanged(|rig| {
        for number in 0..300 {
            rig.unit.register_numbered(number);
            rig.unit.cell_tag_numbered(number);
            rig.unit.cell_word_numbered(number);
        }
        (rig.unit.counter(), rig.unit.wait(), rig.unit.cells())
    });
}

#[test]
fn shown_for_debugging() {
    let shown = format!("{:?}", Rig::user().unit);
    assert!(shown.contains("Ktum: 020005"), "{shown}");
    assert!(shown.contains("cells: Some(8)"), "{shown}");
    let shown = format!("{:?}", Unit::from_words([0; kt11b::UNIT_WORDS]));
    assert!(shown.contains("words that don't hold a unit"), "{shown}");
}
