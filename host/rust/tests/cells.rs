//! What the number of cells decides: where the counter goes round, and which scratchpad words the bus has.

mod common;

use common::{parts, Rig, BOTH};
use kt11b::{Answer, NumberedAccess, Register, State, Unit, Vector, Wait, CELLS_24, CELLS_8};
use std::ops::RangeInclusive;

const TIME_OUT: (Answer, u16, Option<u32>) = (Answer::TimeOut, 0, None);

/// Exec pages 1 to 137 with the map words 160040 + p at 001400 + 2p, KTEM 177001 and FCN 1: EXECUTE is paged, SOURCE is not.
fn rig_with_pages(cells: u64) -> Rig {
    let mut rig = Rig::with_cells(cells);
    for page in 1..0o140 {
        rig.put(0o001400 + 2 * page, 0o160040 + page as u16);
    }
    assert_eq!(rig.write_in(State::Source, 0o177616, 0o177001).answer(), Answer::Done);
    assert_eq!(rig.write_in(State::Source, 0o177576, 0o000001).answer(), Answer::Done);
    rig
}

/// Reads the first word of each of these pages.
fn read_pages(rig: &mut Rig, pages: RangeInclusive<u16>) {
    for page in pages {
        assert_eq!(rig.read_in(State::Execute, page << 9).answer(), Answer::Done, "{page:o}");
    }
}

/// What the bus has at an unpaged address: a word, or nothing.
fn seen(rig: &mut Rig, address: u16) -> Option<u16> {
    let reply = rig.read_in(State::Source, address);
    if reply.answer() == Answer::TimeOut {
        return None;
    }
    assert_eq!(parts(reply), (Answer::Done, reply.data(), Some(0o600000 + u32::from(address))));
    Some(reply.data())
}

/// The last page that has been read, an address, and what is there with 24 cells and with 8.
type Row = (u16, u16, Option<u16>, Option<u16>);

/// Worked by hand: with n cells page p, from 1 on, takes cell (p - 1) modulo n, and the counter is then 10 + p modulo n.
const ROWS: [Row; 13] = [
    (0, 0o177574, Some(0o004000), Some(0o004000)),
    (0o10, 0o177574, Some(0o010000), Some(0o004000)),
    (0o11, 0o177574, Some(0o010400), Some(0o004400)),
    (0o11, 0o177620, Some(0o160041), Some(0o160051)),
    (0o11, 0o177640, Some(0o160051), None),
    (0o11, 0o177676, Some(0o000000), None),
    (0o27, 0o177574, Some(0o017400), Some(0o007400)),
    (0o30, 0o177574, Some(0o004000), Some(0o004000)),
    (0o30, 0o177676, Some(0o160070), None),
    (0o31, 0o177574, Some(0o004400), Some(0o004400)),
    (0o31, 0o177620, Some(0o160071), Some(0o160071)),
    (0o31, 0o177622, Some(0o160042), Some(0o160062)),
    (0o31, 0o177700, None, None),
];

#[test]
fn worked_walks() {
    for cells in BOTH {
        let mut rig = rig_with_pages(cells);
        let mut read = 0;
        for (page, address, with_24, with_8) in ROWS {
            read_pages(&mut rig, read + 1..=page);
            read = page;
            let expected = if cells == CELLS_24 { with_24 } else { with_8 };
            assert_eq!(seen(&mut rig, address), expected, "{cells}: {page:o}, {address:o}");
        }
    }
}

/// A DATOB in SOURCE, which FCN 1 leaves unpaged.
fn store_byte(rig: &mut Rig, address: u16, data: u16) -> (Answer, u16, Option<u32>) {
    parts(rig.by_number(NumberedAccess { operation: 3, state: 1, width: 1, address, data }))
}

/// Takes the write key of page 30 out of cell 23 by a byte at 777677, and goes through the violation that follows.
#[test]
fn worked_stores_with_24() {
    let mut rig = rig_with_pages(CELLS_24);
    read_pages(&mut rig, 1..=0o31);
    let done = |physical| (Answer::Done, 0, Some(physical));
    assert_eq!(store_byte(&mut rig, 0o177677, 0o000300), done(0o777677));
    assert_eq!(seen(&mut rig, 0o177676), Some(0o140070));

    let refused = rig.write_in(State::Execute, 0o030000, 0o123456);
    assert_eq!(parts(refused), (Answer::WriteViolation, 0, None));
    assert_eq!(rig.unit.register(Register::Ktcs), Some(0o020001));
    assert_eq!(parts(rig.serve(0o000676, 0)), (Answer::Done, 0, None));
    assert_eq!(parts(rig.serve(0o000674, 0)), (Answer::Done, 0, None));
    assert_eq!(seen(&mut rig, 0o177676), Some(0), "the cell of the page at fault is emptied");
    assert_eq!(seen(&mut rig, 0o177574), Some(0o004400), "and the counter stays");

    assert_eq!(parts(rig.write_in(State::Source, 0o177576, 1)), done(0o777576));
    assert_eq!(parts(rig.write_in(State::Source, 0o177640, 0o123456)), done(0o777640));
    assert_eq!(seen(&mut rig, 0o177640), Some(0o123456));
    assert_eq!(store_byte(&mut rig, 0o177617, 0o000376), done(0o777617), "KTEM, a byte, equal");
    assert_eq!(seen(&mut rig, 0o177640), Some(0));
    assert_eq!(seen(&mut rig, 0o177574), Some(0o004000));
}

/// The same calls with 8: the stores above 777637 go nowhere, and page 30's word in cell 7 keeps its write key.
#[test]
fn worked_stores_with_8() {
    let mut rig = rig_with_pages(CELLS_8);
    read_pages(&mut rig, 1..=0o31);
    assert_eq!(store_byte(&mut rig, 0o177677, 0o000300), TIME_OUT);
    assert_eq!(seen(&mut rig, 0o177676), None);
    let stored = rig.write_in(State::Execute, 0o030000, 0o123456);
    assert_eq!(parts(stored), (Answer::Done, 0, Some(0o070000)));
    assert_eq!(parts(rig.write_in(State::Source, 0o177640, 0o123456)), TIME_OUT);
    assert_eq!(seen(&mut rig, 0o177640), None);
    let done = (Answer::Done, 0, Some(0o777617));
    assert_eq!(store_byte(&mut rig, 0o177617, 0o000376), done, "KTEM, a byte, equal");
    assert_eq!(seen(&mut rig, 0o177640), None);
    assert_eq!(seen(&mut rig, 0o177574), Some(0o004000));
}

/// "It runs 10o to 17o and round with 8 cells, 10o to 37o and round with 24 .. KTMR reads the counter times 256".
#[test]
fn the_counter_goes_round() {
    for cells in BOTH {
        let mut rig = rig_with_pages(cells);
        for walks in 1..=80 {
            read_pages(&mut rig, walks..=walks);
            let counter = 0o10 + walks % cells as u16;
            assert_eq!(rig.unit.counter(), Some(counter), "{cells}: {walks}");
            assert_eq!(rig.unit.register(Register::Ktmr), Some(counter * 256));
            let filled = usize::from(walks - 1) % cells as usize;
            assert_eq!(rig.unit.cell_tag(filled), Some(walks));
            assert_eq!(rig.unit.cell_word(filled), Some(0o160040 + walks));
        }
    }
}

/// "Cell i .. its scratchpad word stands at 777620o + 2i"; "both bytes of each word belong to it"; "777700o on is nowhere".
#[test]
fn every_scratchpad_address() {
    for cells in BOTH {
        let mut rig = rig_with_pages(cells);
        read_pages(&mut rig, 1..=cells as u16);
        for address in 0o177620..=0o177777u16 {
            let cell = usize::from(address - 0o177620) / 2;
            let read = NumberedAccess { operation: 0, state: 1, width: 1, address, data: 0 };
            let reply = rig.by_number(read);
            let word = rig.unit.cell_word(cell);
            let there = word.map(|word| (Answer::Done, word, Some(0o600000 + u32::from(address))));
            assert_eq!(parts(reply), there.unwrap_or(TIME_OUT), "{cells}: {address:o}");
            assert_eq!(word.is_some(), cell < cells as usize);
        }
    }
}

/// A store of a byte into each half of each scratchpad word changes that half of that cell alone.
#[test]
fn both_bytes_of_each_word() {
    for cells in BOTH {
        let mut rig = rig_with_pages(cells);
        read_pages(&mut rig, 1..=cells as u16);
        for cell in 0..cells as usize {
            let address = 0o177620 + 2 * cell as u16;
            store_byte(&mut rig, address, 0o123);
            store_byte(&mut rig, address + 1, 0o200 + cell as u16);
        }
        for cell in 0..cells as usize {
            let word = (0o200 + cell as u16) << 8 | 0o123;
            assert_eq!(rig.unit.cell_word(cell), Some(word), "{cells}: {cell}");
            assert_eq!(rig.unit.cell_tag(cell), Some(cell as u16 + 1), "the tag is left");
        }
    }
}

fn is_empty(unit: &Unit) -> bool {
    let cells = 0..unit.cells().expect("a unit that was made");
    cells.into_iter().all(|cell| (unit.cell_tag(cell), unit.cell_word(cell)) == (Some(0), Some(0)))
}

/// A call that empties the cells, and its answer.
type Emptying = fn(&mut Rig) -> Answer;

/// "INIT and the map register stores empty all cells that the unit has and set the counter to 10o", and keep their number.
#[test]
fn emptied_and_no_fewer() {
    let calls: [(&str, Emptying); 5] = [
        ("INIT", |rig| rig.unit.init().answer()),
        ("KTUM", |rig| rig.write_in(State::Source, 0o177614, 5).answer()),
        ("KTEM", |rig| rig.write_in(State::Source, 0o177616, 5).answer()),
        ("KTUM's low byte", |rig| store_byte(rig, 0o177614, 0).0),
        ("KTEM's high byte", |rig| store_byte(rig, 0o177617, 0).0),
    ];
    for (what, call) in calls {
        for cells in BOTH {
            let mut rig = rig_with_pages(cells);
            read_pages(&mut rig, 1..=cells as u16 + 3);
            assert!(!is_empty(&rig.unit) && rig.unit.counter() == Some(0o13));
            assert_eq!(call(&mut rig), Answer::Done, "{what}");
            assert_eq!(rig.unit.cells(), Some(cells as usize), "{what}");
            assert!(is_empty(&rig.unit) && rig.unit.counter() == Some(0o10), "{what}");
        }
    }
}

/// "INIT, a KTUM or KTEM store, a violation, a trap: none changes it."
#[test]
fn no_call_changes_the_number() {
    for cells in BOTH {
        let mut rig = Rig::user_with_cells(cells);
        let replies = [
            rig.read(0o001010),
            rig.write(0o003010, 7),
            rig.serve(0o000676, 0),
            rig.serve(0o000674, 0),
            rig.unit.interrupt(),
            rig.unit.trap(Vector::Emt),
            rig.fetch(0o000001),
            rig.unit.init(),
            rig.write(0o177614, 0o020005),
        ];
        let answers = replies.map(|reply| reply.answer_number());
        assert_eq!(answers, [0, 6, 0, 0, 0, 0, 4, 0, 0]);
        assert_eq!(rig.unit.cells(), Some(cells as usize));
    }
}

/// Exec in FCN 2: page 1 is physical page 777, and so is user page 3. Pages 3 to 12 have taken the first eight cells.
fn rig_with_register_pages(cells: u64) -> Rig {
    let mut rig = rig_with_pages(cells);
    rig.put(0o001402, 0o160777);
    rig.put(0o005406, 0o160777);
    rig.write_in(State::Source, 0o177614, 0o100005);
    rig.write_in(State::Source, 0o177576, 0o000002);
    read_pages(&mut rig, 3..=0o12);
    rig
}

/// Through a page that is mapped to 777: 24 cells read the word, and with 8 "the whole sequence, the page's cell emptied".
#[test]
fn through_a_page() {
    let mut rig = rig_with_register_pages(CELLS_24);
    read_pages(&mut rig, 0o13..=0o13);
    let read = rig.read_in(State::Execute, 0o001640);
    assert_eq!(parts(read), (Answer::Done, 0o160053, Some(0o777640)));

    let mut rig = rig_with_register_pages(CELLS_8);
    assert_eq!(parts(rig.read_in(State::Execute, 0o001636)).0, Answer::Done);
    assert_eq!(rig.unit.cell_tag(0), Some(1));
    assert_eq!(parts(rig.read_in(State::Execute, 0o001640)), TIME_OUT);
    assert_eq!((rig.unit.cell_tag(0), rig.unit.cell_word(0)), (Some(0), Some(0)));
    assert_eq!(rig.unit.register(Register::Ktad), Some(0o001640));
    assert_eq!(rig.unit.wait(), Some(Wait::Status));
}

/// Through the window: with 8 "the inner page is at fault and KTAD stays".
#[test]
fn through_the_window() {
    let mut rig = rig_with_register_pages(CELLS_24);
    rig.write_in(State::Execute, 0o001610, 0o003640);
    let read = rig.read_in(State::Execute, 0o001572);
    // The ninth walk was that of the outer page, so its own map word stands in the ninth cell.
    assert_eq!(parts(read), (Answer::Done, 0o160777, Some(0o777640)));

    let mut rig = rig_with_register_pages(CELLS_8);
    rig.write_in(State::Execute, 0o001610, 0o003640);
    assert_eq!((rig.unit.cell_tag(0), rig.unit.counter()), (Some(1), Some(0o11)));
    assert_eq!(parts(rig.read_in(State::Execute, 0o001572)), TIME_OUT);
    assert_eq!(rig.unit.cell_tag(0), Some(1), "the outer page keeps its cell");
    assert_eq!(
        (rig.unit.cell_tag(1), rig.unit.cell_word(1)),
        (Some(0), Some(0)),
        "the inner has none"
    );
    assert_eq!(rig.unit.counter(), Some(0o12), "but its walk was made");
    assert_eq!(rig.unit.register(Register::Ktad), Some(0o003640));
    assert_eq!(rig.unit.wait(), Some(Wait::Status));
}
