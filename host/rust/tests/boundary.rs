//! The boundary of the simple pages: "pages 0 to N are simple, N=0 means one page, and N=127 means all". Which word of the maps
//! a walk has read is told by the physical page that the word names.

mod common;

use common::{parts, Rig, BOTH};
use kt11b::{Answer, NumberedAccess, Reply, State, Unit, CELLS_8};

const LAST_PAGE: u16 = 127;

/// A page's word 10, which is read.
const OFFSET: u16 = 0o10;

/// The physical pages of the exec's map and of the user's.
const EXEC_MAP: u16 = 1;
const USER_MAP: u16 = 5;

/// A map register's word: "N in its high 7 bits, physical page M in its low 9".
fn map_register(n: u16, m: u16) -> u16 {
    n << 9 | m
}

/// "512·M(KTEM)+256+2p for a simple exec page, 512·M(KTUM)+2p for an exec page beyond N"
fn exec_place(n: u16, page: u16) -> usize {
    let [exec_map, user_map, page_at] = [EXEC_MAP, USER_MAP, page].map(usize::from);
    if page <= n {
        512 * exec_map + 256 + 2 * page_at
    } else {
        512 * user_map + 2 * page_at
    }
}

/// "512·M(KTUM)+256+2p for a user page, whose word there is the map word up to N and a pointer beyond"; "a pointer leads to
/// 512·m+256+2n"
fn user_place(rig: &Rig, n: u16, page: u16) -> usize {
    let place = 512 * usize::from(USER_MAP) + 256 + 2 * usize::from(page);
    if page <= n {
        return place;
    }
    let pointer = rig.word(place);
    512 * usize::from(pointer & 0o777) + 256 + 2 * usize::from(pointer >> 9)
}

/// Where the page's word 10 is, by the map word at this place.
fn target(rig: &Rig, place: usize) -> (Answer, u16, Option<u32>) {
    let physical = u32::from(rig.word(place) & 0o777) * 512 + u32::from(OFFSET);
    (Answer::Done, 0, Some(physical))
}

/// Memory of 0 as far as the pages that the maps here name.
fn empty_rig(cells: u64) -> Rig {
    Rig { memory: vec![0; 512 * 0o500], ..Rig::with_cells(cells) }
}

/// A map word at every place where an exec page's word can stand, each naming a physical page of its own.
fn rig_with_exec_words(cells: u64) -> Rig {
    let mut rig = empty_rig(cells);
    for page in 0..=LAST_PAGE {
        rig.put(0o001400 + 2 * usize::from(page), 0o160100 + page);
        rig.put(0o005000 + 2 * usize::from(page), 0o160300 + page);
    }
    rig
}

/// The same of user pages. 160000 + m is a map word that names page m, and as a pointer, with n=160, it leads into page m, to
/// offset 400 + 2·160, which is 740.
fn rig_with_user_words(cells: u64) -> Rig {
    let mut rig = empty_rig(cells);
    for page in 0..=LAST_PAGE {
        let named = 0o100 + page;
        rig.put(0o005400 + 2 * usize::from(page), 0o160000 + named);
        rig.put(0o001000 * usize::from(named) + 0o740, 0o160300 + page);
    }
    rig
}

/// KTUM and KTEM, and this function.
fn with_registers(mut rig: Rig, ktum: u16, ktem: u16, function: u16) -> Rig {
    for (address, word) in [(0o177614, ktum), (0o177616, ktem), (0o177576, function)] {
        assert_eq!(rig.write_in(State::Source, address, word).answer(), Answer::Done);
    }
    rig
}

/// The same with the two START reads, so that a user runs.
fn with_user(rig: Rig, ktum: u16, ktem: u16) -> Rig {
    let mut rig = with_registers(rig, ktum, ktem, 3);
    assert!(rig.read(0).is_done() && rig.read(0).is_done());
    rig
}

fn read_page(rig: &mut Rig, page: u16) -> Reply {
    rig.read_in(State::Execute, page << 9 | OFFSET)
}

/// Every N with either number of cells. The other register's N is as far from the other end, so that it is another one.
fn every_n() -> impl Iterator<Item = (u64, u16, u16)> {
    let each = |cells| (0..=LAST_PAGE).map(move |n| (cells, n, LAST_PAGE - n));
    BOTH.into_iter().flat_map(each)
}

/// "exec pages by KTEM's N"; "exec page 0 is never walked".
#[test]
fn every_exec_page() {
    for (cells, n, other) in every_n() {
        let [ktum, ktem] = [map_register(other, USER_MAP), map_register(n, EXEC_MAP)];
        let mut rig = with_registers(rig_with_exec_words(cells), ktum, ktem, 2);
        assert_eq!(parts(read_page(&mut rig, 0)), (Answer::Done, 0, Some(0o001010)));
        assert_eq!(rig.unit.counter(), Some(0o10), "no walk was made");
        for page in 1..=LAST_PAGE {
            let expected = target(&rig, exec_place(n, page));
            assert_eq!(parts(read_page(&mut rig, page)), expected, "N={n}, page {page}");
        }
    }
}

/// "user pages by KTUM's N", page 0 among them.
#[test]
fn every_user_page() {
    for (cells, n, other) in every_n() {
        let [ktum, ktem] = [map_register(n, USER_MAP), map_register(other, EXEC_MAP)];
        let mut rig = with_user(rig_with_user_words(cells), ktum, ktem);
        for page in 0..=LAST_PAGE {
            let expected = target(&rig, user_place(&rig, n, page));
            assert_eq!(parts(read_page(&mut rig, page)), expected, "N={n}, page {page}");
        }
    }
}

/// "a window's inner access is a user's and goes by KTUM". Exec page 1 is the registers' page by either map. In FCN 1 SOURCE is
/// unpaged, so KTAD can be stored there.
#[test]
fn every_page_through_the_window() {
    for (cells, n, other) in every_n() {
        let [ktum, ktem] = [map_register(n, USER_MAP), map_register(other, EXEC_MAP)];
        let mut rig = with_registers(rig_with_user_words(cells), ktum, ktem, 1);
        rig.put(0o001402, 0o160777);
        rig.put(0o005002, 0o160777);
        for page in 0..=LAST_PAGE {
            let expected = target(&rig, user_place(&rig, n, page));
            rig.write_in(State::Source, 0o177610, page << 9 | OFFSET);
            let read = rig.read_in(State::Execute, 0o001572);
            assert_eq!(parts(read), expected, "N={n}, page {page}");
        }
    }
}

/// One page of the exec's or of a user's, with these map registers, and the only words of memory that are not 0.
struct Worked {
    user: bool,
    ktum: u16,
    ktem: u16,
    page: u16,
    words: &'static [(usize, u16)],
}

const EXEC: Worked = Worked { user: false, ktum: 0, ktem: 0, page: 0, words: &[] };
const USER: Worked = Worked { user: true, ..EXEC };

/// The map word that is to be found: physical page 100.
const FOUND: u16 = 0o160100;

/// Worked by hand, N=4: page 4 is the last that is simple, and page 5 the first beyond.
const WITH_N_4: [Worked; 6] = [
    Worked { ktum: 0o004005, page: 3, words: &[(0o005406, FOUND)], ..USER },
    Worked { ktum: 0o004005, page: 4, words: &[(0o005410, FOUND)], ..USER },
    Worked { ktum: 0o004005, page: 5, words: &[(0o005412, 0o003007), (0o007406, FOUND)], ..USER },
    Worked { ktum: 0o004005, ktem: 0o004001, page: 3, words: &[(0o001406, FOUND)], ..EXEC },
    Worked { ktum: 0o004005, ktem: 0o004001, page: 4, words: &[(0o001410, FOUND)], ..EXEC },
    Worked { ktum: 0o004005, ktem: 0o004001, page: 5, words: &[(0o005012, FOUND)], ..EXEC },
];

/// DEC's maintenance steps of section 5.2: f, Exec Simple; g, Exec Per Process; h, Shared User, where page zero is in "user simple
/// mode" and page one in "shared user mode"; and the last page of each. By KTUM 177001 no page is shared.
const OF_SECTION_5_2: [Worked; 8] = [
    Worked { ktem: 0o177001, page: 1, words: &[(0o001402, FOUND)], ..EXEC },
    Worked { ktem: 0o177001, page: 127, words: &[(0o001776, FOUND)], ..EXEC },
    Worked { ktum: 0o000001, ktem: 0o000001, page: 1, words: &[(0o001002, FOUND)], ..EXEC },
    Worked { ktum: 0o000001, ktem: 0o000001, page: 127, words: &[(0o001376, FOUND)], ..EXEC },
    Worked { ktum: 0o000005, page: 0, words: &[(0o005400, FOUND)], ..USER },
    Worked { ktum: 0o000005, page: 1, words: &[(0o005402, 0o001001), (0o001402, FOUND)], ..USER },
    Worked { ktum: 0o000005, page: 127, words: &[(0o005776, 0o177001), (0o001776, FOUND)], ..USER },
    Worked { ktum: 0o177001, page: 127, words: &[(0o001776, FOUND)], ..USER },
];

/// A walk that ended at any other word would not come to the page that is found: all others are 0, which is a 5, or pointers, which name
/// other pages.
#[test]
fn worked_places() {
    for Worked { user, ktum, ktem, page, words } in WITH_N_4.into_iter().chain(OF_SECTION_5_2) {
        let mut rig = Rig::new();
        for &(place, word) in words {
            rig.put(place, word);
        }
        let mut rig =
            if user { with_user(rig, ktum, ktem) } else { with_registers(rig, ktum, ktem, 2) };
        let found = (Answer::Done, 0, Some(0o100010));
        assert_eq!(parts(read_page(&mut rig, page)), found, "{ktum:o}, {ktem:o}: {page}");
    }
}

/// What is answered to page N and to the one after it, if there is one.
fn answers_at(n: u16, rig: impl Fn() -> Rig) -> (Answer, Option<Answer>) {
    let answer = |page| read_page(&mut rig(), page).answer();
    (answer(n), (n < LAST_PAGE).then(|| answer(n + 1)))
}

/// By the answers. KTUM names page 776, past any memory: only the exec's simple pages have a map word.
#[test]
fn exec_pages_without_a_process() {
    for n in 0..=LAST_PAGE {
        let ktem = map_register(n, EXEC_MAP);
        let rig = || with_registers(rig_with_exec_words(CELLS_8), 0o000776, ktem, 2);
        let beyond = (n < LAST_PAGE).then_some(Answer::OffMap);
        assert_eq!(answers_at(n, rig), (Answer::Done, beyond), "N={n}");
    }
}

/// Of every user page the word is 160100: as a map word it is resident, as a pointer it leads to 100740, which is 0.
#[test]
fn user_pages_without_shared_ones() {
    for n in 0..=LAST_PAGE {
        let rig = || {
            let mut rig = Rig::new();
            (0..=LAST_PAGE).for_each(|page| rig.put(0o005400 + 2 * usize::from(page), 0o160100));
            with_user(rig, map_register(n, USER_MAP), 0)
        };
        let beyond = (n < LAST_PAGE).then_some(Answer::ResidencyViolation);
        assert_eq!(answers_at(n, rig), (Answer::Done, beyond), "N={n}");
    }
}

/// "A store that changes N alone (the high byte) empties all cells": page 1 is walked again, by the new N.
#[test]
fn a_byte_that_changes_n() {
    for cells in BOTH {
        let mut rig = with_registers(rig_with_exec_words(cells), 0o000005, 0o177001, 1);
        assert_eq!(read_page(&mut rig, 1).physical(), Some(0o101010));
        for (n, data, physical) in [(0, 0, 0o301010), (1, 2, 0o101010), (0, 0, 0o301010)] {
            let high_byte =
                NumberedAccess { operation: 3, state: 1, width: 1, address: 0o177617, data };
            assert_eq!(rig.by_number(high_byte).answer(), Answer::Done);
            assert_eq!(read_page(&mut rig, 1).physical(), Some(physical), "N={n}");
        }
    }
}

/// Words that version 3 saved: KTEM's N is 1, and the cell of exec page 1 has the process's word, as it was read then. "A hit
/// uses the cell", so they go by the older boundary until INIT, after which the page is walked by this one.
#[test]
fn words_of_the_older_boundary() {
    for cells in BOTH {
        let mut rig = with_registers(rig_with_exec_words(cells), 0o000005, 0o001001, 1);
        assert_eq!(read_page(&mut rig, 1).physical(), Some(0o101010));
        rig.write_in(State::Source, 0o177620, 0o160301);
        rig.unit = Unit::from_words(*rig.unit.words());
        assert_eq!(read_page(&mut rig, 1).physical(), Some(0o301010));
        assert_eq!(rig.unit.init().answer(), Answer::Done);
        rig.write(0o177576, 1);
        assert_eq!(read_page(&mut rig, 1).physical(), Some(0o101010));
    }
}
