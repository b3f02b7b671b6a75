//! "A map word or pointer at or beyond L is a time-out": by T-01 it is answered 10, "10 takes 9's place at step 6". Each kind
//! of map word at L, where it is not there, and just below L.

mod common;

use common::{parts, Rig, BOTH};
use kt11b::{ktcs, Answer, Register, Reply, Wait};

/// A map word: resident, public, write-enabled, physical page 0, which every memory here holds as far as it is read.
const MAP_WORD: u16 = 0o160000;

/// An address whose walk reads some words of memory, with the map registers that lead there.
struct Walk {
    user: bool,
    ktum: u16,
    ktem: u16,
    /// The map word or the pointer and the map word, by their places.
    words: &'static [(usize, u16)],
    /// A page's word 10, so that the target is 000010.
    address: u16,
    /// "Tag: 128 for user plus p".
    tag: u16,
}

impl Walk {
    /// A read of the address with so many cells and so much memory lent; it holds those of the words that are below its length.
    fn read(&self, cells: u64, length: usize) -> (Rig, Reply) {
        let mut rig = Rig { memory: vec![0; length], ..Rig::with_cells(cells) };
        rig.put(0o000010, 0o000123);
        for &(place, word) in self.words.iter().filter(|&&(place, _)| place < length) {
            rig.put(place, word);
        }
        rig.write(0o177614, self.ktum);
        rig.write(0o177616, self.ktem);
        rig.write(0o177576, if self.user { 3 } else { 2 });
        if self.user {
            rig.read(0);
            rig.read(0);
        }
        let reply = rig.read(self.address);
        (rig, reply)
    }

    /// "A walk that times out fills nothing": by T-01 such a walk "ran off memory". So the counter stays where it was.
    fn runs_off_with(&self, length: usize) {
        for cells in BOTH {
            self.runs_off(cells, length);
        }
    }

    fn runs_off(&self, cells: u64, length: usize) {
        let (rig, reply) = self.read(cells, length);
        assert_eq!(parts(reply), (Answer::OffMap, 0, None), "L={length:o}");
        assert_eq!(rig.unit.counter(), Some(0o10), "L={length:o}");
        for cell in 0..cells as usize {
            assert_eq!((rig.unit.cell_tag(cell), rig.unit.cell_word(cell)), (Some(0), Some(0)));
        }
        // 10 has no flag: DS is the DESTINATION read's, IU has taken UM.
        let iu = if self.user { ktcs::IU } else { 0 };
        assert_eq!(rig.unit.register(Register::Ktcs), Some(iu | ktcs::DS | 2));
        assert_eq!(rig.unit.register(Register::Ktad), Some(self.address));
        assert_eq!(rig.unit.wait(), Some(Wait::Status));
    }

    /// "A finished walk fills the cell the counter names, then the counter steps".
    fn is_done_with(&self, length: usize) {
        for cells in BOTH {
            self.is_done(cells, length);
        }
    }

    fn is_done(&self, cells: u64, length: usize) {
        let (rig, reply) = self.read(cells, length);
        assert_eq!(parts(reply), (Answer::Done, 0o000123, Some(0o000010)), "L={length:o}");
        assert_eq!(rig.unit.cell_tag(0), Some(self.tag));
        assert_eq!(rig.unit.cell_word(0), Some(MAP_WORD));
        assert_eq!(rig.unit.counter(), Some(0o11));
        assert_eq!(rig.unit.wait(), Some(Wait::Nothing));
    }
}

/// "Exec simple: word at 512·M(KTEM)+256+2p": 512·1+256+2·1 is 001402.
#[test]
fn an_exec_page() {
    let walk = Walk {
        user: false,
        ktum: 0,
        ktem: 0o177001,
        words: &[(0o001402, MAP_WORD)],
        address: 0o001010,
        tag: 0o001,
    };
    walk.runs_off_with(0o001402);
    walk.is_done_with(0o001404);
}

/// The last simple page: "KTEM N=4, M=1: .. exec page 4 at 001410o".
#[test]
fn the_last_simple_exec_page() {
    let walk = Walk {
        user: false,
        ktum: 0o004005,
        ktem: 0o004001,
        words: &[(0o001410, MAP_WORD)],
        address: 0o004010,
        tag: 0o004,
    };
    walk.runs_off_with(0o001410);
    walk.is_done_with(0o001412);
}

/// "Other exec pages: word at 512·M(KTUM)+2p": with N=0 page 1 is one of them, and 512·5+2·1 is 005002.
#[test]
fn an_exec_page_of_the_process() {
    let walk = Walk {
        user: false,
        ktum: 0o004005,
        ktem: 0o000001,
        words: &[(0o005002, MAP_WORD)],
        address: 0o001010,
        tag: 0o001,
    };
    walk.runs_off_with(0o005002);
    walk.is_done_with(0o005004);
}

/// The first of them with N=4: "exec page 5, with that KTUM, at 005012o".
#[test]
fn the_first_exec_page_of_the_process() {
    let walk = Walk {
        user: false,
        ktum: 0o004005,
        ktem: 0o004001,
        words: &[(0o005012, MAP_WORD)],
        address: 0o005010,
        tag: 0o005,
    };
    walk.runs_off_with(0o005012);
    walk.is_done_with(0o005014);
}

/// "User simple: word at 512·M(KTUM)+256+2p": "KTUM 004005o (N=4): user page 3 word at 005406o".
#[test]
fn a_user_page() {
    let walk = Walk {
        user: true,
        ktum: 0o004005,
        ktem: 0,
        words: &[(0o005406, MAP_WORD)],
        address: 0o003010,
        tag: 0o203,
    };
    walk.runs_off_with(0o005406);
    walk.is_done_with(0o005410);
}

/// The last simple page: "page 4 word at 005410o".
#[test]
fn the_last_simple_user_page() {
    let walk = Walk {
        user: true,
        ktum: 0o004005,
        ktem: 0,
        words: &[(0o005410, MAP_WORD)],
        address: 0o004010,
        tag: 0o204,
    };
    walk.runs_off_with(0o005410);
    walk.is_done_with(0o005412);
}

/// "page 5 pointer at 005412o; pointer 003007o leads to 007406o": that word lies above the pointer, at L or just below it.
#[test]
fn a_word_that_is_pointed_to() {
    let walk = Walk {
        user: true,
        ktum: 0o004005,
        ktem: 0,
        words: &[(0o005412, 0o003007), (0o007406, MAP_WORD)],
        address: 0o005010,
        tag: 0o205,
    };
    for length in [0o005412, 0o005414, 0o007404, 0o007406] {
        walk.runs_off_with(length);
    }
    walk.is_done_with(0o007410);
}

/// The same pointer's place at L or just below it, with m=1: 512·1+256+2·3 is 001406, which is below L both times.
#[test]
fn a_pointer() {
    let walk = Walk {
        user: true,
        ktum: 0o004005,
        ktem: 0,
        words: &[(0o005412, 0o003001), (0o001406, MAP_WORD)],
        address: 0o005010,
        tag: 0o205,
    };
    walk.runs_off_with(0o005412);
    walk.is_done_with(0o005414);
}
