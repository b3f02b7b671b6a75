//! A walk that runs off memory is answered 10: when it comes, with lengths that change between calls; what comes before it; and
//! that it leaves what a paged time-out leaves.

mod common;

use common::{parts, Rig, BOTH};
use kt11b::{Answer, NumberedAccess, Register, Reply, Wait, LONGEST_MEMORY};

const RAN_OFF: (Answer, u16, Option<u32>) = (Answer::OffMap, 0, None);
const TIME_OUT: (Answer, u16, Option<u32>) = (Answer::TimeOut, 0, None);

/// The two SERVICE DATOs that are due after a 10, as after a paged 9.
fn serve_both(rig: &mut Rig) {
    assert_eq!(rig.unit.wait(), Some(Wait::Status));
    assert_eq!(parts(rig.serve(0o000676, 0o000340)), (Answer::Done, 0, None));
    assert_eq!(parts(rig.serve(0o000674, 0o000100)), (Answer::Done, 0, None));
    assert_eq!(rig.unit.wait(), Some(Wait::Nothing));
}

/// "A hit uses the cell": a page that is in one is reached also where memory now ends below its map word, which is at 001402.
#[test]
fn a_hit_needs_no_map_word() {
    for cells in BOTH {
        let mut rig = Rig::with_cells(cells);
        rig.put(0o001402, 0o160000);
        rig.put(0o000010, 0o000123);
        rig.write(0o177616, 0o177001);
        rig.write(0o177576, 0o000002);
        let done = (Answer::Done, 0o000123, Some(0o000010));
        assert_eq!(parts(rig.read(0o001010)), done, "L=65,536");
        rig.memory.truncate(512);
        assert_eq!(parts(rig.read(0o001010)), done, "L=512");
        assert_eq!(parts(rig.read(0o002010)), RAN_OFF, "page 2's word would be at 001404");
        assert_eq!((rig.unit.cell_tag(0), rig.unit.cell_word(0)), (Some(1), Some(0o160000)));
        assert_eq!(rig.unit.counter(), Some(0o11), "page 1's walk was the only one to be finished");
    }
}

/// "Exec page 0: physical page M of KTEM, no cell": it is never walked, so with L=0 it is its target that is not there. Page 1 is
/// walked, by KTUM's map where N is 0 and by KTEM's where N is 127.
#[test]
fn no_memory_at_all() {
    for (cells, ktem) in BOTH.into_iter().flat_map(|cells| [(cells, 0), (cells, 0o177000)]) {
        let mut rig = Rig { memory: Vec::new(), ..Rig::with_cells(cells) };
        assert_eq!(rig.write(0o177616, ktem).answer(), Answer::Done);
        assert_eq!(rig.write(0o177576, 0o000002).answer(), Answer::Done);
        assert_eq!(parts(rig.read(0o001000)), RAN_OFF, "exec page 1");
        serve_both(&mut rig);
        assert_eq!(parts(rig.read(0o000000)), TIME_OUT, "exec page 0");
        serve_both(&mut rig);
    }
}

/// Exec in FCN 2 whose map is in physical page 776, which no memory has: page 1's word would be at 776402.
fn exec_past_any_memory(length: usize) -> Rig {
    let mut rig = Rig::new();
    rig.write(0o177616, 0o177776);
    rig.write(0o177576, 0o000002);
    rig.memory.resize(length, 0);
    rig
}

/// "for an access, L bad": 1 comes before all else.
#[test]
fn a_bad_length_comes_before() {
    let odd = [1, 511, 65_535, LONGEST_MEMORY - 1, LONGEST_MEMORY + 1];
    for length in odd.into_iter().chain([LONGEST_MEMORY + 2, LONGEST_MEMORY + 512]) {
        let mut rig = exec_past_any_memory(length);
        let reply = rig.unchanged(|rig| rig.read(0o001000));
        assert_eq!(parts(reply), (Answer::Misshapen, 0, None), "{length}");
    }
    for length in [0, 2, 512, 65_536, LONGEST_MEMORY - 2, LONGEST_MEMORY] {
        assert_eq!(parts(exec_past_any_memory(length).read(0o001000)), RAN_OFF, "{length}");
    }
}

/// "5. Paged odd word (4). 6. Walk": so 4 comes before 10, and in the wait that follows 2 comes before it.
#[test]
fn an_odd_word_and_the_wait_come_before() {
    let mut rig = exec_past_any_memory(65_536);
    assert_eq!(parts(rig.read(0o001001)), (Answer::AddressViolation, 0, None));
    let reply = rig.unchanged(|rig| rig.read(0o001000));
    assert_eq!(parts(reply), (Answer::NotDue, 0, None));
    serve_both(&mut rig);
    assert_eq!(parts(rig.read(0o001000)), RAN_OFF);
}

/// No map word is ever read from a register: KTEM, at 777616, is where page 107's word would be with M=777.
#[test]
fn a_register_is_no_map_word() {
    for length in [65_536, LONGEST_MEMORY] {
        let mut rig = Rig { memory: vec![0; length], ..Rig::new() };
        rig.write(0o177616, 0o177777);
        rig.write(0o177576, 0o000002);
        assert_eq!(parts(rig.read(0o107616)), RAN_OFF, "exec page 107, L={length}");
    }
    let mut rig = Rig::user();
    rig.put(0o005442, 0o107777);
    assert_eq!(
        parts(rig.read(0o021616)),
        RAN_OFF,
        "user page 21, the first that is not simple: its pointer leads to 777616"
    );
}

/// An access whose page has its map word at `word_at` and is in no cell, and what is left after a 10.
struct Case {
    what: &'static str,
    before: fn() -> Rig,
    access: NumberedAccess,
    word_at: usize,
    ktcs: u16,
    ktad: u16,
    ktdt: u16,
}

/// The map word of exec page 4 by KTEM 177001, and of user page 4 by KTUM 020005.
const EXEC_WORD: usize = 0o001410;
const USER_WORD: usize = 0o005410;

/// Where the words of a unit have the fetch memory and the counter.
const FETCH_MEMORY: std::ops::Range<usize> = 9..14;
const COUNTER: usize = 17;

/// A DATO in SOURCE at 004010, of which the cases change what they try.
const STORE: NumberedAccess =
    NumberedAccess { operation: 2, state: 1, width: 0, address: 0o004010, data: 0o000321 };

/// Worked by hand from "Sequences": "KTAD takes the virtual address (for the inner window access KTAD stays), KTDT the store's
/// data .., else 0; IU takes UM; UM clears; FCN 3 becomes 2".
const CASES: [Case; 6] = [
    Case {
        what: "a byte of the exec's: DS stays, and KTDT takes all 16 bits",
        before: exec,
        access: NumberedAccess {
            operation: 3,
            state: 3,
            width: 1,
            address: 0o004011,
            data: 0o123456,
        },
        word_at: EXEC_WORD,
        ktcs: 0o000012,
        ktad: 0o004011,
        ktdt: 0o123456,
    },
    Case {
        what: "a user's store: step 4 sets SS, IU takes UM",
        before: user,
        access: STORE,
        word_at: USER_WORD,
        ktcs: 0o000046,
        ktad: 0o004010,
        ktdt: 0o000321,
    },
    Case {
        what: "a fetch in FCN 3: SS and DS clear, FCN becomes 2, KTDT 0",
        before: exec_about_to_start,
        access: NumberedAccess { operation: 0, state: 0, ..STORE },
        word_at: EXEC_WORD,
        ktcs: 0o000002,
        ktad: 0o004010,
        ktdt: 0,
    },
    Case {
        what: "DESTINATION in FCN 1: DS is set, FCN stays 1, KTDT 0",
        before: exec_with_destination_paged,
        access: NumberedAccess { operation: 1, state: 2, ..STORE },
        word_at: EXEC_WORD,
        ktcs: 0o000011,
        ktad: 0o004010,
        ktdt: 0,
    },
    Case {
        what: "a flag that stands stays, and keeps SOURCE from setting SS",
        before: exec_with_a_flag,
        access: STORE,
        word_at: EXEC_WORD,
        ktcs: 0o004012,
        ktad: 0o004010,
        ktdt: 0o000321,
    },
    Case {
        what: "a window's inner walk: KTAD stays, and is the inner address",
        before: exec_with_a_window,
        access: NumberedAccess { state: 3, address: 0o002572, ..STORE },
        word_at: USER_WORD,
        ktcs: 0o000012,
        ktad: 0o004016,
        ktdt: 0o000321,
    },
];

fn all_done(replies: &[Reply]) {
    assert!(replies.iter().all(|reply| reply.is_done()), "{replies:?}");
}

/// Page 1 is public and open, page 2 is the registers. A word was fetched, DS is set, and KTDT holds 177777.
fn exec() -> Rig {
    let mut rig = Rig::paged();
    rig.put(0o001404, 0o160777);
    rig.put(0o002000, 0o012700);
    all_done(&[rig.fetch(0o001000), rig.write(0o002612, 0o177777)]);
    rig
}

/// A word was fetched in page 1, so the fetch memory holds something.
fn user() -> Rig {
    let mut rig = Rig::user();
    rig.put(0o020000, 0o012700);
    all_done(&[rig.fetch(0o001000)]);
    rig
}

fn exec_about_to_start() -> Rig {
    let mut rig = exec();
    all_done(&[rig.write(0o002576, 0o000003)]);
    rig
}

/// FCN 1, with DS clear and 177777 in KTDT.
fn exec_with_destination_paged() -> Rig {
    let mut rig = Rig::new();
    all_done(&[rig.write(0o177616, 0o177001), rig.write(0o177612, 0o177777)]);
    all_done(&[rig.write(0o177576, 0o000001)]);
    rig
}

/// Page 3 is not resident: its violation has set RV, and the two stores are made.
fn exec_with_a_flag() -> Rig {
    let mut rig = exec();
    rig.put(0o001406, 0o020003);
    assert_eq!(rig.read(0o003010).answer(), Answer::ResidencyViolation);
    serve_both(&mut rig);
    rig
}

/// KTAD is 004016, and page 2, through which the window is reached, is in a cell.
fn exec_with_a_window() -> Rig {
    let mut rig = exec();
    all_done(&[rig.write(0o002614, 0o020005), rig.write(0o002610, 0o004016)]);
    rig
}

impl Case {
    /// The access over the first bytes of the memory; gives the unit after it.
    fn with_length(&self, before: &Rig, length: usize) -> (Rig, Reply) {
        let memory = before.memory[..length].to_vec();
        let mut rig = Rig { unit: before.unit.clone(), memory };
        let reply = rig.by_number(self.access);
        assert!(rig.memory == before.memory[..length], "{}: memory stays", self.what);
        (rig, reply)
    }

    fn is_left_in(&self, rig: &Rig) {
        for (register, word) in
            [(Register::Ktcs, self.ktcs), (Register::Ktad, self.ktad), (Register::Ktdt, self.ktdt)]
        {
            assert_eq!(rig.unit.register(register), Some(word), "{}: {register:?}", self.what);
        }
        assert_eq!(rig.unit.words()[FETCH_MEMORY], [0; 5], "{}: the fetch memory", self.what);
    }
}

/// "State changes are as for 9": the same access of the same unit, over memory that ends at the map word, and over memory that
/// has it. The word names page 776, which no memory has, so the second is a time-out. Its walk was finished: that stepped the
/// counter and filled a cell, and the sequence emptied the cell. So the two units differ in the counter alone.
#[test]
fn leaves_what_a_paged_time_out_leaves() {
    for case in CASES {
        let mut before = (case.before)();
        before.put(case.word_at, 0o160776);
        let (mut ran_off, reply) = case.with_length(&before, case.word_at);
        assert_eq!(parts(reply), RAN_OFF, "{}", case.what);
        assert_eq!(ran_off.unit.counter(), before.unit.counter(), "{}", case.what);
        case.is_left_in(&ran_off);

        let (timed_out, reply) = case.with_length(&before, 65_536);
        assert_eq!(parts(reply), TIME_OUT, "{}", case.what);
        let mut words = *ran_off.unit.words();
        words[COUNTER] += 1;
        assert_eq!(words, *timed_out.unit.words(), "{}", case.what);
        serve_both(&mut ran_off);
    }
}
