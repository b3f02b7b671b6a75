//! The order in one access: shapes, step 4 with its counts, KTIC, SS and DS, privacy and the word rule.
//! Expected values are worked out by hand from 01's words, which stand above each test.

mod common;

use common::{bare, done, Rig};
use kt11b_model::{FetchMemory, Unit};

/// "a number outside its list; DATO as byte, DATOB as word; FETCH not a word DATI"
#[test]
fn shapes_in_their_lists() {
    let mut rig = Rig::new();
    for kind in [[4, 2, 0], [0, 5, 0], [0, 2, 2], [2, 2, 1], [3, 2, 0], [1, 0, 0], [0, 0, 1]] {
        assert_eq!(rig.access(kind, 0, 0), bare(1));
    }
    for kind in [[0, 0, 0], [0, 1, 1], [1, 2, 0], [1, 3, 1], [2, 4, 0], [3, 4, 1]] {
        assert_eq!(rig.access(kind, 0, 0), done(0, 0));
    }
    let mut unit = Unit::fresh();
    for vector in [0, 1, 5, 0o40, 0o44] {
        assert_eq!(unit.trap(vector), bare(1));
    }
}

/// "a number outside its list": operation, state, width and vector may be of any size.
#[test]
fn a_number_of_any_size_outside_its_list() {
    let mut rig = Rig::new();
    assert_eq!(rig.access([1 << 40, 2, 0], 0, 0), bare(1));
    assert_eq!(rig.access([0, (1 << 32) + 2, 0], 0, 0), bare(1));
    assert_eq!(rig.access([0, 2, 1 << 16], 0, 0), bare(1));
    assert_eq!(rig.unit.trap((1 << 32) + 4), bare(1));
}

/// "4. Counts since the last fetch; then, if bits 15-11 are clear: KTIC from the address on a paged FETCH; SS and DS."
/// The access's own store into KTCS comes later: "Then the store."
#[test]
fn flags_are_judged_as_they_stand_before_the_own_store() {
    let mut rig = Rig::exec();
    assert_eq!(rig.read_quietly(0o001001), bare(4));
    rig.service();
    assert_eq!(rig.ktcs(), 0o040002);
    assert_eq!(rig.fetch(0o001000).answer, 0);
    assert_eq!(rig.ktic(), 0);
    assert_eq!(rig.write(0o177576, 2), done(0, 0o777576));
    assert_eq!(rig.ktcs(), 0o000002);
    assert_eq!((rig.unit.fetch_memory().accesses, rig.unit.fetch_memory().datos), (1, 1));
    rig.write(0o177576, 2);
    assert_eq!(rig.ktcs(), 0o000012);
}

/// "counts of DATOs and of all non-fetch accesses since (this one included, each stops at 2)"
/// They are step 4; after 1, 2 and 3 "nothing" changes, and "a due sequence access ends here", at step 2.
#[test]
fn what_is_counted_and_what_is_not() {
    let mut rig = Rig::new();
    assert_eq!(rig.access([0, 2, 0], 0o160000, 0), bare(9));
    assert_eq!(rig.unit.fetch_memory().accesses, 1);
    let before = rig.unit;
    assert_eq!(rig.access([2, 2, 1], 0, 0), bare(1));
    assert_eq!(rig.access([0, 2, 0], 1, 0), bare(3));
    assert_eq!(rig.unit, before);
    // Neither START reads nor refusals in FCN 3 count.
    rig.write(0o177576, 3);
    let before = rig.unit;
    assert_eq!(rig.access([2, 2, 0], 0, 0), bare(2));
    assert_eq!(rig.unit, before);
    assert_eq!(rig.read(0).answer, 0);
    assert_eq!(rig.unit.fetch_memory(), before.fetch_memory());
    // Nor do SERVICE stores.
    let mut rig = Rig::exec();
    rig.read(0o001001);
    rig.service();
    assert_eq!(rig.unit.fetch_memory(), FetchMemory::default());
}

/// "A fetch with answer 0 updates it"; this one is no "non-fetch" access either.
#[test]
fn an_unpaged_fetch_that_times_out_leaves_the_fetch_memory() {
    let mut rig = Rig::new();
    rig.fetch_word(0o001000, 0o001000, 0o000207);
    rig.read(0);
    let before = rig.unit.fetch_memory();
    assert_eq!((before.last, before.accesses, before.datos), (0o000207, 1, 0));
    assert_eq!(rig.fetch(0o160000), bare(9));
    assert_eq!(rig.unit.fetch_memory(), before);
    assert_eq!((rig.ktad(), rig.ktdt()), (0o160000, 0));
}

/// "Only DATO counts as DATO; the "second" is the one that takes its count from 1 to 2"
#[test]
fn the_second_dato_of_a_trap_sets_ds() {
    let mut rig = Rig::exec();
    rig.fetch_word(0o002000, 0o001000, 0o104400);
    rig.write_quietly(0o001002, 0);
    assert_eq!(rig.ktcs(), 0o000006);
    rig.read_quietly(0o001002);
    assert_eq!(rig.ktcs(), 0o000006);
    rig.write_quietly(0o001002, 0);
    assert_eq!(rig.ktcs(), 0o000016);
}

/// "the "second" is the one that takes its count from 1 to 2", also if it passed in FCN 0.
#[test]
fn a_third_dato_never_sets_ds() {
    let mut rig = Rig::exec();
    rig.fetch_word(0o002000, 0o001000, 0o104400);
    rig.write_quietly(0o177576, 0);
    assert_eq!(rig.ktcs(), 0o000004);
    rig.write_quietly(0o002002, 0);
    rig.write_quietly(0o177576, 2);
    rig.write_quietly(0o001002, 0);
    assert_eq!(rig.ktcs(), 0o000006);
}

/// "Only DATO counts as DATO"; the other count is "of all non-fetch accesses".
#[test]
fn a_datob_is_no_dato_and_yet_an_access() {
    let mut rig = Rig::exec();
    rig.fetch_word(0o002000, 0o001000, 0o104777);
    rig.write_byte(0o001002, 0);
    rig.write_byte(0o001002, 0);
    assert_eq!(rig.ktcs(), 0o000002);
    rig.fetch_word(0o002000, 0o001000, 0o000002);
    rig.write_byte(0o001002, 0);
    assert_eq!(rig.ktcs(), 0o000006);
    rig.read_quietly(0o001002);
    assert_eq!(rig.ktcs(), 0o000016);
}

/// FCN 1 in exec with this word fetched unpaged.
fn fcn_1(word: u16) -> Rig {
    let mut rig = Rig::mapped();
    rig.write(0o177576, 1);
    rig.fetch_word(0o020000, 0o020000, word);
    assert_eq!(rig.ktcs(), 0o000001);
    rig
}

/// "SS and DS follow source 3.3.2.1"; "The FCN 1 clauses hold whether or not that access is paged."
#[test]
fn what_sets_ss_and_ds_in_fcn_1_paged_or_not() {
    let mut rig = fcn_1(0o004737);
    rig.access([0, 4, 0], 0o020000, 0);
    assert_eq!(rig.ktcs(), 0o000001);
    rig.access([2, 4, 0], 0o020002, 0);
    assert_eq!(rig.ktcs(), 0o000005);
    let mut rig = fcn_1(0o000200);
    rig.access([0, 1, 0], 0o020002, 0);
    assert_eq!(rig.ktcs(), 0o000005);
    let mut rig = fcn_1(0o000002);
    rig.access([0, 4, 0], 0o020002, 0);
    assert_eq!(rig.ktcs(), 0o000005);
    rig.read_quietly(0o001000);
    assert_eq!(rig.ktcs(), 0o000015);
    let mut rig = fcn_1(0o010101);
    rig.read(0o001000);
    assert_eq!(rig.ktcs(), 0o000011);
    // A fetch clears in normal paging alone.
    rig.fetch(0o020000);
    assert_eq!(rig.ktcs(), 0o000011);
}

/// "SS and DS follow source 3.3.2.1", where SOURCE and TRAP are clauses of normal paging alone;
/// ""Normal paging" is FCN 2, and FCN 3 for a fetch."
#[test]
fn what_sets_nothing_in_fcn_1_and_fcn_0() {
    let mut rig = fcn_1(0o104400);
    for _ in 0..3 {
        rig.access([2, 4, 0], 0o020002, 0);
        rig.access([0, 1, 0], 0o020002, 0);
    }
    assert_eq!(rig.ktcs(), 0o000001);
    let mut rig = Rig::new();
    rig.fetch_word(0o020000, 0o020000, 0o000002);
    for state in 1..=4 {
        rig.access([0, state, 0], 0o020002, 0);
    }
    assert_eq!(rig.ktcs(), 0);
}

/// ""executing" is judged by the last fetched word: JSR 004000-004777o, RTS 000200-000207o, RTI 000002o, TRAP 104400-104777o"
#[test]
fn the_words_of_jsr_rts_rti_and_trap_at_both_ends() {
    for (word, ktcs) in [
        (0o003777, 0o000002),
        (0o004000, 0o000006),
        (0o004777, 0o000006),
        (0o005000, 0o000002),
        (0o104377, 0o000002),
        (0o104400, 0o000006),
        (0o104777, 0o000006),
        (0o105000, 0o000002),
        (0o000177, 0o000002),
        (0o000200, 0o000006),
        (0o000207, 0o000006),
        (0o000210, 0o000002),
        (0o000002, 0o000006),
        (0o000003, 0o000002),
    ] {
        let mut rig = Rig::exec();
        rig.fetch_word(0o002000, 0o001000, word);
        rig.write_quietly(0o001002, 0);
        assert_eq!(rig.ktcs(), ktcs, "{word:06o}");
    }
}

/// "SS and DS follow source 3.3.2.1", by which a fetch in normal paging clears them; they are step 4, before "5. Paged
/// odd word (4)."
/// "a fetch sets neither bit (H)"
#[test]
fn a_fetch_in_normal_paging_clears_ss_and_ds_even_if_it_fails() {
    let mut rig = Rig::exec();
    rig.access([0, 1, 0], 0o001000, 0);
    rig.read(0o001000);
    assert_eq!(rig.ktcs(), 0o000016);
    assert_eq!(rig.fetch(0o001001), bare(4));
    assert_eq!(rig.ktcs(), 0o040002);
    // FCN 3 as well.
    let mut rig = Rig::exec();
    rig.write(0o177576, 3);
    assert_eq!(rig.ktcs(), 0o000013);
    assert_eq!(rig.fetch(0o001000).answer, 0);
    assert_eq!(rig.ktcs(), 0o000003);
    // EXECUTE and SERVICE set nothing by themselves.
    let mut rig = Rig::exec();
    rig.read_quietly(0o001000);
    rig.access([0, 4, 0], 0o001000, 0);
    assert_eq!(rig.ktcs(), 0o000002);
}

/// "KTIC from the address on a paged FETCH", at step 4: also if the fetch fails later.
#[test]
fn ktic_is_loaded_by_every_paged_fetch() {
    let mut rig = Rig::exec();
    assert_eq!(rig.fetch(0o001003), bare(4));
    assert_eq!(rig.ktic(), 0o001003);
    let mut rig = Rig::user();
    assert_eq!(rig.fetch(0o012000), bare(5));
    assert_eq!(rig.ktic(), 0o012000);
    let mut rig = Rig::exec();
    rig.write(0o177576, 3);
    rig.fetch(0o001002);
    assert_eq!(rig.ktic(), 0o001002);
    // Not unpaged.
    let mut rig = Rig::mapped();
    rig.fetch(0o001002);
    rig.write(0o177576, 1);
    rig.fetch(0o001004);
    assert_eq!(rig.ktic(), 0);
}

/// "4. Counts since the last fetch; then, if bits 15-11 are clear: KTIC from the address on a paged FETCH; SS and DS."
/// "6. Walk (9).", which T-01 answers 10. Both come before what the access reads.
#[test]
fn a_register_read_sees_what_steps_4_and_6_did() {
    assert_eq!(Rig::exec().read(0o177576), done(0o000012, 0o777576));
    assert_eq!(Rig::exec().read(0o177574), done(0o004400, 0o777574));
    assert_eq!(Rig::exec().read(0o177620), done(0o160777, 0o777620));
    assert_eq!(Rig::exec().fetch(0o177600), done(0o177600, 0o777600));
}

/// "Privacy: not a fetch, flag set, page private."
/// "only in normal paging" is said of what moves the flag.
#[test]
fn privacy_is_judged_of_paged_accesses_in_fcn_1_too() {
    let mut rig = Rig::exec_from_public();
    rig.write_quietly(0o177576, 1);
    assert_eq!(rig.read_quietly(0o002000), bare(7));
    assert_eq!(rig.ktcs(), 0o010001);
    // The same access unpaged is not judged.
    let mut rig = Rig::exec_from_public();
    rig.write_quietly(0o177576, 1);
    assert_eq!(rig.access([0, 1, 0], 0o002000, 0).answer, 0);
}

/// "A fetch with answer 0 updates it (counts go to 0, the flag to the page's public bit); the flag only in normal
/// paging, never from a KT register"
/// "Word rule, paged fetches: user HALT 0, WAIT 1, RESET 5; or flag set, page private, word not 000400o."
#[test]
fn a_fetch_from_a_register_is_judged_and_remembered_and_moves_no_flag() {
    let mut rig = Rig::exec_from_public();
    rig.write_quietly(0o177604, 0o104401);
    assert_eq!(rig.fetch(0o177604), done(0o104401, 0o777604));
    let expected =
        FetchMemory { last: 0o104401, before: 0o010101, datos: 0, accesses: 0, public: true };
    assert_eq!(rig.unit.fetch_memory(), expected);
    // The word rule: KTPC 0 fetched by a user is HALT.
    let mut rig = Rig::user();
    let reply = rig.fetch(0o002604);
    assert_eq!((reply.answer, reply.data, reply.physical), (8, 0, Some(0o777604)));
    // KTMR after the walk of user page 2, and KTCS in user mode.
    let mut rig = Rig::user();
    assert_eq!(rig.fetch(0o002574), done(0o004400, 0o777574));
    assert_eq!(rig.fetch(0o002576), done(0o000022, 0o777576));
    assert!(!rig.unit.fetch_memory().public);
    // From public to a private register page only at an entry point.
    let mut rig = Rig::exec_from_public();
    rig.put(0o001776, 0o120777);
    assert_eq!(rig.fetch(0o177574).answer, 8);
}
