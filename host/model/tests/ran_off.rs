//! A walk that ran off memory, answered 10, beside a target that is not there, answered 9. The sentences above the tests are those of T-01,
//! the request "Say which time-out", and of the issue that settles it, and 01's where that is said. Expected values are worked out from them
//! by hand.

mod common;

use common::{bare, bench, done, unit_with, Rig};
use kt11b_model::{FetchMemory, Unit, KTEM, VECTORS};

/// Maps with N 2 in both map registers, so that pages 1 are simple and pages 5 are not. Map words name page 0 with all keys; exec page 127
/// and user page 0 are the registers. User page 5 has this pointer.
fn mapped(unit: Unit, pointer: u16) -> Rig {
    let mut rig = Rig::of(unit);
    for place in [0o001402, 0o001406, 0o005012, 0o005402, 0o007406] {
        rig.put(place, 0o160000);
    }
    rig.put(0o005376, 0o160777);
    rig.put(0o005400, 0o160777);
    rig.put(0o005412, pointer);
    rig.put(0o000000, 0o010101);
    rig.write_quietly(0o177614, 0o002005);
    rig.write_quietly(0o177616, 0o002001);
    rig
}

/// Goes on with FCN 2, in exec or as a user.
fn started(mut rig: Rig, user: bool) -> Rig {
    rig.unit.init();
    rig.write_quietly(0o177576, if user { 3 } else { 2 });
    for _ in 0..2 * u8::from(user) {
        rig.read_quietly(0);
    }
    assert_eq!(rig.ktcs(), if user { 0o000022 } else { 0o000002 });
    rig
}

/// L is 200000. Exec page 1 runs off, since KTEM 002200 has its word at 200402; so does user page 5, whose pointer 000200 leads to 200400.
fn running_off(user: bool) -> Rig {
    let mut rig = mapped(Unit::fresh(), 0o000200);
    rig.write_quietly(0o177616, 0o002200);
    started(rig, user)
}

fn exec() -> Rig {
    running_off(false)
}

fn user() -> Rig {
    running_off(true)
}

/// A walk and a word that it needs: whose it is, an address on the page, the pointer of user page 5, and the word's place.
const NEEDED: [(bool, u16, u16, usize); 5] = [
    // Exec simple, exec per process and user simple: the map word.
    (false, 0o001000, 0o003007, 0o001402),
    (false, 0o005000, 0o003007, 0o005012),
    (true, 0o001000, 0o003007, 0o005402),
    // The pointer's own word, where pointer 003001 leads to 001406; then the word that pointer 003007 leads to.
    (true, 0o005000, 0o003001, 0o005412),
    (true, 0o005000, 0o003007, 0o007406),
];

/// "A map word or pointer at or beyond L is a time-out" (01): by T-01 it is answered 10, "10 takes 9's place at step 6".
/// "A map word beyond L, the pointer's own word beyond L, and the word that a pointer leads to beyond L are all 10."
#[test]
fn each_word_of_a_walk_is_read_below_l_and_gives_10_from_l_on() {
    for (user, address, pointer, place) in NEEDED {
        for cells in [8, 24] {
            let mut rig = started(mapped(unit_with(cells), pointer), user);
            rig.memory.truncate(place + 2);
            assert_eq!(rig.read_quietly(address), done(0o010101, 0), "{place:o}");
            assert_eq!(rig.unit.counter(), 0o11);
            let mut rig = started(mapped(unit_with(cells), pointer), user);
            rig.memory.truncate(place);
            assert_eq!(rig.read_quietly(address), bare(10), "{place:o}");
            assert_eq!((rig.unit.tags().iter().max(), rig.unit.counter()), (Some(&0), 0o10));
        }
    }
}

/// "The unit with no cells of demand 3 walks by the same rules, so it says 10 where the unit says 10"
#[test]
fn the_unit_without_cells_says_10_where_the_unit_does() {
    for (user, address, pointer, place) in NEEDED {
        let mut rig = started(mapped(Unit::fresh().without_cells(), pointer), user);
        assert_eq!(rig.read_quietly(address), done(0o010101, 0), "{place:o}");
        rig.memory.truncate(place);
        assert_eq!(rig.read_quietly(address), bare(10), "{place:o}");
        assert_eq!((rig.ktad(), rig.unit.wait_number()), (address, 1));
    }
    // A window's inner walk.
    let mut rig = started(mapped(Unit::fresh().without_cells(), 0o000200), false);
    rig.write_quietly(0o177610, 0o005002);
    assert_eq!(rig.read_quietly(0o177572), bare(10));
    assert_eq!(rig.ktad(), 0o005002);
}

/// "Exec page 0 is never walked. With KTEM pointing past core, exec page 0 is still answered 9 (its target is not there), and exec page 1 is
/// answered 10."
#[test]
fn exec_page_0_past_core_is_9_and_exec_page_1_is_10() {
    let mut rig = exec();
    assert_eq!(rig.read_quietly(0o000010), bare(9));
    assert_eq!((rig.ktad(), rig.unit.counter()), (0o000010, 0o10));
    rig.service();
    assert_eq!(rig.read_quietly(0o001010), bare(10));
    assert_eq!((rig.ktad(), rig.unit.counter()), (0o001010, 0o10));
}

/// "A hit never gives 10, also where the lent memory now ends before the map word, since step 6 then walks nothing."
#[test]
fn a_hit_never_gives_10() {
    let mut rig = started(mapped(Unit::fresh(), 0o003007), false);
    rig.write_quietly(0o177610, 0o005000);
    assert_eq!(rig.read_quietly(0o001000), done(0o010101, 0));
    assert_eq!(rig.read_quietly(0o177572), done(0o010101, 0));
    assert_eq!(rig.unit.tags()[..4], [0o177, 0o001, 0o205, 0]);
    rig.memory.truncate(512);
    // Exec page 1, then the window by exec page 127 and by user page 5: each is held.
    assert_eq!(rig.read_quietly(0o001000), done(0o010101, 0));
    assert_eq!(rig.read_quietly(0o177572), done(0o010101, 0));
    // Exec page 5 and user page 1 are not.
    rig.write_quietly(0o177610, 0o001000);
    assert_eq!(rig.read_quietly(0o177572), bare(10));
    rig.service();
    assert_eq!(rig.read_quietly(0o005000), bare(10));
    assert_eq!(rig.unit.tags()[..4], [0o177, 0o001, 0o205, 0]);
}

/// "M = 777o is 10, not a read of a register: no map word is ever read from one."
#[test]
fn m_777_is_10_where_the_places_are_registers() {
    // Page 100o has its word at 777600, which is KTIC; what KTIC holds would be an open page, or a pointer to one.
    for (user, ktum, ktem, ktic) in [
        (false, 0o002005, 0o177777, 0o160002),
        (true, 0o177777, 0o002001, 0o160002),
        (true, 0o002777, 0o002001, 0o003007),
    ] {
        let mut rig = mapped(Unit::fresh(), 0o003007);
        rig.write_quietly(0o177614, ktum);
        rig.write_quietly(0o177616, ktem);
        rig.write_quietly(0o177600, ktic);
        let mut rig = started(rig, user);
        assert_eq!(rig.read_quietly(0o100000), bare(10), "KTUM {ktum:o}, KTEM {ktem:o}");
        assert_eq!(rig.ktic(), ktic);
    }
    // Pointer 100777 leads to 777600.
    let mut rig = mapped(Unit::fresh(), 0o100777);
    rig.write_quietly(0o177600, 0o160002);
    assert_eq!(started(rig, true).read_quietly(0o005000), bare(10));
}

/// "A bad L is 1 before anything."
#[test]
fn a_bad_l_is_1_first() {
    for length in [1, 0o001403, 253_953, 253_954] {
        let mut rig = exec();
        rig.memory.resize(length, 0);
        let before = rig.unit;
        assert_eq!(rig.read(0o001000), bare(1), "{length}");
        assert_eq!(rig.unit, before);
    }
    // The longest that is good: the word at 760402 is off it.
    let mut rig = mapped(Unit::fresh(), 0o000200);
    rig.write_quietly(0o177616, 0o002760);
    let mut rig = started(rig, false);
    rig.memory.resize(253_952, 0);
    assert_eq!(rig.read(0o001000), bare(10));
}

/// "L = 0 is good: unpaged 0 is 9 (01's starred number stays), and with FCN 2 exec page 1 is 10."
#[test]
fn with_no_memory_at_all() {
    let mut rig = Rig::new();
    rig.memory.clear();
    assert_eq!(rig.read_quietly(0), bare(9));
    assert_eq!(rig.write_quietly(0o177576, 2), done(0, 0o777576));
    assert_eq!(rig.read_quietly(0o001000), bare(10));
    rig.service();
    assert_eq!(rig.read_quietly(0o000000), bare(9));
}

/// "10 comes wherever an access is paged: in FCN 1 in DESTINATION and EXECUTE (FCN stays 1)"
#[test]
fn in_fcn_1_where_it_is_paged() {
    for (state, ds) in [(2, 0o000010), (3, 0)] {
        let mut rig = exec();
        rig.write_quietly(0o177576, 1);
        assert_eq!(rig.access([0, state, 0], 0o001000, 0), bare(10));
        assert_eq!((rig.ktcs(), rig.unit.wait_number()), (ds | 0o000001, 1));
        // A user's IU takes UM.
        let mut rig = user();
        rig.write_quietly(0o000576, 1);
        assert_eq!(rig.access([0, state, 0], 0o005000, 0), bare(10));
        assert_eq!((rig.ktcs(), rig.unit.wait_number()), (ds | 0o000041, 1));
    }
    // FETCH, SOURCE and SERVICE are unpaged there, and "Unpaged accesses are never answered 10".
    for state in [0, 1, 4] {
        let mut rig = exec();
        rig.write_quietly(0o177576, 1);
        assert_eq!(rig.access([0, state, 0], 0o001000, 0), done(0, 0o001000));
        assert_eq!(rig.access([0, state, 0], 0o160000, 0), bare(9));
    }
}

/// "in FCN 2, and for a fetch in FCN 3": there FCN "3 becomes 2". SOURCE sets SS and DESTINATION DS, at step 4.
#[test]
fn in_fcn_2_in_every_state_and_in_fcn_3_by_fetch() {
    for (state, marks) in [(0, 0), (1, 0o000004), (2, 0o000010), (3, 0), (4, 0)] {
        let mut rig = exec();
        assert_eq!(rig.access([0, state, 0], 0o001000, 0), bare(10));
        assert_eq!((rig.ktcs(), rig.unit.wait_number()), (marks | 0o000002, 1));
        let mut rig = user();
        assert_eq!(rig.access([0, state, 0], 0o005000, 0), bare(10));
        assert_eq!((rig.ktcs(), rig.unit.wait_number()), (marks | 0o000042, 1));
    }
    let mut rig = exec();
    rig.write_quietly(0o177576, 3);
    assert_eq!(rig.fetch(0o001000), bare(10));
    assert_eq!((rig.ktcs(), rig.ktic(), rig.unit.wait_number()), (0o000002, 0o001000, 1));
    let mut rig = user();
    rig.write_quietly(0o000576, 3);
    assert_eq!(rig.fetch(0o005000), bare(10));
    assert_eq!((rig.ktcs(), rig.ktic(), rig.unit.wait_number()), (0o000042, 0o005000, 1));
}

/// "1, 2, 3 or 4, then 10"
#[test]
fn shape_wait_and_odd_word_come_before_10() {
    let mut rig = exec();
    assert_eq!(rig.access([2, 3, 1], 0o001000, 0), bare(1));
    assert_eq!(rig.read_quietly(0o001001), bare(4));
    assert_eq!((rig.ktcs(), rig.unit.wait_number()), (0o040002, 1));
    assert_eq!(rig.read_quietly(0o001000), bare(2));
    rig.service();
    // A byte at an odd address is no odd word.
    assert_eq!(rig.access([0, 3, 1], 0o001001, 0), bare(10));
    assert_eq!(rig.read_quietly(0o001000), bare(2));
    // FCN 3, and no fetch.
    let mut rig = exec();
    rig.write_quietly(0o177576, 3);
    assert_eq!(rig.write_quietly(0o001000, 0), bare(2));
}

/// "then 10, then 5, 6, 7, 9, 8": no key is judged and no word is read, and no flag is set.
#[test]
fn no_key_and_no_word_is_judged_after_10() {
    // Exec page 5 is public: a fetch there sets the flag, by which privacy is judged.
    for kind in [[0, 3, 0], [1, 3, 0], [2, 3, 0], [3, 3, 1]] {
        let mut rig = exec();
        rig.fetch_word(0, 0o005000, 0o010101);
        assert!(rig.unit.fetch_memory().public);
        assert_eq!(rig.access(kind, 0o001000, 0), bare(10));
        assert_eq!(rig.ktcs(), 0o000002);
    }
    // A fetch from public, where another word than the entry point would be 8, and a user's, where HALT would.
    let mut rig = exec();
    rig.fetch_word(0, 0o005000, 0o010101);
    assert_eq!(rig.fetch(0o001000), bare(10));
    assert_eq!(rig.ktcs(), 0o000002);
    let mut rig = user();
    assert_eq!(rig.fetch(0o005000), bare(10));
    assert_eq!(rig.ktcs(), 0o000042);
}

/// "In a window the outer page's 4, 10, 5, 6, 7 come before the inner page's 4, 10, 5, 6, 9."
#[test]
fn the_outer_pages_refusals_come_before_the_inner_pages_10() {
    // Exec page 127, the outer one, has its word at 005376; the inner one is user page 5. The public flag is set.
    for (outer, address, answer) in [
        (0o160777, 0o177573, 4),
        (0o060777, 0o177572, 5),
        (0o140777, 0o177572, 6),
        (0o120777, 0o177572, 7),
    ] {
        let mut rig = mapped(Unit::fresh(), 0o000200);
        rig.write_quietly(0o177610, 0o005000);
        let mut rig = started(rig, false);
        rig.put(0o005376, outer);
        rig.fetch_word(0, 0o005000, 0o010101);
        assert_eq!(rig.write_quietly(address, 0o000123), bare(answer));
        assert_eq!(rig.ktad(), address);
    }
    // The outer page's own 10, at the window's offset: KTAD, where an inner odd word waits, takes the virtual address.
    let mut rig = exec();
    rig.write_quietly(0o177610, 0o005001);
    assert_eq!(rig.write_quietly(0o001572, 0o000123), bare(10));
    assert_eq!((rig.ktad(), rig.ktdt()), (0o001572, 0o000123));
}

/// "This holds for the access's own page and for a window's inner page"; "for a window's inner walk KTAD stays"
#[test]
fn a_windows_inner_walk_that_ran_off_leaves_ktad() {
    let mut rig = exec();
    rig.write_quietly(0o177610, 0o005002);
    assert_eq!(rig.unit.counter(), 0o11);
    assert_eq!(rig.write_quietly(0o177572, 0o000123), bare(10));
    assert_eq!((rig.ktad(), rig.ktdt()), (0o005002, 0o000123));
    assert_eq!((rig.ktcs(), rig.unit.wait_number()), (0o000002, 1));
    assert_eq!((rig.unit.tags()[..2].to_vec(), rig.unit.counter()), (vec![0o177, 0], 0o11));
    // The inner odd word comes before the inner walk.
    rig.service();
    rig.write_quietly(0o177610, 0o005003);
    assert_eq!(rig.read_quietly(0o177572), bare(4));
    assert_eq!((rig.ktad(), rig.ktcs()), (0o005003, 0o040002));
    // From user mode, by user page 0.
    let mut rig = user();
    rig.write_quietly(0o000610, 0o005002);
    assert_eq!(rig.read_quietly(0o000572), bare(10));
    assert_eq!((rig.ktad(), rig.ktcs(), rig.unit.wait_number()), (0o005002, 0o000042, 1));
}

/// "step 4 has run; no error flag is set and those standing stay; KTAD takes the virtual address ..; KTDT takes the store's data (all 16
/// bits), else 0; IU takes UM, UM clears ..; fetch memory clears; two SERVICE DATOs are due"
#[test]
fn what_10_changes() {
    // From a user with a word fetched: IU takes UM, and UM clears. A read and a DATIP leave 0 in KTDT, whatever their data.
    for operation in [0, 1] {
        let mut rig = user();
        rig.write_quietly(0o000612, 0o054321);
        rig.fetch_word(0, 0o001000, 0o010101);
        let memory = rig.memory.clone();
        assert_eq!(rig.access([operation, 3, 0], 0o005000, 0o000123), bare(10));
        assert_eq!((rig.ktad(), rig.ktdt(), rig.ktcs()), (0o005000, 0, 0o000042));
        assert_eq!(rig.unit.fetch_memory(), FetchMemory::default());
        assert!(rig.memory == memory);
    }
    // In exec with AV and IU standing: AV stays, and keeps DS from being set; IU takes UM, which is 0.
    let mut rig = user();
    assert_eq!(rig.read_quietly(0o001001), bare(4));
    rig.service();
    assert_eq!(rig.ktcs(), 0o040042);
    assert_eq!(rig.access([3, 2, 1], 0o001001, 0o123456), bare(10));
    assert_eq!((rig.ktad(), rig.ktdt(), rig.ktcs()), (0o001001, 0o123456, 0o040002));
    // The two stores that are due.
    assert_eq!(rig.access([2, 4, 0], 0o000772, 0o000341), bare(0));
    assert_eq!(rig.access([2, 4, 0], 0o000770, 0o000100), bare(0));
    assert_eq!((rig.ktps(), rig.ktsp(), rig.ktpc()), (0o000341, 0o000770, 0o000100));
    assert_eq!((rig.unit.wait_number(), rig.ktcs()), (0, 0o040002));
}

/// All of the two units is the same but KTEM and the counter.
fn assert_left_the_same(off: &Unit, past_core: &Unit) {
    assert_eq!(off.ktcs(), past_core.ktcs());
    assert_eq!(off.registers()[..KTEM], past_core.registers()[..KTEM]);
    assert_eq!(off.wait(), past_core.wait());
    assert_eq!(off.fetch_memory(), past_core.fetch_memory());
    assert_eq!((off.tags(), off.words()), (past_core.tags(), past_core.words()));
}

/// A walk that ran off and one that ends at a page past core, in the same state before: exec page 1, user page 5, or user page 5 by exec's
/// window, with a word fetched and KTAD at user page 5.
fn off_and_past_core(way: usize) -> ([Rig; 2], u16) {
    let (user, address, target) =
        [(false, 0o001002, 0o001402), (true, 0o005002, 0o007406), (false, 0o177572, 0o007406)][way];
    let rigs = [true, false].map(|off| {
        let mut rig = mapped(Unit::fresh(), if off { 0o000200 } else { 0o003007 });
        rig.put(target, 0o160200);
        rig.write_quietly(0o177616, if off { 0o002200 } else { 0o002001 });
        rig.write_quietly(0o177610, 0o005002);
        let mut rig = started(rig, user);
        rig.fetch_word(0, if user { 0o001000 } else { 0o005000 }, 0o010101);
        // The register page is held before, so that a window's outer look-up is a hit.
        rig.read_quietly(if user { 0o000606 } else { 0o177606 });
        rig
    });
    (rigs, address)
}

/// "State changes are as for 9"; the walk before a 9 is finished, and so has stepped the counter.
#[test]
fn state_changes_are_as_for_9() {
    let reads = [[0, 0, 0], [0, 1, 0], [0, 2, 1], [1, 3, 0]];
    let stores = [[2, 2, 0], [2, 4, 0], [3, 1, 1], [3, 3, 1]];
    for way in 0..3 {
        // A window by fetch goes to no inner page.
        let fetchless = usize::from(way == 2);
        for kind in reads.into_iter().skip(fetchless).chain(stores) {
            let ([mut off, mut past_core], address) = off_and_past_core(way);
            assert_eq!(off.unit.counter(), 0o12);
            let memories = [off.memory.clone(), past_core.memory.clone()];
            assert_eq!(off.access(kind, address, 0o123456), bare(10), "{way}, {kind:?}");
            assert_eq!(past_core.access(kind, address, 0o123456), bare(9), "{way}, {kind:?}");
            assert_left_the_same(&off.unit, &past_core.unit);
            assert_eq!((off.unit.counter(), past_core.unit.counter()), (0o12, 0o13));
            assert!([off.memory, past_core.memory] == memories);
        }
    }
}

/// "the page whose walk ran off is the page at fault and is forgotten. A walk that ran off still brings no page into use."
/// "no cell is filled and the counter does not step"
#[test]
fn the_page_whose_walk_ran_off_is_forgotten_and_the_others_stay() {
    let mut rig = Rig::new();
    for page in 1..=9u16 {
        rig.put(0o001400 + 2 * usize::from(page), 0o160020 + page);
    }
    rig.write_quietly(0o177616, 0o177001);
    let mut rig = started(rig, false);
    // Page 1 comes into use and is replaced by page 9.
    for page in 1..=9u16 {
        assert_eq!(rig.read_quietly(page << 9).answer, 0);
    }
    let held = [9, 2, 3, 4, 5, 6, 7, 8];
    assert_eq!((rig.unit.tags(), rig.unit.counter()), (&held[..], 0o11));
    let whole = rig.memory.clone();
    rig.memory.truncate(0o001402);
    assert_eq!(rig.read_quietly(0o001000), bare(10));
    assert_eq!((rig.unit.tags(), rig.unit.counter()), (&held[..], 0o11));
    rig.service();
    rig.memory = whole;
    rig.put(0o001402, 0o160040);
    assert_eq!(rig.read_quietly(0o001000), done(0, 0o040000));
    assert_eq!((rig.unit.tags()[1], rig.unit.counter()), (1, 0o12));
}

/// "Unpaged accesses are never answered 10, nor are interrupt, trap and INIT."
#[test]
fn interrupt_trap_and_init_never_give_10() {
    let past_core = |user| {
        let mut rig = Rig::new();
        rig.write_quietly(0o177614, 0o002200);
        rig.write_quietly(0o177616, 0o002200);
        started(rig, user)
    };
    for user in [false, true] {
        assert_eq!(past_core(user).unit.interrupt(), bare(0));
        assert_eq!(past_core(user).unit.init(), bare(0));
        for vector in VECTORS {
            assert_eq!(past_core(user).unit.trap(vector), bare(0));
        }
        // While two stores are due.
        let mut rig = past_core(user);
        assert_eq!(rig.read_quietly(0o001000), bare(10));
        assert_eq!((rig.unit.interrupt(), rig.unit.trap(0o4)), (bare(2), bare(2)));
        assert_eq!(rig.unit.trap(0o5), bare(1));
        assert_eq!(rig.unit.init(), bare(0));
        // INIT leaves FCN 0 and the map registers: the same page is unpaged now.
        assert_eq!(rig.read_quietly(0o001000), done(0, 0o001000));
        assert_eq!(rig.read_quietly(0o160000), bare(9));
    }
}

/// "The bench program prints the answer in decimal: `10`."
#[test]
fn the_bench_program_prints_10() {
    let input =
        b"A\t2\t2\t0\t177616\t002200\nA\t2\t2\t0\t177576\t000002\nA\t2\t2\t0\t001000\t054321\n";
    let output = "CALL\tANS\tDATA\tPHYS\tKTCS\n1\t0\t000000\t777616\t000000\n\
        2\t0\t000000\t777576\t000002\n3\t10\t000000\t-\t000012\n";
    assert_eq!(bench(input), output);
}
