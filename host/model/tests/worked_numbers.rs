//! The worked numbers of 01, starred or not, those of the boundary as T-02 has them; its bench program's lines, and the map page that
//! tools get.

mod common;

use common::{bare, bench, done, Rig};
use kt11b_model::{last_simple_page, map_page, pointed_place, route, Route, Unit};

const HEADER: &str = "CALL\tANS\tDATA\tPHYS\tKTCS\n";

/// By T-02 "KTUM 004005o (N=4): user page 3 word at 005406o; page 4 word at 005410o; page 5 pointer at 005412o; pointer 003007o leads to
/// 007406o."
#[test]
fn ktum_004005_has_its_last_simple_page_at_4() {
    assert_eq!(last_simple_page(0o004005), 4);
    assert_eq!(route(0o004005, 0, true, 3), Route::UserSimple(0o005406));
    assert_eq!(route(0o004005, 0, true, 4), Route::UserSimple(0o005410));
    assert_eq!(route(0o004005, 0, true, 5), Route::UserShared(0o005412));
    assert_eq!(pointed_place(0o003007), 0o007406);
}

/// "User simple: word at 512·M(KTUM)+256+2p."
/// "Other user pages: the word at that same place is a pointer"
#[test]
fn a_user_gets_to_pages_3_4_and_5_by_those_places() {
    let mut rig = Rig::user();
    assert_eq!(rig.read(0o003002), done(0, 0o012002));
    assert_eq!(rig.read(0o004004), done(0, 0o014004));
    assert_eq!(rig.read(0o005006), done(0, 0o013006));
    assert_eq!(rig.unit.tags()[..3], [0o203, 0o204, 0o205]);
}

/// By T-02 "KTEM N=4, M=1: exec page 3 at 001406o; exec page 4 at 001410o; exec page 5, with that KTUM, at 005012o."
#[test]
fn ktem_with_n_4_and_m_1() {
    assert_eq!(route(0o004005, 0o004001, false, 3), Route::ExecSimple(0o001406));
    assert_eq!(route(0o004005, 0o004001, false, 4), Route::ExecSimple(0o001410));
    assert_eq!(route(0o004005, 0o004001, false, 5), Route::ExecPerProcess(0o005012));
}

/// The same by accesses; each of the words names a page of its own.
#[test]
fn exec_gets_to_pages_3_4_and_5_by_those_places() {
    let mut rig = Rig::exec();
    rig.write(0o177616, 0o004001);
    for (place, word) in [
        (0o001406, 0o160020),
        (0o001410, 0o160021),
        (0o001412, 0o160022),
        (0o005006, 0o160030),
        (0o005010, 0o160031),
        (0o005012, 0o160032),
    ] {
        rig.put(place, word);
    }
    assert_eq!(rig.read(0o003002), done(0, 0o020002));
    assert_eq!(rig.read(0o004004), done(0, 0o021004));
    assert_eq!(rig.read(0o005006), done(0, 0o032006));
    assert_eq!(rig.unit.tags()[..3], [0o003, 0o004, 0o005]);
}

/// "KTEM M=1: * exec 000777o is 001777o; * exec 001000o is walked."
#[test]
fn exec_000777_is_001777_and_001000_is_walked() {
    let mut rig = Rig::exec();
    rig.put(0o001776, 0o160777);
    assert_eq!(rig.access([0, 3, 1], 0o000777, 0), done(0o160777, 0o001777));
    assert_eq!(rig.unit.counter(), 0o10);
    assert_eq!(rig.read(0o001000), done(0, 0o002000));
    assert_eq!(rig.unit.counter(), 0o11);
}

/// "Unpaged byte DATI 157777o stays; * 160000o is 760000o."
#[test]
fn unpaged_157777_stays_and_160000_goes_up() {
    let mut rig = Rig::new();
    assert_eq!(rig.access([0, 2, 1], 0o157777, 0), done(0, 0o157777));
    assert_eq!(rig.access([0, 2, 1], 0o160000, 0), bare(9));
    assert_eq!(rig.read(0o177600), done(0, 0o777600));
}

/// "L=0: * unpaged 0 times out. L=65,536 unpaged: the last word below 160000o is fine. L=4: 2 is fine, * 4 times out."
/// "its length L is even, at most 253,952 (760000o)"
#[test]
fn lengths_of_memory() {
    let mut unit = Unit::fresh();
    assert_eq!(unit.access(&mut [], 0, 2, 0, 0, 0), bare(9));
    let mut four = [0u8; 4];
    assert_eq!(unit.access(&mut four, 0, 2, 0, 2, 0), done(0, 2));
    assert_eq!(unit.access(&mut four, 0, 2, 0, 4, 0), bare(9));
    let mut whole = vec![0u8; 65_536];
    assert_eq!(unit.access(&mut whole, 0, 2, 0, 0o157776, 0), done(0, 0o157776));
    let mut longest = vec![0u8; 253_952];
    assert_eq!(unit.access(&mut longest, 0, 2, 0, 0, 0), done(0, 0));
    let mut too_long = vec![0u8; 253_954];
    assert_eq!(unit.access(&mut too_long, 0, 2, 0, 0, 0), bare(1));
    assert_eq!(unit.access(&mut [0; 3], 0, 2, 0, 0, 0), bare(1));
}

/// "The counter after 17o is 10o: the ninth walk refills the first cell."
#[test]
fn the_ninth_walk_refills_the_first_cell() {
    let mut rig = Rig::exec();
    for page in 1..=9u16 {
        rig.put(0o001400 + 2 * usize::from(page), 0o160020 + page);
    }
    for page in 1..=7u16 {
        rig.read(page << 9);
    }
    assert_eq!(rig.unit.counter(), 0o17);
    rig.read(0o010000);
    assert_eq!(rig.unit.counter(), 0o10);
    assert_eq!(rig.unit.tags(), [1, 2, 3, 4, 5, 6, 7, 8]);
    rig.read(0o011000);
    assert_eq!(rig.unit.tags(), [9, 2, 3, 4, 5, 6, 7, 8]);
    assert_eq!(rig.unit.words()[0], 0o160031);
    assert_eq!(rig.unit.counter(), 0o11);
}

/// "Input:" and "Output, whole:"
#[test]
fn bench_listing() {
    let input = b"W\t001402\t160002\nW\t002004\t000123\nA\t2\t2\t0\t177616\t177001\n\
        A\t2\t2\t0\t177576\t000002\nA\t0\t2\t0\t001004\t000000\nA\t0\t2\t0\t001005\t000000\n";
    let output = "CALL\tANS\tDATA\tPHYS\tKTCS\n1\t0\t000000\t777616\t000000\n\
        2\t0\t000000\t777576\t000002\n3\t0\t000123\t002004\t000012\n4\t4\t000000\t-\t040012\n";
    assert_eq!(bench(input), output);
}

/// "A bad line prints `BAD`, tab, its decimal line number." The header is printed for an empty input too; an empty line and
/// a carriage return are bad.
#[test]
fn bad_lines_are_told_and_the_last_line_needs_no_newline() {
    assert_eq!(bench(b""), HEADER);
    assert_eq!(bench(b"\n"), format!("{HEADER}BAD\t1\n"));
    assert_eq!(bench(b"X\r\n"), format!("{HEADER}BAD\t1\n"));
    assert_eq!(bench(b"X"), format!("{HEADER}1\t0\t000000\t-\t000000\n"));
    assert_eq!(
        bench(b"X\n\nX"),
        format!("{HEADER}1\t0\t000000\t-\t000000\nBAD\t2\n2\t0\t000000\t-\t000000\n")
    );
}

/// "Numbers are 1-6 octal digits up to 177777."
/// "Each call prints its decimal number, answer, data, physical (six digits each, or `-`) and KTCS."
#[test]
fn numbers_of_bench_lines_and_of_calls() {
    let input = b"T\t5\nA\t4\t2\t0\t0\t0\nT\t8\nA\t0\t2\t0\t0000000\t0\nW\t200000\t0\nW\t1\t0\n\
        I\t\n I\nX\t0\nT\t000034\nI\n";
    let expected = "CALL\tANS\tDATA\tPHYS\tKTCS\n1\t1\t000000\t-\t000000\n\
        2\t1\t000000\t-\t000000\nBAD\t3\nBAD\t4\nBAD\t5\nBAD\t6\nBAD\t7\nBAD\t8\nBAD\t9\n\
        3\t0\t000000\t-\t000000\n4\t0\t000000\t-\t000000\n";
    assert_eq!(bench(input), expected);
}

/// "`W` address value (even, one memory word)"; "A hit uses the cell."
#[test]
fn a_w_line_leaves_the_cells_alone() {
    let input = b"W\t1402\t160002\nW\t2000\t7\nW\t3000\t11\nA\t2\t2\t0\t177616\t177001\n\
        A\t2\t3\t0\t177576\t2\nA\t0\t3\t0\t1000\t0\nW\t1402\t160003\nA\t0\t3\t0\t1000\t0\n";
    let expected = "CALL\tANS\tDATA\tPHYS\tKTCS\n1\t0\t000000\t777616\t000000\n\
        2\t0\t000000\t777576\t000002\n3\t0\t000007\t002000\t000002\n\
        4\t0\t000007\t002000\t000002\n";
    assert_eq!(bench(input), expected);
}

/// "Emptying cells for KTUM and forgetting KTEM, or only on word stores."
/// "Treating user page 0 as exec page 0."
/// "Checking the write key on DATO and not on DATIP."
#[test]
fn errors_that_look_right() {
    // Only word stores, or only KTUM: both registers by byte empty the cells.
    for address in [0o177614, 0o177615, 0o177616, 0o177617] {
        let mut rig = Rig::exec();
        rig.read(0o001000);
        rig.write_byte(address, 0);
        assert_eq!((rig.unit.tags(), rig.unit.counter()), (&[0; 8][..], 0o10));
    }
    // User page 0 is not exec page 0: it is walked and has a cell.
    let mut rig = Rig::user();
    assert_eq!(rig.read(0o000002), done(0, 0o010002));
    assert!(rig.holds(0o200));
    // DATIP needs the write key.
    let mut rig = Rig::exec();
    assert_eq!(rig.access([1, 3, 0], 0o003000, 0), bare(6));
}

/// "A fresh unit is all zero, then INIT."
#[test]
fn fresh_is_all_zero_then_init() {
    let unit = Unit::fresh();
    assert_eq!((unit.ktcs(), unit.registers(), unit.wait_number()), (0, [0; 8], 0));
    assert_eq!((unit.tags(), unit.words(), unit.counter()), (&[0; 8][..], &[0; 8][..], 0o10));
    assert_eq!(unit.fetch_memory(), Default::default());
}

/// "INIT clears KTCS, the wait, the fetch memory and the cells, and sets the counter to 10o; other registers stay (H)."
#[test]
fn init_leaves_the_eight_registers() {
    let mut rig = Rig::exec();
    rig.read(0o001000);
    rig.read(0o001001);
    let registers = rig.unit.registers();
    assert_eq!(rig.unit.init(), bare(0));
    assert_eq!((rig.ktcs(), rig.unit.wait_number(), rig.unit.counter()), (0, 0, 0o10));
    assert_eq!(rig.unit.registers(), registers);
    assert_eq!(registers[4..], [0o001001, 0, 0o004005, 0o177001]);
}

/// The unit that `host/bench` times beside the other; 01 has none without cells.
#[test]
fn the_unit_without_cells_walks_each_time() {
    let mut rig = Rig::mapped_of(Unit::fresh().without_cells());
    rig.write(0o177576, 2);
    assert_eq!(rig.read(0o001000), done(0, 0o002000));
    rig.put(0o001402, 0o160003);
    assert_eq!(rig.read(0o001000), done(0, 0o003000));
    assert_eq!((rig.unit.tags(), rig.unit.counter()), (&[0; 8][..], 0o10));
}

/// "get the page a map register names as a part of the caller's memory"
#[test]
fn a_map_page_is_a_part_of_the_memory() {
    let memory = vec![0u8; 0o3000];
    assert_eq!(map_page(&memory, 0o177001).len(), 512);
    assert!(std::ptr::eq(map_page(&memory, 0o000001), &memory[0o1000..0o2000]));
}

/// "or an empty part if it isn't wholly below L"
#[test]
fn a_map_page_is_empty_unless_wholly_below_the_end() {
    let memory = vec![0u8; 0o2776];
    assert_eq!(map_page(&memory, 0o004001).len(), 512);
    assert!(map_page(&memory, 0o004002).is_empty());
    assert!(map_page(&memory, 0o000777).is_empty());
    assert!(map_page(&[], 0).is_empty());
    let unit = Unit::fresh();
    assert_eq!(map_page(&memory, unit.registers()[6]).len(), 512);
}
