//! The boundary between simple pages and the others. The sentences above the tests are those of T-02, the request "The boundary is one off",
//! of the issue that settles it, and of the source's section 5.2 where that is said. Expected values are worked out from them by hand.

mod common;

use common::{bare, done, Rig};
use kt11b_model::{is_simple, pointed_place, route, Reply, Route};

/// N of every size.
const EVERY_N: std::ops::RangeInclusive<u16> = 0..=127;
const EVERY_PAGE: std::ops::RangeInclusive<u16> = 0..=127;

/// N and M of the register that does not decide, and M of the one that does.
const OTHER_BITS: [(u16, u16, u16); 5] =
    [(0, 1, 5), (127, 5, 1), (1, 0, 0o777), (126, 0o777, 0), (64, 0o252, 0o525)];

/// "512·M", for the places of 01's "From address to entry".
fn base(m: u16) -> u32 {
    512 * u32::from(m)
}

/// "Pages 0 to N are simple, N the high 7 bits of a map register."
#[test]
fn a_page_is_simple_if_and_only_if_it_is_at_most_n() {
    for n in EVERY_N {
        for m in [0, 1, 0o525, 0o777] {
            for page in EVERY_PAGE {
                assert_eq!(is_simple((n << 9) | m, page), page <= n, "N {n}, M {m:o}, page {page}");
            }
        }
    }
}

/// "N = 0 is one page (page 0). N = 127 is all pages: then no exec page goes by KTUM's map and no user page by a pointer."
#[test]
fn n_0_is_one_page_and_n_127_is_all() {
    for page in 1..=127 {
        let low = 2 * u32::from(page);
        assert_eq!(route(0o000005, 0o000001, true, page), Route::UserShared(0o005400 + low));
        assert_eq!(route(0o000005, 0o000001, false, page), Route::ExecPerProcess(0o005000 + low));
        assert_eq!(route(0o177005, 0o177001, true, page), Route::UserSimple(0o005400 + low));
        assert_eq!(route(0o177005, 0o177001, false, page), Route::ExecSimple(0o001400 + low));
    }
    // "User page 0 with KTUM's N = 0 is walked and is simple." "exec page 0 is never walked"
    for ktum in [0o000005, 0o177005] {
        assert_eq!(route(ktum, 0o000001, true, 0), Route::UserSimple(0o005400));
    }
    for ktem in [0o000001, 0o177001] {
        assert_eq!(route(0o000005, ktem, false, 0), Route::ExecZero);
    }
}

/// "It holds for both registers: .. user pages by KTUM's N"; "512·M(KTUM)+256+2p for a user page, whose word there is the map word up to N
/// and a pointer beyond"
#[test]
fn every_user_page_goes_by_every_n_of_ktum() {
    for n in EVERY_N {
        for page in EVERY_PAGE {
            for (other_n, other_m, m) in OTHER_BITS {
                let [ktum, ktem] = [(n << 9) | m, (other_n << 9) | other_m];
                let place = base(m) + 256 + 2 * u32::from(page);
                let simple = Route::UserSimple(place);
                let wanted = if page <= n { simple } else { Route::UserShared(place) };
                let given = route(ktum, ktem, true, page);
                assert_eq!(given, wanted, "KTUM {ktum:o}, KTEM {ktem:o}, page {page}");
            }
        }
    }
}

/// "exec pages by KTEM's N"; "512·M(KTEM)+256+2p for a simple exec page, 512·M(KTUM)+2p for an exec page beyond N"
#[test]
fn every_exec_page_goes_by_every_n_of_ktem() {
    for n in EVERY_N {
        for page in EVERY_PAGE.skip(1) {
            for (other_n, other_m, m) in OTHER_BITS {
                let [ktum, ktem] = [(other_n << 9) | other_m, (n << 9) | m];
                let low = 2 * u32::from(page);
                let simple = Route::ExecSimple(base(m) + 256 + low);
                let per_process = Route::ExecPerProcess(base(other_m) + low);
                let wanted = if page <= n { simple } else { per_process };
                let given = route(ktum, ktem, false, page);
                assert_eq!(given, wanted, "KTUM {ktum:o}, KTEM {ktem:o}, page {page}");
            }
        }
    }
}

/// KTEM's map in page 1 leads to page 10o, KTUM's in page 5 to page 11o from its low half and to page 12o from its high half. Taken for a
/// pointer, the words of that half lead to 012740, and the word there to page 13o.
fn every_page_mapped() -> Rig {
    let mut rig = Rig::new();
    for place in (0..0o400).step_by(2) {
        rig.put(0o001400 + place, 0o160010);
        rig.put(0o005000 + place, 0o160011);
        rig.put(0o005400 + place, 0o160012);
    }
    rig.put(0o012740, 0o160013);
    rig
}

/// Goes on in FCN 1, in which EXECUTE is paged and SOURCE is not.
fn in_fcn_1(mut rig: Rig, user: bool) -> Rig {
    if user {
        // The user stores FCN by page 127, which is the register page for a moment: KTUM 177001 has its word at 001776.
        rig.put(0o001776, 0o160777);
        rig.write(0o177614, 0o177001);
        rig.write(0o177576, 3);
        rig.read(0);
        rig.read(0);
        rig.write_quietly(0o177576, 1);
        rig.put(0o001776, 0o160010);
    } else {
        rig.write(0o177576, 1);
    }
    assert_eq!(rig.ktcs(), if user { 0o000021 } else { 0o000001 });
    rig
}

/// A map register stored unpaged.
fn set(rig: &mut Rig, address: u16, value: u16) {
    assert_eq!(rig.access([2, 1, 0], address, value).answer, 0);
}

/// The same by a unit's own accesses, which go where the word that was read leads.
#[test]
fn a_units_exec_pages_go_by_ktem_and_its_user_pages_by_ktum() {
    for user in [false, true] {
        let mut rig = in_fcn_1(every_page_mapped(), user);
        let [own, other] = if user { [0o177614, 0o177616] } else { [0o177616, 0o177614] };
        let [own_map, other_map] = if user { [5, 1] } else { [1, 5] };
        let [simple, beyond] = if user { [0o012, 0o013] } else { [0o010, 0o011] };
        for n in EVERY_N {
            // N of the other register is another one, and does not decide.
            set(&mut rig, other, ((127 - n) << 9) | other_map);
            set(&mut rig, own, (n << 9) | own_map);
            for page in EVERY_PAGE.skip(usize::from(!user)) {
                let wanted = if page <= n { simple } else { beyond };
                let reply = rig.read_quietly((page << 9) | 0o100);
                let got = (reply.answer, reply.physical);
                assert_eq!(got, (0, Some(wanted * 512 + 0o100)), "user {user}, N {n}, page {page}");
            }
        }
    }
}

/// "a window's inner access is a user's and goes by KTUM"
#[test]
fn a_windows_inner_page_goes_by_ktum() {
    for n in EVERY_N {
        for ktem in [0o000777, 0o177777] {
            // Exec page 0 is the register page, whatever N of KTEM is.
            let mut rig = every_page_mapped();
            rig.write(0o177616, ktem);
            rig.write(0o177614, (n << 9) | 5);
            rig.write(0o177576, 2);
            for page in EVERY_PAGE {
                rig.write_quietly(0o000610, page << 9);
                let wanted = if page <= n { 0o012000 } else { 0o013000 };
                let reply = rig.read_quietly(0o000572);
                let got = (reply.answer, reply.physical);
                assert_eq!(got, (0, Some(wanted)), "KTEM {ktem:o}, N {n}, page {page}");
            }
        }
    }
}

/// "A store that changes N alone (the high byte) empties all cells already": the page that was simple is walked again, and is not.
#[test]
fn a_store_of_n_alone_moves_the_boundary() {
    let mut rig = Rig::exec();
    rig.put(0o005002, 0o160030);
    rig.write(0o177616, 0o001001);
    assert_eq!(rig.read_quietly(0o001000), done(0, 0o002000));
    // Page 127, by which the registers are reached, is per process with this N.
    rig.put(0o005376, 0o160777);
    assert_eq!(rig.write_byte(0o177617, 0), done(0, 0o777617));
    assert_eq!((rig.unit.tags(), rig.unit.counter()), (&[0; 8][..], 0o10));
    assert_eq!(rig.read_quietly(0o001000), done(0, 0o030000));
    assert_eq!(rig.write_byte(0o177617, 0o000002), done(0, 0o777617));
    assert_eq!(rig.read_quietly(0o001000), done(0, 0o002000));
}

/// "A pointer's high 7 bits are an entry's number and not a boundary: n = 0 is entry 0."
#[test]
fn a_pointers_number_is_no_boundary() {
    assert_eq!(pointed_place(0o000007), 0o007400);
    assert_eq!(pointed_place(0o001007), 0o007402);
    assert_eq!(pointed_place(0o177007), 0o007776);
    // Entry 0 of page 7, and the word there is the map word, though 0 is at most N.
    let mut rig = Rig::user();
    rig.put(0o005412, 0o000007);
    rig.put(0o007400, 0o160033);
    assert_eq!(rig.read(0o005000), done(0, 0o033000));
}

/// The places of section 5.2: "KTEM 177001, exec pages 1 and 127 are word walks at 001402o and 001776o; KTEM 000001 and KTUM 000001, exec
/// pages 1 and 127 at 001002o and 001376o; KTUM 000005, user page 0 a word walk at 005400o and user pages 1 and 127 pointer walks at 005402o
/// and 005776o; KTUM 177001, user page 127 a word walk at 001776o; and pointers 001001o and 177001o lead to 001402o and 001776o."
#[test]
fn the_places_of_decs_steps() {
    for ktum in [0, 0o000001, 0o177005] {
        assert_eq!(route(ktum, 0o177001, false, 1), Route::ExecSimple(0o001402));
        assert_eq!(route(ktum, 0o177001, false, 127), Route::ExecSimple(0o001776));
    }
    assert_eq!(route(0o000001, 0o000001, false, 1), Route::ExecPerProcess(0o001002));
    assert_eq!(route(0o000001, 0o000001, false, 127), Route::ExecPerProcess(0o001376));
    for ktem in [0, 0o000001, 0o177001] {
        assert_eq!(route(0o000005, ktem, true, 0), Route::UserSimple(0o005400));
        assert_eq!(route(0o000005, ktem, true, 1), Route::UserShared(0o005402));
        assert_eq!(route(0o000005, ktem, true, 127), Route::UserShared(0o005776));
        assert_eq!(route(0o177001, ktem, true, 127), Route::UserSimple(0o001776));
    }
    assert_eq!(pointed_place(0o001001), 0o001402);
    assert_eq!(pointed_place(0o177001), 0o001776);
}

/// The maps of section 5.2. In page 1 "1400/ 160000", "1402/ 160001" and so on to "1776/ 160777"; "1000/ 0", then 160000, 160001 and so on
/// to "1376/ 160777". In page 5 "5400/ 160001", then 1001, 2001 and so on to 177001. 000010, 002010 and 003010 tell their pages.
fn decs_maps() -> Rig {
    let mut rig = Rig::new();
    for page in 1..127u16 {
        let place = 2 * usize::from(page);
        rig.put(0o001000 + place, 0o160000 + page - 1);
        rig.put(0o001400 + place, 0o160000 + page);
        rig.put(0o005400 + place, (page << 9) | 1);
    }
    for (place, word) in [
        (0o001376, 0o160777),
        (0o001400, 0o160000),
        (0o001776, 0o160777),
        (0o005400, 0o160001),
        (0o005776, 0o177001),
        (0o000010, 0o000100),
        (0o002010, 0o000222),
        (0o003010, 0o000333),
    ] {
        rig.put(place, word);
    }
    rig
}

/// INIT, the map registers, and FCN 2: DEC's steps to begin exec paging.
fn page_exec(rig: &mut Rig, ktem: u16, ktum: u16) {
    rig.unit.init();
    rig.write(0o177616, ktem);
    rig.write(0o177614, ktum);
    rig.write(0o177576, 2);
}

/// The same for a user: FCN 3, and two examines that give KTPC and KTPS.
fn start_user(rig: &mut Rig, ktem: u16, ktum: u16) {
    rig.unit.init();
    rig.write(0o177616, ktem);
    rig.write(0o177614, ktum);
    rig.write(0o177604, 0o000010);
    rig.write(0o177606, 0o000340);
    rig.write(0o177576, 3);
    for data in [0o000010, 0o000340] {
        assert_eq!(rig.read(0), Reply { answer: 0, data, physical: None });
    }
    assert_eq!(rig.ktcs(), 0o000022);
}

/// Examines these addresses: each gives this word at this place, and leaves this KTCS.
fn examine(rig: &mut Rig, ktcs: u16, rows: &[(u16, u16, u32)]) {
    for &(address, data, place) in rows {
        assert_eq!(rig.read(address), done(data, place), "{address:o}");
        assert_eq!(rig.ktcs(), ktcs);
    }
}

/// Source 5.2 f, "Exec Simple": "Deposit an exec map pointer of 177001 in the KTEM register."
#[test]
fn decs_step_f() {
    let mut rig = decs_maps();
    page_exec(&mut rig, 0o177001, 0);
    let rows = [
        (0o001402, 0o160001, 0o001402),
        (0o002010, 0o000222, 0o002010),
        (0o003010, 0o000333, 0o003010),
        // The last page is simple. KTMR, after four walks.
        (0o177574, 0o006000, 0o777574),
    ];
    examine(&mut rig, 0o000012, &rows);
    // With N=126 it is per process: KTUM 0 has its word at 000376, which is 0.
    page_exec(&mut rig, 0o176001, 0);
    assert_eq!((rig.read(0o177574), rig.ktcs()), (bare(5), 0o004012));
}

/// Source 5.2 g, "Exec Per Process": KTEM 000001 and KTUM 000001.
#[test]
fn decs_step_g() {
    let mut rig = decs_maps();
    page_exec(&mut rig, 0o000001, 0o000001);
    let rows = [
        // Each page is one behind.
        (0o001010, 0o000100, 0o000010),
        (0o002010, 0o160003, 0o001010),
        (0o003010, 0o000222, 0o002010),
        (0o177574, 0o006000, 0o777574),
        // Exec page 0 is page M of KTEM.
        (0o000010, 0o160003, 0o001010),
    ];
    examine(&mut rig, 0o000012, &rows);
    // With N=1 page 1 goes by 001402 and page 2 by 001004.
    page_exec(&mut rig, 0o001001, 0o000001);
    let rows = [(0o001010, 0o160003, 0o001010), (0o002010, 0o160003, 0o001010)];
    examine(&mut rig, 0o000012, &rows);
    assert_eq!(rig.unit.words()[..2], [0o160001, 0o160001]);
}

/// Source 5.2 h, "Shared User": KTUM 000005. "Examine page zero; you should be in user simple mode." "Examine page one; you should be in
/// shared user mode."
#[test]
fn decs_step_h() {
    let mut rig = decs_maps();
    start_user(&mut rig, 0o000001, 0o000005);
    let rows = [
        (0o000010, 0o160003, 0o001010),
        (0o001010, 0o160003, 0o001010),
        (0o002010, 0o000222, 0o002010),
        (0o003010, 0o000333, 0o003010),
        // KTMR, after five walks; the cells hold map words and no pointers.
        (0o177574, 0o006400, 0o777574),
        (0o177620, 0o160001, 0o777620),
        (0o177622, 0o160001, 0o777622),
        (0o177624, 0o160002, 0o777624),
    ];
    examine(&mut rig, 0o000032, &rows);
    // With N=1 the 001001 of page 1 is a map word, and is not resident.
    start_user(&mut rig, 0o000001, 0o001005);
    assert_eq!((rig.read(0o001010), rig.ktcs()), (bare(5), 0o004052));
}

/// Source 5.2 i, "Start User": as h, then "Change user map pointer (KTUM) to 177001. Repeat steps 1-4 for pages 1, 2, 3 and last page".
#[test]
fn decs_step_i() {
    let mut rig = decs_maps();
    start_user(&mut rig, 0o000001, 0o000005);
    examine(&mut rig, 0o000032, &[(0o000010, 0o160003, 0o001010)]);
    start_user(&mut rig, 0o000001, 0o177001);
    let rows = [
        (0o000010, 0o000100, 0o000010),
        (0o001010, 0o160003, 0o001010),
        (0o002010, 0o000222, 0o002010),
        (0o003010, 0o000333, 0o003010),
        (0o177574, 0o006400, 0o777574),
    ];
    examine(&mut rig, 0o000032, &rows);
    // With N=126 the 160777 of page 127 is a pointer, which leads to 777740.
    start_user(&mut rig, 0o000001, 0o176001);
    assert_eq!((rig.read(0o177574), rig.ktcs()), (bare(10), 0o000052));
}
