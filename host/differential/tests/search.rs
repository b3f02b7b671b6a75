//! The search of the cells beside the model's, over random lists most of which have a tag twice or more. No call makes such a list, but
//! words that a host wrote may hold one.

use kt11b::NumberedAccess;
use kt11b_differential::words::words_of;
use kt11b_differential::Random;
use kt11b_model::bench::MEMORY_BYTES;
use kt11b_model::Unit;

/// So many lists for each number of cells.
const LISTS: u64 = 100_000;

/// What the lists are made of: the tag of an empty cell, which no access seeks, and those of a few pages, exec and user.
const TAGS: [u8; 7] = [0, 1, 2, 3, 0o200, 0o201, 0o202];
const EXEC_PAGES: [u8; 3] = [1, 2, 3];
const USER_PAGES: [u8; 3] = [0, 1, 2];
/// A page that no list has, of exec or user.
const ABSENT_PAGE: u8 = 0o76;

/// The word of the first cell; those after it name the pages after it. All are resident, public and write-enabled.
const FIRST_WORD: u16 = 0o160040;

/// MOV R0,R0.
const MOV: u16 = 0o010000;

/// Map words are all 0, and not resident, but for that of the page of code, where the MOV stands.
fn memory_with_code() -> Vec<u8> {
    let mut memory = vec![0; MEMORY_BYTES];
    let words = [(0o001576, 0o160003), (0o002576, 0o160003), (0o003000, MOV)];
    for (place, word) in words {
        memory[place..place + 2].copy_from_slice(&word.to_le_bytes());
    }
    memory
}

/// Page 77 of exec and of user, by KTEM 177001 and KTUM 177002.
const CODE: u16 = 0o077000;

/// A unit in FCN 2. Once it has fetched a plain instruction, the library tries its short way for the usual access, which searches the cells
/// too; while it has fetched nothing, its newer word is 0, a HALT, and the library goes by all steps.
fn start(cells: u64, user: bool, fetched: bool, memory: &mut [u8]) -> Unit {
    let mut unit = Unit::with_cells(cells).expect("the model makes the unit");
    let mut done = |operation, state, address, data| {
        let reply = unit.access(memory, operation, state, 0, address, data);
        assert_eq!(reply.answer, 0, "{operation} {state} {address:o} {data:o}");
    };
    done(2, 2, 0o177616, 0o177001);
    done(2, 2, 0o177614, 0o177002);
    done(2, 2, 0o177576, if user { 3 } else { 2 });
    if user {
        // The two START reads.
        done(0, 2, 0, 0);
        done(0, 2, 0, 0);
    }
    if fetched {
        done(0, 0, CODE, 0);
    }
    assert_eq!(unit.user_mode(), user);
    assert_eq!(unit.fetch_memory().last, if fetched { MOV } else { 0 });
    unit
}

/// The same unit with these tags in its cells.
fn holding(mut unit: Unit, tags: &[u8]) -> Unit {
    for (cell, (&tag, word)) in tags.iter().zip(FIRST_WORD..).enumerate() {
        unit.put_cell(cell, tag, word);
    }
    unit
}

/// Library and model read at an address: reply and unit are the same. Gives the reply.
fn both_read(unit: Unit, memory: &mut [u8], address: u16) -> kt11b::Reply {
    let mut model = unit;
    let mut library = kt11b::Unit::from_words(words_of(&unit));
    let wanted = model.access(memory, 0, 3, 0, address, 0);
    let access = NumberedAccess { operation: 0, state: 3, width: 0, address, data: 0 };
    let given = library.access_numbered(memory, access);
    let parts = (given.answer_number(), given.data(), given.physical());
    assert_eq!(parts, (wanted.answer, wanted.data, wanted.physical), "{address:o}: {unit:?}");
    assert!(*library.words() == words_of(&model), "{address:o}: {unit:?}");
    given
}

/// The cell whose word answers for a page; none if the page is walked, and is not resident.
fn cell_used(unit: Unit, memory: &mut [u8], address: u16) -> Option<usize> {
    let reply = both_read(unit, memory, address);
    assert_eq!(reply.answer_number(), if reply.physical().is_some() { 0 } else { 5 });
    reply.physical().map(|physical| (physical >> 9) as usize - usize::from(FIRST_WORD & 0o777))
}

/// What came of the lists for a number of cells.
#[derive(Default, Debug)]
struct Came {
    /// Lists with a page in two cells or more.
    twice: u64,
    /// How often each cell answered.
    found: [u64; 24],
    missing: u64,
}

fn random_tags(cells: u64, random: &mut Random) -> Vec<u8> {
    (0..cells).map(|_| TAGS[random.below(TAGS.len() as u64) as usize]).collect()
}

fn has_a_page_twice(tags: &[u8]) -> bool {
    TAGS[1..].iter().any(|tag| tags.iter().filter(|&held| held == tag).count() > 1)
}

/// Seeks each page of the unit's mode that a list may hold, and one that none holds: "the place of the first cell with the tag". A word DATI at
/// an odd address, which is refused, empties each cell of the page.
fn seek_each(start: Unit, tags: &[u8], memory: &mut [u8], came: &mut Came) {
    let unit = holding(start, tags);
    let pages = if unit.user_mode() { USER_PAGES } else { EXEC_PAGES };
    for page in pages.into_iter().chain([ABSENT_PAGE]) {
        let tag = if unit.user_mode() { 0o200 | page } else { page };
        let address = u16::from(page) << 9;
        let used = cell_used(unit, memory, address);
        assert_eq!(used, tags.iter().position(|&held| held == tag), "{tag:o}: {tags:?}");
        match used {
            Some(cell) => came.found[cell] += 1,
            None => came.missing += 1,
        }
        assert_eq!(both_read(unit, memory, address + 1).answer_number(), 4);
    }
}

fn seek_in_lists(cells: u64) -> Came {
    let mut random = Random::new(cells);
    let mut memory = memory_with_code();
    let modes = [(false, false), (false, true), (true, false), (true, true)];
    let starts = modes.map(|(user, fetched)| start(cells, user, fetched, &mut memory));
    let mut came = Came::default();
    for _ in 0..LISTS {
        let tags = random_tags(cells, &mut random);
        came.twice += u64::from(has_a_page_twice(&tags));
        for unit in starts {
            seek_each(unit, &tags, &mut memory, &mut came);
        }
    }
    assert!(memory == memory_with_code(), "a read changed memory");
    came
}

/// "It answers as before for every list, size and tag: `At` the place of the first cell with the tag, or `Missing`."
#[test]
fn the_first_cell_with_the_tag_in_random_lists() {
    for cells in [8, 24] {
        let came = seek_in_lists(cells);
        println!("{cells} cells: {LISTS} lists, {came:?}");
        assert!(came.twice > LISTS * 9 / 10, "most lists have a page twice");
        let there = &came.found[..cells as usize];
        assert!(there.iter().all(|&count| count >= 1_000), "each cell was found first");
        // A page is always missing in each of the four starts, and so are some of the others.
        assert!(came.missing > 4 * LISTS);
    }
}
