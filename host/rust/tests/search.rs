//! The search of the cells, in words that a host wrote: a tag may stand there twice, or past the unit's last cell.

mod common;

use common::{parts, Rig};
use kt11b::{Answer, Reply, State, Unit, CELLS_24, CELLS_8};

/// Where the words of a unit hold the newer of the two fetched words, the tags of its cells and their scratchpad words.
const NEWER_PLACE: usize = 9;
const TAGS_PLACE: usize = 18;
const WORDS_PLACE: usize = 42;

/// The newer fetched word: cleared, as after INIT, or MOV R0,R0. Only under a plain instruction does the library try its short way for
/// the usual access, which searches the cells too.
const FETCHED: [u16; 2] = [0, 0o010000];

/// A cell by its place, with its tag and its word.
type Held = (usize, u16, u16);

/// Zeroed memory, KTEM 177001 and FCN 2, stored unpaged; then these words are written over. No map word is resident.
fn rig_with(cells: u64, fetched: u16, held: &[Held]) -> Rig {
    let mut rig = Rig::with_cells(cells);
    assert_eq!(rig.write(0o177616, 0o177001).answer(), Answer::Done);
    assert_eq!(rig.write(0o177576, 0o000002).answer(), Answer::Done);
    let mut words = *rig.unit.words();
    words[NEWER_PLACE] = fetched;
    for &(place, tag, word) in held {
        words[TAGS_PLACE + place] = tag;
        words[WORDS_PLACE + place] = word;
    }
    rig.unit = Unit::from_words(words);
    assert_eq!((rig.unit.cells(), rig.unit.counter()), (Some(cells as usize), Some(0o10)));
    rig
}

/// `A 0 3 0 address 000000`: a word DATI in EXECUTE.
fn read(rig: &mut Rig, address: u16) -> Reply {
    rig.read_in(State::Execute, address)
}

/// The parts of a read that a cell answers: it reads a word of zeroed memory at this address.
fn done(physical: u32) -> (Answer, u16, Option<u32>) {
    (Answer::Done, 0, Some(physical))
}

/// The parts of a reply with no data and no address.
fn bare(answer: Answer) -> (Answer, u16, Option<u32>) {
    (answer, 0, None)
}

fn cell(rig: &Rig, place: usize) -> (Option<u16>, Option<u16>) {
    (rig.unit.cell_tag(place), rig.unit.cell_word(place))
}

const EMPTY: (Option<u16>, Option<u16>) = (Some(0), Some(0));

/// Of two cells with the tag the first answers, the last cell is compared too, and a fault empties both cells of its page.
#[test]
fn a_tag_in_two_of_eight_cells() {
    for fetched in FETCHED {
        let held = [(2, 1, 0o160041), (5, 1, 0o160042), (7, 2, 0o160043)];
        let mut rig = rig_with(CELLS_8, fetched, &held);
        assert_eq!(parts(read(&mut rig, 0o001000)), done(0o041000), "the first of two, cell 2");
        assert_eq!(parts(read(&mut rig, 0o002000)), done(0o043000), "the last cell");

        assert_eq!(parts(read(&mut rig, 0o001001)), bare(Answer::AddressViolation));
        assert_eq!((cell(&rig, 2), cell(&rig, 5)), (EMPTY, EMPTY), "both cells of page 1");
        assert_eq!(cell(&rig, 7), (Some(2), Some(0o160043)), "the cell of page 2 stays");
        assert_eq!(rig.unit.counter(), Some(0o10));

        assert_eq!(parts(rig.serve(0o000676, 0)), bare(Answer::Done));
        assert_eq!(parts(rig.serve(0o000674, 0)), bare(Answer::Done));
        assert_eq!(parts(read(&mut rig, 0o001000)), bare(Answer::ResidencyViolation));
        assert_eq!(rig.unit.counter(), Some(0o11), "page 1 was walked");
        assert_eq!((0..7).map(|place| cell(&rig, place)).collect::<Vec<_>>(), [EMPTY; 7]);
        assert_eq!(cell(&rig, 7), (Some(2), Some(0o160043)));
    }
}

/// The same among 24: the first of two, the last but one, and the last where it alone has the tag.
#[test]
fn a_tag_in_two_of_24_cells() {
    for fetched in FETCHED {
        let held = [(3, 1, 0o160041), (23, 1, 0o160042), (22, 2, 0o160043)];
        let mut rig = rig_with(CELLS_24, fetched, &held);
        assert_eq!(parts(read(&mut rig, 0o001000)), done(0o041000), "the first of two, cell 3");
        assert_eq!(parts(read(&mut rig, 0o002000)), done(0o043000), "cell 22");

        let mut rig = rig_with(CELLS_24, fetched, &held[1..]);
        assert_eq!(parts(read(&mut rig, 0o001000)), done(0o042000), "the last cell");
    }
}

/// "Places past the unit's number are not there (T-08) and are not compared": the page is walked, and is not resident.
#[test]
fn a_tag_past_the_last_cell() {
    for fetched in FETCHED {
        let ninth = [(8, 2, 0o160043)];
        let mut rig = rig_with(CELLS_8, fetched, &ninth);
        assert_eq!(parts(read(&mut rig, 0o002000)), bare(Answer::ResidencyViolation));
        assert_eq!(rig.unit.counter(), Some(0o11), "page 2 was walked");

        let mut rig = rig_with(CELLS_24, fetched, &ninth);
        assert_eq!(parts(read(&mut rig, 0o002000)), done(0o043000), "24 cells have a ninth");
    }
}

/// A host may write any 16 bits as a tag: one that agrees in the low 8 alone is another tag.
#[test]
fn the_whole_tag_is_compared() {
    for fetched in FETCHED {
        let held = [(0, 0o000401, 0o160041), (6, 0o000001, 0o160042), (7, 0o100001, 0o160043)];
        let mut rig = rig_with(CELLS_8, fetched, &held);
        assert_eq!(parts(read(&mut rig, 0o001000)), done(0o042000), "cell 6");
    }
}
