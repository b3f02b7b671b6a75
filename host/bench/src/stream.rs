//! The stream of accesses that every unit is given: a user in FCN 2, with a working set of 6 pages and sweeps over 12.

/// One access, in as few bytes as it takes, so that the stream stays in the processor's cache.
#[derive(Clone, Copy)]
pub struct Access {
    pub operation: u8,
    pub state: u8,
    pub width: u8,
    pub address: u16,
    pub data: u16,
}

/// How many accesses the stream has; it is gone through again and again.
pub const LENGTH: usize = 65_536;

pub const MEMORY_BYTES: usize = 65_536;

/// KTUM: N=7, so pages 0 to 7 are simple; the map is in physical page 5.
pub const KTUM: u16 = 0o007005;

/// The working set: three pages of code, three of data, all simple and private.
const CODE_PAGES: u16 = 3;
const WORKING_SET: u16 = 6;

/// The pages of a sweep: the working set, and six public ones beyond N, which are reached by pointers. 6 and 7, the last that are
/// simple, are left out.
const SWEPT: [u16; 12] = [0, 1, 2, 3, 4, 5, 8, 9, 10, 11, 12, 13];

/// Instructions between two sweeps.
const SWEEP_EVERY: u64 = 100;

const DATI: u8 = 0;
const DATIP: u8 = 1;
const DATO: u8 = 2;
const DATOB: u8 = 3;
const FETCH: u8 = 0;
const SOURCE: u8 = 1;
const DESTINATION: u8 = 2;

/// splitmix64
struct Random(u64);

impl Random {
    fn below(&mut self, bound: u64) -> u64 {
        self.0 = self.0.wrapping_add(0x9e37_79b9_7f4a_7c15);
        let mut mixed = self.0;
        mixed = (mixed ^ (mixed >> 30)).wrapping_mul(0xbf58_476d_1ce4_e5b9);
        mixed = (mixed ^ (mixed >> 27)).wrapping_mul(0x94d0_49bb_1331_11eb);
        ((mixed ^ (mixed >> 31)) >> 16) % bound
    }
}

/// A memory with the user's maps, and words in the code pages that a user may execute.
pub fn memory() -> Vec<u8> {
    let mut memory = vec![0; MEMORY_BYTES];
    let mut random = Random(1);
    let mut put = |place: u16, word: u16| {
        let place = usize::from(place);
        memory[place..place + 2].copy_from_slice(&word.to_le_bytes());
    };
    for page in SWEPT {
        if page < WORKING_SET {
            put(0o005400 + 2 * page, 0o120020 + page);
        } else {
            // A pointer with m=7 and the page's own number as n.
            put(0o005400 + 2 * page, (page << 9) | 7);
            put(0o007400 + 2 * page, 0o160020 + page);
        }
    }
    for place in (0o020000..0o020000 + CODE_PAGES * 512).step_by(2) {
        put(place, instruction(&mut random));
    }
    memory
}

/// JSR, RTS, TRAP and RTI now and then, and mostly what the unit takes no notice of.
fn instruction(random: &mut Random) -> u16 {
    match random.below(40) {
        0 => 0o004737,
        1 => 0o000207,
        2 => 0o104400,
        3 => 0o000002,
        _ => 0o010000 + random.below(0o050000) as u16,
    }
}

/// The stream being made.
struct Maker {
    random: Random,
    accesses: Vec<Access>,
    counter: u16,
}

/// The whole stream; the same each time.
pub fn stream() -> Vec<Access> {
    let mut maker = Maker { random: Random(2), accesses: Vec::with_capacity(LENGTH), counter: 0 };
    let mut instructions = 0;
    while maker.accesses.len() < LENGTH {
        maker.instruction();
        instructions += 1;
        if instructions % SWEEP_EVERY == 0 {
            maker.sweep();
        }
    }
    maker.accesses.truncate(LENGTH);
    maker.accesses
}

impl Maker {
    fn push(&mut self, operation: u8, state: u8, address: u16) {
        let width = u8::from(operation == DATOB);
        let data = self.random.below(0o200000) as u16;
        self.accesses.push(Access { operation, state, width, address, data });
    }

    /// An even address in the working set's data pages.
    fn data_address(&mut self) -> u16 {
        let bytes = (WORKING_SET - CODE_PAGES) * 512;
        CODE_PAGES * 512 + self.random.below(u64::from(bytes)) as u16 / 2 * 2
    }

    /// A fetch, straight on or at a jump's end, and the operands of a PDP-11 instruction.
    fn instruction(&mut self) {
        let code = CODE_PAGES * 512;
        self.counter = match self.random.below(8) {
            0 => self.random.below(u64::from(code)) as u16 / 2 * 2,
            _ => (self.counter + 2) % code,
        };
        self.push(DATI, FETCH, self.counter);
        let source = self.data_address();
        let destination = self.data_address();
        match self.random.below(10) {
            0..=2 => self.push(DATI, SOURCE, source),
            3..=4 => {
                self.push(DATI, SOURCE, source);
                self.push(DATO, DESTINATION, destination);
            }
            5 => {
                self.push(DATIP, DESTINATION, destination);
                self.push(DATO, DESTINATION, destination);
            }
            6 => self.push(DATOB, DESTINATION, destination | 1),
            7 => self.push(DATO, DESTINATION, destination),
            _ => {}
        }
    }

    /// A read in each of the twelve pages, and a store where there is no code.
    fn sweep(&mut self) {
        for page in SWEPT {
            let address = page * 512 + self.random.below(256) as u16 * 2;
            self.push(DATI, SOURCE, address);
            if page >= CODE_PAGES {
                self.push(DATO, DESTINATION, address);
            }
        }
    }
}
