//! The unit's whole state, its getters, and the calls that need no memory.

use crate::instruction::Kind;

/// KTCS bits (H).
pub const FCN: u16 = 0o000003;
pub const SS: u16 = 1 << 2;
pub const DS: u16 = 1 << 3;
pub const UM: u16 = 1 << 4;
pub const IU: u16 = 1 << 5;
pub const RV: u16 = 1 << 11;
pub const PV: u16 = 1 << 12;
pub const WV: u16 = 1 << 13;
pub const AV: u16 = 1 << 14;
pub const IV: u16 = 1 << 15;
/// Bits 15-11, the error flags.
pub const ERRORS: u16 = IV | AV | WV | PV | RV;

/// The eight registers in the order of their addresses, 777600o to 777616o.
pub const KTIC: usize = 0;
pub const KTSP: usize = 1;
pub const KTPC: usize = 2;
pub const KTPS: usize = 3;
pub const KTAD: usize = 4;
pub const KTDT: usize = 5;
pub const KTUM: usize = 6;
pub const KTEM: usize = 7;

/// The trap vectors a trap call may name.
pub const VECTORS: [u64; 7] = [0o4, 0o10, 0o14, 0o20, 0o24, 0o30, 0o34];

/// "8 and 24 give a fresh unit .. Every other number gives 30 and no unit."
pub const FEW_CELLS: usize = 8;
pub const MANY_CELLS: usize = 24;
/// The refusal to make a unit, which is no answer of a call.
pub const OTHER_COUNT: u8 = 30;

/// "Cell i (from 0) is the one that the counter names at 10o + i".
pub(crate) const FIRST_CELL: u8 = 0o10;

/// What the unit is waiting for.
#[derive(Clone, Copy, PartialEq, Eq, Debug)]
pub enum Wait {
    None,
    Status,
    ProgramCounter,
    SecondStart,
}

/// What is remembered of the last fetches.
#[derive(Clone, Copy, PartialEq, Eq, Debug, Default)]
pub struct FetchMemory {
    /// The last fetched word.
    pub last: u16,
    /// The word fetched before it.
    pub before: u16,
    /// DATOs since the last fetch; stops at 2.
    pub datos: u8,
    /// All non-fetch accesses since the last fetch; stops at 2.
    pub accesses: u8,
    /// The public flag.
    pub public: bool,
}

/// What a call gives back.
#[derive(Clone, Copy, PartialEq, Eq, Debug)]
pub struct Reply {
    pub answer: u8,
    pub data: u16,
    pub physical: Option<u32>,
}

impl Reply {
    /// A reply with data 0 and no physical address.
    #[inline]
    pub(crate) fn bare(answer: u8) -> Reply {
        Reply { answer, data: 0, physical: None }
    }
}

/// The paging unit.
#[derive(Clone, Copy, PartialEq, Eq, Debug)]
pub struct Unit {
    pub(crate) ktcs: u16,
    pub(crate) registers: [u16; 8],
    /// The number of cells that it was made with, 8 or 24.
    pub(crate) cells: usize,
    /// Room for the most cells. Those past the unit's own number are not there: nothing reads or fills them.
    pub(crate) tags: [u8; MANY_CELLS],
    pub(crate) words: [u16; MANY_CELLS],
    pub(crate) counter: u8,
    pub(crate) wait: Wait,
    pub(crate) fetched: FetchMemory,
    /// False only in the unit that walks each time, which is there to be timed.
    pub(crate) has_cells: bool,
}

impl Unit {
    /// A fresh unit with eight cells.
    pub fn fresh() -> Unit {
        Unit::fresh_of(FEW_CELLS)
    }

    /// A fresh unit with so many cells, or the reply 30: "Every other number gives 30 and no unit."
    pub fn with_cells(number: u64) -> Result<Unit, Reply> {
        match number {
            8 => Ok(Unit::fresh_of(FEW_CELLS)),
            24 => Ok(Unit::fresh_of(MANY_CELLS)),
            _ => Err(Reply::bare(OTHER_COUNT)),
        }
    }

    /// "A fresh unit is all zero, then INIT."
    pub(crate) fn fresh_of(cells: usize) -> Unit {
        let mut unit = Unit {
            ktcs: 0,
            registers: [0; 8],
            cells,
            tags: [0; MANY_CELLS],
            words: [0; MANY_CELLS],
            counter: 0,
            wait: Wait::None,
            fetched: FetchMemory::default(),
            has_cells: true,
        };
        unit.init();
        unit
    }

    /// The unit with no cells that stands beside this one: it walks each time, fills nothing, and its counter stays at 10o. It "has
    /// registers at the same addresses as the unit it stands beside; it reads 0 there".
    pub fn without_cells(self) -> Unit {
        let mut unit = Unit { has_cells: false, ..self };
        unit.empty_all_cells();
        unit
    }

    /// How many cells the unit was made with, 8 or 24; "none changes it".
    pub fn cells(&self) -> usize {
        self.cells
    }

    pub fn ktcs(&self) -> u16 {
        self.ktcs
    }

    /// KTIC, KTSP, KTPC, KTPS, KTAD, KTDT, KTUM, KTEM.
    pub fn registers(&self) -> [u16; 8] {
        self.registers
    }

    /// The tags of the cells that the unit has; 0 means empty.
    pub fn tags(&self) -> &[u8] {
        &self.tags[..self.cells]
    }

    /// Their scratchpad words, from 777620o on.
    pub fn words(&self) -> &[u16] {
        &self.words[..self.cells]
    }

    /// Writes over a cell that the unit has, as a host can in the words of its unit. No call puts a page into two cells; a host may.
    pub fn put_cell(&mut self, cell: usize, tag: u8, word: u16) {
        assert!(cell < self.cells, "the unit has no cell {cell}");
        self.tags[cell] = tag;
        self.words[cell] = word;
    }

    /// The replacement counter: "10o to 17o and round with 8 cells, 10o to 37o and round with 24".
    pub fn counter(&self) -> u8 {
        self.counter
    }

    pub fn wait(&self) -> Wait {
        self.wait
    }

    /// 0 none, 1 status due, 2 program counter due, 3 second START read due.
    pub fn wait_number(&self) -> u8 {
        match self.wait {
            Wait::None => 0,
            Wait::Status => 1,
            Wait::ProgramCounter => 2,
            Wait::SecondStart => 3,
        }
    }

    pub fn fetch_memory(&self) -> FetchMemory {
        self.fetched
    }

    #[inline]
    pub fn fcn(&self) -> u16 {
        self.ktcs & FCN
    }

    #[inline]
    pub fn user_mode(&self) -> bool {
        self.ktcs & UM != 0
    }

    /// INIT is always accepted; the eight registers stay (H), and so does the number of cells.
    pub fn init(&mut self) -> Reply {
        self.ktcs = 0;
        self.wait = Wait::None;
        self.fetched = FetchMemory::default();
        self.empty_all_cells();
        Reply::bare(0)
    }

    /// In exec an interrupt only clears IU; fetch memory stays.
    pub fn interrupt(&mut self) -> Reply {
        if self.in_sequence() {
            return Reply::bare(2);
        }
        if self.user_mode() {
            self.enter_exec();
        } else {
            self.ktcs &= !IU;
        }
        Reply::bare(0)
    }

    /// A bad vector is answered 1 even while waiting.
    pub fn trap(&mut self, vector: u64) -> Reply {
        if !VECTORS.contains(&vector) {
            return Reply::bare(1);
        }
        if self.in_sequence() {
            return Reply::bare(2);
        }
        let stays = vector == 0o34 && !self.trap_loop();
        if self.user_mode() && !stays {
            self.enter_exec();
        }
        Reply::bare(0)
    }

    /// While waiting or in FCN 3 neither an interrupt nor a trap is due.
    fn in_sequence(&self) -> bool {
        self.wait != Wait::None || self.fcn() == 3
    }

    /// Two successive TRAP instructions.
    fn trap_loop(&self) -> bool {
        let FetchMemory { last, before, .. } = self.fetched;
        Kind::of(last) == Kind::Trap && Kind::of(before) == Kind::Trap
    }

    /// "IU takes UM; UM clears; .. fetch memory clears; the unit waits for two SERVICE DATOs."
    pub(crate) fn enter_exec(&mut self) {
        let iu = if self.user_mode() { IU } else { 0 };
        self.ktcs = (self.ktcs & !(IU | UM)) | iu;
        self.fetched = FetchMemory::default();
        self.wait = Wait::Status;
    }

    /// Empties all cells that the unit has and sets the counter to 10o.
    pub(crate) fn empty_all_cells(&mut self) {
        self.tags = [0; MANY_CELLS];
        self.words = [0; MANY_CELLS];
        self.counter = FIRST_CELL;
    }

    /// Empties each cell that holds the page with this tag; the counter stays. Exec page 0, whose tag means empty, has no cell.
    pub(crate) fn empty_cells_of(&mut self, tag: u8) {
        if tag == 0 {
            return;
        }
        for cell in 0..self.cells {
            if self.tags[cell] == tag {
                self.tags[cell] = 0;
                self.words[cell] = 0;
            }
        }
    }
}
