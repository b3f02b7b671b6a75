//! A unit with its memory, and the maps most tests share.
#![allow(dead_code)]

use kt11b_model::{Reply, Unit, KTAD, KTDT, KTIC, KTPC, KTPS, KTSP, KTUM};

pub struct Rig {
    pub unit: Unit,
    pub memory: Vec<u8>,
}

impl Rig {
    /// A fresh unit with eight cells and 65,536 bytes of zero.
    pub fn new() -> Rig {
        Rig::of(Unit::fresh())
    }

    /// The same with this unit.
    pub fn of(unit: Unit) -> Rig {
        Rig { unit, memory: vec![0; 65_536] }
    }

    /// Maps for both modes, unpaged, and eight cells.
    pub fn mapped() -> Rig {
        Rig::mapped_of(Unit::fresh())
    }

    /// Maps for both modes, unpaged. KTEM: N 127, M 1. KTUM: N 4, M 5.
    ///
    /// Exec pages: 1 open and public (page 2), 2 open and private (page 3), 3 read-only and
    /// public (page 4), 4 not resident, 127 the registers, public.
    /// User pages: 0 open and public (page 10o), 1 open and private (page 11o), 2 the registers,
    /// public, 3 read-only and public (page 12o), 4 open and public (page 14o), 5 shared, open and
    /// public (page 13o).
    pub fn mapped_of(unit: Unit) -> Rig {
        let mut rig = Rig::of(unit);
        for (place, word) in [
            (0o001402, 0o160002),
            (0o001404, 0o120003),
            (0o001406, 0o140004),
            (0o001410, 0o060006),
            (0o001776, 0o160777),
            (0o005400, 0o160010),
            (0o005402, 0o120011),
            (0o005404, 0o160777),
            (0o005406, 0o140012),
            (0o005410, 0o160014),
            (0o005412, 0o003007),
            (0o007406, 0o160013),
        ] {
            rig.put(place, word);
        }
        rig.write(0o177614, 0o004005);
        rig.write(0o177616, 0o177001);
        rig
    }

    /// The same, in exec with FCN 2, fetch memory as INIT leaves it.
    pub fn exec() -> Rig {
        Rig::exec_of(Unit::fresh())
    }

    /// The same with this unit.
    pub fn exec_of(unit: Unit) -> Rig {
        let mut rig = Rig::mapped_of(unit);
        rig.unit.init();
        rig.write(0o177576, 2);
        assert_eq!(rig.ktcs(), 0o000002);
        rig
    }

    /// The same, in user mode with FCN 2.
    pub fn user() -> Rig {
        Rig::user_of(Unit::fresh())
    }

    /// The same with this unit.
    pub fn user_of(unit: Unit) -> Rig {
        let mut rig = Rig::mapped_of(unit);
        rig.write(0o177576, 3);
        rig.read(0);
        rig.read(0);
        assert_eq!(rig.ktcs(), 0o000022);
        rig
    }

    /// Exec, FCN 2, the public flag set and 010101o the last word.
    pub fn exec_from_public() -> Rig {
        let mut rig = Rig::exec();
        rig.put(0o002000, 0o010101);
        assert_eq!(rig.fetch(0o001000).answer, 0);
        assert!(rig.unit.fetch_memory().public);
        rig
    }

    pub fn put(&mut self, place: usize, word: u16) {
        self.memory[place..place + 2].copy_from_slice(&word.to_le_bytes());
    }

    pub fn word(&self, place: usize) -> u16 {
        u16::from_le_bytes([self.memory[place], self.memory[place + 1]])
    }

    pub fn access(&mut self, kind: [u64; 3], address: u16, data: u16) -> Reply {
        self.unit.access(&mut self.memory, kind[0], kind[1], kind[2], address, data)
    }

    /// A word DATI in DESTINATION.
    pub fn read(&mut self, address: u16) -> Reply {
        self.access([0, 2, 0], address, 0)
    }

    /// A word DATI in EXECUTE.
    pub fn read_quietly(&mut self, address: u16) -> Reply {
        self.access([0, 3, 0], address, 0)
    }

    /// A DATO in DESTINATION.
    pub fn write(&mut self, address: u16, data: u16) -> Reply {
        self.access([2, 2, 0], address, data)
    }

    /// A DATO in EXECUTE, which sets no bit by itself.
    pub fn write_quietly(&mut self, address: u16, data: u16) -> Reply {
        self.access([2, 3, 0], address, data)
    }

    /// A DATOB in EXECUTE.
    pub fn write_byte(&mut self, address: u16, data: u16) -> Reply {
        self.access([3, 3, 1], address, data)
    }

    pub fn fetch(&mut self, address: u16) -> Reply {
        self.access([0, 0, 0], address, 0)
    }

    /// Puts a word at a physical place and fetches it by a virtual address.
    pub fn fetch_word(&mut self, place: usize, address: u16, word: u16) {
        self.put(place, word);
        assert_eq!(self.fetch(address), done(word, place as u32));
    }

    /// The two SERVICE DATOs.
    pub fn service(&mut self) {
        assert_eq!(self.access([2, 4, 0], 0o000776, 0o000340), bare(0));
        assert_eq!(self.access([2, 4, 0], 0o000774, 0o001234), bare(0));
    }

    pub fn ktcs(&self) -> u16 {
        self.unit.ktcs()
    }

    pub fn ktic(&self) -> u16 {
        self.unit.registers()[KTIC]
    }

    pub fn ktsp(&self) -> u16 {
        self.unit.registers()[KTSP]
    }

    pub fn ktpc(&self) -> u16 {
        self.unit.registers()[KTPC]
    }

    pub fn ktps(&self) -> u16 {
        self.unit.registers()[KTPS]
    }

    pub fn ktad(&self) -> u16 {
        self.unit.registers()[KTAD]
    }

    pub fn ktdt(&self) -> u16 {
        self.unit.registers()[KTDT]
    }

    pub fn ktum(&self) -> u16 {
        self.unit.registers()[KTUM]
    }

    pub fn holds(&self, tag: u8) -> bool {
        self.unit.tags().contains(&tag)
    }
}

/// An answer with data 0 and no physical address.
pub fn bare(answer: u8) -> Reply {
    Reply { answer, data: 0, physical: None }
}

/// Answer 0 of an access that got through.
pub fn done(data: u16, physical: u32) -> Reply {
    Reply { answer: 0, data, physical: Some(physical) }
}

/// A fresh unit with so many cells, which are 8 or 24.
pub fn unit_with(cells: u64) -> Unit {
    Unit::with_cells(cells).expect("8 and 24 give a unit")
}

/// The bench program's output with eight cells.
pub fn bench(input: &[u8]) -> String {
    bench_of(Unit::fresh(), input)
}

/// The bench program's output with this unit.
pub fn bench_of(unit: Unit, input: &[u8]) -> String {
    let mut output = Vec::new();
    kt11b_model::bench::run(unit, input, &mut output).expect("a vector takes every byte");
    String::from_utf8(output).expect("the output is plain text")
}
