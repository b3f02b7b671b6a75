//! Sorting a fetched word into the kinds of instruction the unit knows.

/// The kinds of fetched word that the rules name.
#[derive(Clone, Copy, PartialEq, Eq, Debug)]
pub enum Kind {
    Jsr,
    Rts,
    Rti,
    Trap,
    /// HALT, WAIT and RESET.
    Privileged,
    /// `BR .+2`, the entry point instruction.
    EntryPoint,
    Other,
}

impl Kind {
    #[inline]
    pub fn of(word: u16) -> Kind {
        match word {
            0o004000..=0o004777 => Kind::Jsr,
            0o000200..=0o000207 => Kind::Rts,
            0o000002 => Kind::Rti,
            0o104400..=0o104777 => Kind::Trap,
            0o000000 | 0o000001 | 0o000005 => Kind::Privileged,
            0o000400 => Kind::EntryPoint,
            _ => Kind::Other,
        }
    }
}
