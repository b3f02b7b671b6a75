//! An access by the numbers of its parts.

/// An access whose operation, state and width are numbers, for a host that has them as numbers already.
///
/// Every number can be given; one outside its list is refused by [`Answer::Misshapen`](crate::Answer::Misshapen).
///
/// ```
/// use kt11b::{Answer, NumberedAccess, Unit};
///
/// let mut memory = vec![0u8; 65_536];
/// let mut unit = Unit::fresh();
/// let store = NumberedAccess { operation: 2, state: 3, width: 0, address: 0o001010, data: 0o041 };
/// assert_eq!(unit.access_numbered(&mut memory, store).answer(), Answer::Done);
/// let unlisted = NumberedAccess { operation: 4, ..store };
/// assert_eq!(unit.access_numbered(&mut memory, unlisted).answer(), Answer::Misshapen);
/// ```
#[derive(Clone, Copy, PartialEq, Eq, Hash, Debug)]
pub struct NumberedAccess {
    /// 0 to 3, as [`Operation`](crate::Operation) numbers them.
    pub operation: u64,
    /// 0 to 4, as [`State`](crate::State) numbers them.
    pub state: u64,
    /// 0 or 1, as [`Width`](crate::Width) numbers them.
    pub width: u64,
    /// The 16-bit virtual address.
    pub address: u16,
    /// The data of a store; a read takes no notice of it.
    pub data: u16,
}
