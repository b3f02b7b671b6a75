//! What a call gives back.

use crate::numbers::Answer;
use core::fmt;

/// The reply of a call: the answer, the data, and the physical address if there is one.
///
/// It is the library's one number, taken apart only where it is asked.
#[derive(Clone, Copy, PartialEq, Eq, Hash)]
pub struct Reply(u64);

impl Reply {
    pub(crate) fn from_number(number: u64) -> Reply {
        Reply(number)
    }

    /// The whole reply as the library gives it: data in bits 0 to 15, the physical address in 16 to 33, bit 34 set if there
    /// is one, the answer in 40 to 47.
    #[inline]
    pub fn number(self) -> u64 {
        self.0
    }

    /// The answer's number.
    #[inline]
    pub fn answer_number(self) -> u8 {
        (self.0 >> 40) as u8
    }

    /// The answer.
    #[inline]
    pub fn answer(self) -> Answer {
        Answer::of(self.answer_number())
    }

    /// Whether the call was done: answer 0.
    #[inline]
    pub fn is_done(self) -> bool {
        self.answer_number() == 0
    }

    /// The word read; 0 for a store and for every refusal but an instruction violation, which gives the fetched word.
    #[inline]
    pub fn data(self) -> u16 {
        self.0 as u16
    }

    /// The 18-bit physical address. Only an access that is done, or that ends in an instruction violation, has one, and a
    /// sequence access has none.
    #[inline]
    pub fn physical(self) -> Option<u32> {
        (self.0 >> 34 & 1 == 1).then_some((self.0 >> 16 & 0o777777) as u32)
    }
}

impl fmt::Debug for Reply {
    fn fmt(&self, to: &mut fmt::Formatter<'_>) -> fmt::Result {
        write!(to, "Reply({:?}, data {:06o}, ", self.answer(), self.data())?;
        match self.physical() {
            Some(physical) => write!(to, "physical {physical:06o})"),
            None => write!(to, "no physical address)"),
        }
    }
}
