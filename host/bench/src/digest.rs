//! A running digest of replies: where two units have the same one, they gave the same replies in the same order.

use crate::units::Seen;

/// A digest of 64 bits: streams of replies that differ share one with a chance of about one in 2^64.
#[derive(Clone, Copy, PartialEq, Eq, Debug, Default)]
pub struct Digest(u64);

impl Digest {
    /// Takes the next reply in: answer, data and physical address, each in bits of its own.
    #[inline]
    pub fn take(&mut self, seen: Seen) {
        let physical = seen.physical.map_or(0, |address| 1 << 63 | u64::from(address) << 32);
        let reply = physical | u64::from(seen.data) << 8 | u64::from(seen.answer);
        // The multiplication makes a reply's place in the order count, and the turn brings its high bits down again.
        self.0 = (self.0.rotate_left(23) ^ reply).wrapping_mul(0x9e37_79b9_7f4a_7c15);
    }
}
