//! The units that are timed, each behind the same few functions.

use crate::digest::Digest;
use crate::stream::{Access, KTUM};
use kt11b::NumberedAccess;
use std::hint::black_box;

/// What is compared of a reply: all of it.
#[derive(Clone, Copy, PartialEq, Eq, Debug)]
pub struct Seen {
    pub answer: u8,
    pub data: u16,
    pub physical: Option<u32>,
}

pub trait Paging {
    fn access(&mut self, memory: &mut [u8], access: Access) -> Seen;

    /// Starts the user: KTUM, FCN 3, and the two START reads.
    fn start(&mut self, memory: &mut [u8]) {
        let store = |address, data| Access { operation: 2, state: 3, width: 0, address, data };
        let read = Access { operation: 0, state: 3, width: 0, address: 0, data: 0 };
        for access in [store(0o177614, KTUM), store(0o177576, 3), read, read] {
            self.access(memory, access);
        }
    }
}

/// (a) and (d) The static library, called as C would call it.
pub struct Library(kt11b::Unit);

impl Library {
    /// A fresh unit with 8 or 24 cells.
    pub fn with_cells(cells: u64) -> Library {
        Library(kt11b::Unit::with_cells(cells).expect("8 and 24 give a unit"))
    }
}

impl Paging for Library {
    #[inline]
    fn access(&mut self, memory: &mut [u8], access: Access) -> Seen {
        let Access { operation, state, width, address, data } = access;
        let [operation, state, width] = [operation, state, width].map(u64::from);
        let access = NumberedAccess { operation, state, width, address, data };
        let reply = self.0.access_numbered(memory, access);
        Seen { answer: reply.answer_number(), data: reply.data(), physical: reply.physical() }
    }
}

/// (b), (c) and (e) The plain model, with its cells or without.
pub struct Model(pub kt11b_model::Unit);

impl Model {
    /// A fresh unit with 8 or 24 cells.
    pub fn with_cells(cells: u64) -> Model {
        Model(kt11b_model::Unit::with_cells(cells).expect("8 and 24 give a unit"))
    }

    /// A fresh unit that walks each time. No access of the stream comes to a scratchpad word, by which number of cells would show.
    pub fn without_cells() -> Model {
        Model(kt11b_model::Unit::fresh().without_cells())
    }
}

impl Paging for Model {
    #[inline]
    fn access(&mut self, memory: &mut [u8], access: Access) -> Seen {
        let Access { operation, state, width, address, data } = access;
        let [operation, state, width] = [operation, state, width].map(u64::from);
        let reply = self.0.access(memory, operation, state, width, address, data);
        Seen { answer: reply.answer, data: reply.data, physical: reply.physical }
    }
}

/// Nothing: what the loop around an access costs. Its reply is made of the access's own parts, so that the digest has to be
/// worked out here too.
pub struct Nothing;

impl Paging for Nothing {
    #[inline]
    fn access(&mut self, _memory: &mut [u8], access: Access) -> Seen {
        let Access { state, width, address, data, .. } = black_box(access);
        Seen { answer: state, data, physical: (width == 0).then_some(u32::from(address)) }
    }
}

/// How many answers were other than 0, and the digest of all replies.
#[derive(Clone, Copy, PartialEq, Eq, Debug, Default)]
pub struct Total {
    pub refused: u64,
    pub replies: Digest,
}

/// Gives the unit so many accesses of the stream, from its beginning; the total before them becomes the total with them.
pub fn run(
    unit: &mut impl Paging,
    memory: &mut [u8],
    stream: &[Access],
    accesses: usize,
    mut total: Total,
) -> Total {
    let mut left = accesses;
    while left > 0 {
        let now = left.min(stream.len());
        for &access in &stream[..now] {
            let seen = unit.access(memory, access);
            total.refused += u64::from(seen.answer != 0);
            total.replies.take(seen);
        }
        left -= now;
    }
    total
}
