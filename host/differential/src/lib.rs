//! The proved unit's static library beside the plain model: the same calls to both, and everything that can be seen compared.

mod pair;
mod random;
mod steering;
pub mod words;

pub use pair::{Counts, Pair, BUFFER};
pub use random::Random;
pub use steering::{Lengths, Steering};
