//! Documents 01 and 02, said again in the plainest way.
//!
//! Nothing here is clever: a codeword is tested by its three facts, bounded distance tries every flip of one and of
//! two cells, and every message costs a line decoding of its own. What the library answers is compared with this, so
//! that it should be seen to be right by reading it beside the documents.

pub mod array;
pub mod blocks;
pub mod clauses;
pub mod code;
pub mod entries;
pub mod line;
pub mod load;
pub mod text;

pub use array::Half;
pub use code::{Code, Degree};

/// A cell that is neither 0 nor 1: the receiver was not sure of it.
pub const UNSURE: u8 = 2;

/// From this many unsure cells on, a line decoding fails.
pub const TOO_MANY: usize = 6;

/// How far bounded-distance decoding reaches.
pub const RADIUS: usize = 2;

/// A filling word: two numbers, the low one first. Bit i of the low one serves cell i, bit i of the high one cell 64 + i.
pub type Filling = [u64; 2];

/// The number of unsure cells.
pub fn erasures(cells: &[u8]) -> usize {
    cells.iter().filter(|&&cell| cell == UNSURE).count()
}

#[cfg(test)]
mod tests;
