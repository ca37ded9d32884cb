//! Machine words that a line is packed in: one bit for each cell.

use std::ops::{BitAnd, BitOr, BitXor, Not, Shl, Shr};

/// Bit i is for cell i. A `u64` has room for the lines of degrees 4 and 6, a `u128` for those of degree 7: what is the same
/// for both is written once, and a short line does not pay for a long one.
pub trait Word:
    Copy
    + Eq
    + From<u64>
    + Not<Output = Self>
    + BitAnd<Output = Self>
    + BitOr<Output = Self>
    + BitXor<Output = Self>
    + Shl<usize, Output = Self>
    + Shr<usize, Output = Self>
{
    const BYTES: usize;

    fn byte(self, at: usize) -> u8;

    fn count_ones(self) -> u32;

    /// The place of the lowest bit.
    fn lowest_place(self) -> usize;

    /// The lowest bit alone.
    fn lowest(self) -> Self;

    /// In each group of twice so many bits, the lower half.
    fn lower_halves(size: usize) -> Self;

    /// A filling word from its two numbers; bits for which there are no cells go.
    fn filling(numbers: [u64; 2]) -> Self;
}

macro_rules! word {
    ($kind:ty) => {
        impl Word for $kind {
            const BYTES: usize = size_of::<$kind>();

            #[inline(always)]
            fn byte(self, at: usize) -> u8 {
                self.to_le_bytes()[at]
            }

            #[inline(always)]
            fn count_ones(self) -> u32 {
                self.count_ones()
            }

            #[inline(always)]
            fn lowest_place(self) -> usize {
                self.trailing_zeros() as usize
            }

            #[inline(always)]
            fn lowest(self) -> Self {
                self & self.wrapping_neg()
            }

            #[inline(always)]
            fn lower_halves(size: usize) -> Self {
                Self::MAX / ((1 << size) + 1)
            }

            #[inline(always)]
            fn filling([low, high]: [u64; 2]) -> Self {
                (u128::from(high) << 64 | u128::from(low)) as Self
            }
        }
    };
}

word!(u64);
word!(u128);
