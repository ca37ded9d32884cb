//! Cells to bits and back, and the transposition of a square of bits.

use super::word::Word;

/// The lowest bit of each of eight bytes.
const LOW: u64 = 0x0101_0101_0101_0101;

/// Multiplied with eight bits, one in the lowest place of each byte, it gathers them in the highest byte.
const GATHER: u64 = 0x0102_0408_1020_4080;

/// The words of the cells that are 1 and that are 2; cells are 0, 1 or 2, and come in eights.
pub fn pack<W: Word>(cells: &[u8]) -> (W, W) {
    let (mut ones, mut erased) = (W::from(0), W::from(0));
    for (at, eight) in cells.as_chunks::<8>().0.iter().enumerate() {
        let eight = u64::from_le_bytes(*eight);
        ones = ones | W::from(gathered(eight)) << (8 * at);
        erased = erased | W::from(gathered(eight >> 1)) << (8 * at);
    }
    (ones, erased)
}

/// The lowest bit of each byte.
fn gathered(eight: u64) -> u64 {
    (eight & LOW).wrapping_mul(GATHER) >> 56
}

/// The cells of two such words.
pub fn unpack<W: Word>(ones: W, erased: W, cells: &mut [u8]) {
    for (at, eight) in cells.as_chunks_mut::<8>().0.iter_mut().enumerate() {
        let (ones, erased) = (spread(ones.byte(at)), spread(erased.byte(at)));
        *eight = (ones | erased << 1).to_le_bytes();
    }
}

/// Bit i of the byte, alone in byte i.
fn spread(byte: u8) -> u64 {
    // Bit i is kept in copy i of the byte. Adding 127 to seven bits carries into the eighth exactly if they are not all
    // zero, so that the highest bit of each byte then says whether its bit was kept.
    let kept = u64::from(byte).wrapping_mul(LOW) & 0x8040_2010_0804_0201;
    let not_zero = ((kept & !(LOW << 7)) + LOW * 0x7F) | kept;
    not_zero >> 7 & LOW
}

/// Bit j of word i becomes bit i of word j, for i and j below n, which is 16, 64 or 128, and no more than a word has bits.
pub fn transpose<W: Word, const MOST: usize>(square: &mut [W; MOST], n: usize) {
    // Each step with its own numbers, so that all of them are known when it is compiled.
    if n > 64 {
        exchange::<W, 64>(square);
    }
    if n > 16 {
        exchange::<W, 32>(square);
        exchange::<W, 16>(square);
    }
    let square = &mut square[..n];
    exchange::<W, 8>(square);
    exchange::<W, 4>(square);
    exchange::<W, 2>(square);
    exchange::<W, 1>(square);
}

/// In each block of twice the size along the diagonal, the two quarters off it change places.
#[inline(always)]
fn exchange<W: Word, const SIZE: usize>(square: &mut [W]) {
    let mask = W::lower_halves(SIZE);
    for block in square.chunks_exact_mut(2 * SIZE) {
        let (upper, lower) = block.split_at_mut(SIZE);
        for (upper, lower) in upper.iter_mut().zip(lower) {
            let moved = (*upper >> SIZE ^ *lower) & mask;
            *upper = *upper ^ moved << SIZE;
            *lower = *lower ^ moved;
        }
    }
}

#[cfg(test)]
mod tests {
    use super::*;
    use crate::random::Random;

    fn unpacking_gives_back_what_was_packed<W: Word>(n: usize) {
        let mut random = Random::new(1);
        for _ in 0..500 {
            let cells: Vec<u8> = (0..n).map(|_| random.below(3) as u8).collect();
            let (ones, erased) = pack::<W>(&cells);
            for (cell, &value) in cells.iter().enumerate() {
                assert_eq!(is_set(ones, cell), value == 1);
                assert_eq!(is_set(erased, cell), value == 2);
            }
            let mut back = vec![9; n];
            unpack(ones, erased, &mut back);
            assert_eq!(back, cells);
        }
    }

    fn is_set<W: Word>(word: W, cell: usize) -> bool {
        word >> cell & W::from(1) == W::from(1)
    }

    #[test]
    fn unpacking_gives_back_what_was_packed_in_64_and_in_128_bits() {
        unpacking_gives_back_what_was_packed::<u64>(16);
        unpacking_gives_back_what_was_packed::<u64>(64);
        unpacking_gives_back_what_was_packed::<u128>(128);
    }

    #[test]
    fn every_byte_is_spread() {
        for byte in 0..=255u8 {
            let bytes = spread(byte).to_le_bytes();
            assert!((0..8).all(|bit| bytes[bit] == byte >> bit & 1));
        }
    }

    fn transposing_changes_the_places_of_row_and_column<W: Word, const MOST: usize>(n: usize) {
        let mut random = Random::new(2);
        let mut square = [W::from(0); MOST];
        square[..n].fill_with(|| W::filling([random.word(), random.word()]));
        let before = square;
        transpose(&mut square, n);
        for (i, &word) in before.iter().enumerate().take(n) {
            for (j, &turned) in square.iter().enumerate().take(n) {
                assert_eq!(is_set(word, j), is_set(turned, i));
            }
        }
    }

    #[test]
    fn squares_of_16_64_and_128_are_transposed() {
        transposing_changes_the_places_of_row_and_column::<u64, 64>(16);
        transposing_changes_the_places_of_row_and_column::<u64, 64>(64);
        transposing_changes_the_places_of_row_and_column::<u128, 128>(128);
    }
}
