//! A decoder for speed, to time beside the library.
//!
//! Lines are packed, a bit for each cell; the check sums of a word come from a table by bytes, the wrong places from a
//! table by check sums; the clauses are worked for all cells of a line at once, and only the cells that they leave open
//! are looked at one by one. It shares nothing with [`crate::plain`] but the numbers of a degree.
//!
//! It comes in two forms. One makes every decoding that document 01 counts, each from its whole word, as the library
//! does: with it the library is to be compared. The other passes over the decodings whose outcome is known, and so says
//! what a decoder could save whose count need not stand for decodings made.
//!
//! [`load`] has the damage of W-204 for speed as well.

mod bits;
pub mod load;
mod messages;
mod tables;
mod word;

use crate::plain::Degree;
use crate::plain::array::Report;
use bits::{pack, transpose, unpack};
use messages::messages;
use tables::Tables;
use word::Word;

/// A line of cells: where it holds 1, and where it is unsure. No bit is in both.
#[derive(Clone, Copy, Debug, PartialEq, Eq)]
struct Line<W> {
    ones: W,
    erased: W,
}

/// The lines of an array, in one direction, as two squares of bits.
#[derive(Clone)]
struct Square<W, const MOST: usize> {
    ones: [W; MOST],
    erased: [W; MOST],
}

impl<W: Word, const MOST: usize> Square<W, MOST> {
    fn packed(cells: &[u8], n: usize) -> Square<W, MOST> {
        let mut square = Square {
            ones: [W::from(0); MOST],
            erased: [W::from(0); MOST],
        };
        for (index, row) in cells.chunks_exact(n).enumerate() {
            (square.ones[index], square.erased[index]) = pack(row);
        }
        square
    }

    fn line(&self, index: usize) -> Line<W> {
        Line {
            ones: self.ones[index],
            erased: self.erased[index],
        }
    }

    /// Rows become columns and columns rows. Without unsure cells there is only one square to turn.
    fn turn(&mut self, n: usize, any_erased: bool) {
        transpose(&mut self.ones, n);
        if any_erased {
            transpose(&mut self.erased, n);
        }
    }
}

/// Which decodings are made.
#[derive(Clone, Copy, Debug, PartialEq, Eq)]
pub enum Effort {
    /// Every decoding that is counted, from its whole word.
    Counted,
    /// Only those whose outcome is not known.
    Needed,
}

/// A decoder for the arrays of one degree.
pub struct Decoder {
    degree: Degree,
    tables: Tables,
}

impl Decoder {
    pub fn new(degree: Degree) -> Decoder {
        Decoder {
            degree,
            tables: Tables::new(degree),
        }
    }

    /// Decodes a received array of n by n cells into `cells`. The lengths and the cells must be good: tests of the input
    /// are the business of the library, not of its measuring stick.
    pub fn decode(
        &self,
        effort: Effort,
        iterations: u64,
        received: &[u8],
        filling: &[u64],
        cells: &mut [u8],
    ) -> Report {
        // By words of 64 bits where a line has room in them, else by words of 128.
        let by = match (self.degree.n() > 64, effort) {
            (false, Effort::Counted) => Decoder::decode_by::<u64, 64, true>,
            (false, Effort::Needed) => Decoder::decode_by::<u64, 64, false>,
            (true, Effort::Counted) => Decoder::decode_by::<u128, 128, true>,
            (true, Effort::Needed) => Decoder::decode_by::<u128, 128, false>,
        };
        by(self, iterations, received, filling, cells)
    }

    fn decode_by<W: Word, const MOST: usize, const COUNTED: bool>(
        &self,
        iterations: u64,
        received: &[u8],
        filling: &[u64],
        cells: &mut [u8],
    ) -> Report {
        let n = self.degree.n();
        assert_eq!(received.len(), n * n);
        assert_eq!(filling.len(), 2 * self.degree.lines(iterations));
        let rows = Square::<W, MOST>::packed(received, n);
        let mut columns = rows.clone();
        columns.turn(n, true);
        let mut state = rows.clone();
        let mut count = 0;
        for (half, words) in filling.as_chunks().0.chunks_exact(n).enumerate() {
            let channel = if half % 2 == 0 { &rows } else { &columns };
            let mut erased = W::from(0);
            for (index, &word) in words.iter().enumerate() {
                let (line, channel) = (state.line(index), channel.line(index));
                let word = W::filling(word);
                let (line, made) = messages::<W, COUNTED>(&self.tables, line, channel, word);
                state.ones[index] = line.ones;
                state.erased[index] = line.erased;
                erased = erased | line.erased;
                count += made;
            }
            state.turn(n, erased != W::from(0));
        }
        self.report(&state, count, cells)
    }

    /// Writes the rows that are left, and says what they are.
    fn report<W: Word, const MOST: usize>(
        &self,
        rows: &Square<W, MOST>,
        count: u64,
        cells: &mut [u8],
    ) -> Report {
        let n = self.degree.n();
        let mut erasures = 0;
        for (index, row) in cells.chunks_exact_mut(n).enumerate() {
            let line = rows.line(index);
            erasures += u64::from(line.erased.count_ones());
            unpack(line.ones, line.erased, row);
        }
        let closed = erasures == 0 && self.tables.is_closed(&rows.ones[..n]);
        Report {
            count,
            erasures,
            closed,
        }
    }
}

#[cfg(test)]
mod tests;
