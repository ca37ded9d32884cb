//! Check sums of packed words, and the wrong places that belong to them.

use super::word::Word;
use crate::plain::Degree;

/// Check sums side by side: as many bits as the degree says for each of the two sums in the field, and one for the parity.
type CheckSums = u16;

/// At degree 7 they have 15 bits.
const MOST_BITS: usize = 15;

/// All check sums.
const PLACES: usize = 1 << MOST_BITS;

/// The most cells of a line.
const MOST_CELLS: usize = 128;

/// What bounded-distance decoding of a word does: two places of seven bits, and a bit for each that says whether it is to be
/// flipped. A second flip without a first says that nothing within reach fits.
#[derive(Clone, Copy, PartialEq, Eq)]
pub struct Mend(u16);

impl Mend {
    const FIRST: u16 = 1 << 14;
    const SECOND: u16 = 1 << 15;
    const FAILED: Mend = Mend(Mend::SECOND);

    fn none() -> Mend {
        Mend(0)
    }

    fn one(cell: usize) -> Mend {
        Mend(cell as u16 | Mend::FIRST)
    }

    fn two(first: usize, second: usize) -> Mend {
        Mend((first | second << 7) as u16 | Mend::FIRST | Mend::SECOND)
    }

    pub fn failed(self) -> bool {
        self == Mend::FAILED
    }

    /// Does it flip two cells? To be asked where it did not fail.
    pub fn is_far(self) -> bool {
        self.0 & Mend::SECOND != 0
    }

    /// The cells to flip, where it did not fail.
    #[inline(always)]
    pub fn flips<W: Word>(self) -> W {
        let entry = u64::from(self.0);
        let flip = |asked: u64, place: u64| W::from(asked & 1) << (place & 127) as usize;
        flip(entry >> 14, entry) | flip(entry >> 15, entry >> 7)
    }
}

pub struct Tables {
    by_byte: [[CheckSums; 256]; MOST_CELLS / 8],
    by_cell: [CheckSums; MOST_CELLS],
    mends: Box<[Mend; PLACES]>,
}

impl Tables {
    pub fn new(degree: Degree) -> Tables {
        let by_cell = sums_of_cells(degree);
        let mut by_byte = [[0; 256]; MOST_CELLS / 8];
        for (at, table) in by_byte.iter_mut().enumerate() {
            for (byte, sums) in table.iter_mut().enumerate() {
                let ones = (0..8).filter(|bit| byte >> bit & 1 == 1);
                *sums = ones.fold(0, |sums, bit| sums ^ by_cell[8 * at + bit]);
            }
        }
        Tables {
            by_byte,
            by_cell,
            mends: mends(&by_cell[..degree.n()]),
        }
    }

    /// The check sums of a word.
    #[inline(always)]
    pub fn sums<W: Word>(&self, word: W) -> CheckSums {
        (0..W::BYTES).fold(0, |sums, at| {
            sums ^ self.by_byte[at][usize::from(word.byte(at))]
        })
    }

    /// What a 1 in this cell adds to the check sums.
    #[inline(always)]
    pub fn sums_of_cell(&self, cell: usize) -> CheckSums {
        self.by_cell[cell % MOST_CELLS]
    }

    /// Bounded-distance decoding of a word with these check sums.
    #[inline(always)]
    pub fn mend(&self, sums: CheckSums) -> Mend {
        self.mends[usize::from(sums) % PLACES]
    }

    /// Is each of these rows and each column a codeword?
    pub fn is_closed<W: Word>(&self, rows: &[W]) -> bool {
        rows.iter().all(|&row| self.sums(row) == 0) && self.has_codeword_columns(rows)
    }

    /// Is every column of these rows a codeword? Row i adds to the sums of all columns in which it holds 1, so each bit
    /// of the sums is gathered for all columns at once.
    fn has_codeword_columns<W: Word>(&self, rows: &[W]) -> bool {
        let none = W::from(0);
        let mut by_bit = [none; MOST_BITS];
        for (&row, &sums) in rows.iter().zip(&self.by_cell) {
            for (bit, columns) in by_bit.iter_mut().enumerate() {
                let adds = sums >> bit & 1 == 1;
                *columns = *columns ^ if adds { row } else { none };
            }
        }
        by_bit.iter().all(|&columns| columns == none)
    }
}

/// What a 1 in each cell adds. Cells past the end of a line hold no 1.
fn sums_of_cells(degree: Degree) -> [CheckSums; MOST_CELLS] {
    let (order, bits) = (degree.n() - 1, degree.number());
    let odd = 1 << (2 * bits);
    let mut sums = [0; MOST_CELLS];
    for (cell, sum) in sums.iter_mut().enumerate().take(order) {
        *sum = degree.power(cell) | degree.power(3 * cell % order) << bits | odd;
    }
    sums[order] = odd;
    sums
}

fn mends(by_cell: &[CheckSums]) -> Box<[Mend; PLACES]> {
    let mut mends = Box::new([Mend::FAILED; PLACES]);
    mends[0] = Mend::none();
    for (first, sums) in by_cell.iter().enumerate() {
        mends[usize::from(*sums)] = Mend::one(first);
        for (second, others) in by_cell.iter().enumerate().skip(first + 1) {
            mends[usize::from(sums ^ others)] = Mend::two(first, second);
        }
    }
    mends
}
