//! "The code": the field, the check sums, codewords, and the encoding of a line.

use std::ops::Range;
use std::sync::LazyLock;

/// The degree v of the field; a line has 2^v cells.
#[derive(Clone, Copy, Debug, PartialEq, Eq)]
pub enum Degree {
    Four,
    Six,
    Seven,
}

impl Degree {
    pub const ALL: [Degree; 3] = [Degree::Four, Degree::Six, Degree::Seven];

    /// Where it stands among all.
    pub fn place(self) -> usize {
        self as usize
    }

    /// The degree that a caller's number names, if it is one.
    pub fn named(number: u64) -> Option<Degree> {
        Degree::ALL
            .into_iter()
            .find(|degree| degree.number() == number)
    }

    pub fn number(self) -> u64 {
        match self {
            Degree::Four => 4,
            Degree::Six => 6,
            Degree::Seven => 7,
        }
    }

    /// v.
    fn v(self) -> usize {
        self.number() as usize
    }

    /// n, the cells of a line and the lines of an array.
    pub fn n(self) -> usize {
        1 << self.v()
    }

    /// k, the message cells of a line.
    pub fn k(self) -> usize {
        self.message_cells().len()
    }

    /// "Message cells of a line are 2v to n - 2."
    pub fn message_cells(self) -> Range<usize> {
        2 * self.v()..self.n() - 1
    }

    /// Lines that a decoding goes through, those of 2 × L halves. Each has a filling word of two numbers.
    pub fn lines(self, iterations: u64) -> usize {
        2 * iterations as usize * self.n()
    }

    /// α^4 + α + 1, α^6 + α + 1 or α^7 + α^3 + 1; bit i is the coefficient of α^i.
    fn polynomial(self) -> u16 {
        match self {
            Degree::Four => 0b1_0011,
            Degree::Six => 0b100_0011,
            Degree::Seven => 0b1000_1001,
        }
    }

    /// α^exponent, by doubling.
    pub fn power(self, exponent: usize) -> u16 {
        let mut element = 1;
        for _ in 0..exponent {
            element <<= 1;
            if element >> self.v() & 1 == 1 {
                element ^= self.polynomial();
            }
        }
        element
    }
}

/// The three check sums of a word side by side in one number: from the lowest bit up, v bits for the sum of α^i, v bits
/// for the sum of α^(3i) and one bit that says whether the number of ones is odd. Sums in the field are exclusive ors,
/// and so the sums of two words together are the exclusive or of theirs.
pub type CheckSums = u16;

/// The code of a degree, with what a 1 in each cell adds to the check sums.
pub struct Code {
    pub degree: Degree,
    cell_sums: Vec<CheckSums>,
    /// For each pair of sums of α^i and α^(3i), the cells 0 to 2v - 1 that have it, cell 0 in the lowest bit.
    check_cells: Vec<u16>,
}

impl Code {
    fn new(degree: Degree) -> Code {
        let cell_sums = (0..degree.n())
            .map(|cell| cell_sums(degree, cell))
            .collect();
        let mut code = Code {
            degree,
            cell_sums,
            check_cells: Vec::new(),
        };
        code.check_cells = code.all_check_cells();
        code
    }

    /// The code of a degree; all are made once.
    pub fn of(degree: Degree) -> &'static Code {
        static CODES: LazyLock<[Code; Degree::ALL.len()]> =
            LazyLock::new(|| Degree::ALL.map(Code::new));
        &CODES[degree.place()]
    }

    pub fn n(&self) -> usize {
        self.degree.n()
    }

    /// The check sums of a word of zeros and ones.
    pub fn check_sums(&self, word: &[u8]) -> CheckSums {
        let ones = word.iter().zip(&self.cell_sums);
        ones.filter(|&(&cell, _)| cell == 1)
            .fold(0, |sums, (_, &of_cell)| sums ^ of_cell)
    }

    /// "It is a codeword when three facts hold": the word has n cells of 0 and 1, and all three sums are zero.
    pub fn is_codeword(&self, word: &[u8]) -> bool {
        word.len() == self.n() && word.iter().all(|&cell| cell <= 1) && self.check_sums(word) == 0
    }

    /// The codeword within 2 of a full word, by trying: no flip, each flip of one cell, each of two.
    pub fn bounded_distance(&self, word: &[u8]) -> Option<Vec<u8>> {
        let sums = self.check_sums(word);
        if sums == 0 {
            return Some(word.to_vec());
        }
        if let Some(cell) = self.cell_with(sums, 0) {
            return Some(flipped(word, &[cell]));
        }
        for first in 0..self.n() {
            if let Some(second) = self.cell_with(sums ^ self.cell_sums[first], first + 1) {
                return Some(flipped(word, &[first, second]));
            }
        }
        None
    }

    /// The cell at `from` or after it whose flip turns these sums to zero.
    fn cell_with(&self, sums: CheckSums, from: usize) -> Option<usize> {
        let candidates = &self.cell_sums[from..];
        // `contains` looks at many cells at a time; most searches end here without a find.
        if !candidates.contains(&sums) {
            return None;
        }
        candidates
            .iter()
            .position(|&of_cell| of_cell == sums)
            .map(|at| from + at)
    }

    /// The only codeword with these message cells. The other cells of `line` are overwritten.
    pub fn encode_line(&self, line: &mut [u8]) {
        let message = self.degree.message_cells();
        let check = message.start;
        let parity = message.end;
        line[..check].fill(0);
        line[parity] = 0;
        let field_sums = usize::from(self.check_sums(line)) & ((1 << check) - 1);
        let pattern = self.check_cells[field_sums];
        for (cell, value) in line[..check].iter_mut().enumerate() {
            *value = (pattern >> cell & 1) as u8;
        }
        let ones: u32 = line.iter().map(|&cell| u32::from(cell)).sum();
        line[parity] = (ones % 2) as u8;
    }

    /// Goes through all patterns of the 2v check cells; no two may have the same sums, else a message would have two
    /// codewords or none.
    fn all_check_cells(&self) -> Vec<u16> {
        let check = self.degree.message_cells().start;
        let mut patterns = vec![None; 1 << check];
        for pattern in 0..1u16 << check {
            let word: Vec<u8> = (0..check).map(|cell| (pattern >> cell & 1) as u8).collect();
            let field_sums = usize::from(self.check_sums(&word)) & ((1 << check) - 1);
            assert!(
                patterns[field_sums].replace(pattern).is_none(),
                "two patterns of check cells have the same sums"
            );
        }
        patterns.into_iter().flatten().collect()
    }
}

/// What a 1 in one cell adds: α^i and α^(3i) below cell n - 1, and a one to the number of ones.
fn cell_sums(degree: Degree, cell: usize) -> CheckSums {
    let v = degree.v();
    let odd = 1 << (2 * v);
    if cell == degree.n() - 1 {
        odd
    } else {
        degree.power(cell) | degree.power(3 * cell) << v | odd
    }
}

fn flipped(word: &[u8], cells: &[usize]) -> Vec<u8> {
    let mut word = word.to_vec();
    for &cell in cells {
        word[cell] = 1 - word[cell];
    }
    word
}
