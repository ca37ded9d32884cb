//! "The array": encoding, taking the message out, the plain decoding, closed.

use super::line::known_differences;
use super::{Code, TOO_MANY, erasures};

/// What a decoding of an array answers with.
#[derive(Clone, Copy, Debug, Default, PartialEq, Eq)]
pub struct Report {
    /// The sum of the counts of all lines.
    pub count: u64,
    /// The cells still unsure.
    pub erasures: u64,
    /// No cell is unsure and each row and each column is a codeword.
    pub closed: bool,
}

/// Line `index` of an array of n by n cells: row `index`, or column `index`.
fn line_of(cells: &[u8], n: usize, half: Half, index: usize) -> Vec<u8> {
    (0..n).map(|k| cells[half.place(n, index, k)]).collect()
}

/// The two kinds of halves, and of lines.
#[derive(Clone, Copy, Debug)]
pub enum Half {
    Rows,
    Columns,
}

impl Half {
    /// Where cell k of a line lies in the flat array.
    fn place(self, n: usize, line: usize, k: usize) -> usize {
        match self {
            Half::Rows => n * line + k,
            Half::Columns => n * k + line,
        }
    }
}

impl Code {
    /// The array of a message of k by k cells: message rows first, then all columns.
    pub fn encode(&self, message: &[u8]) -> Vec<u8> {
        let (n, k) = (self.n(), self.degree.k());
        let place = self.degree.message_cells();
        let mut cells = vec![0; n * n];
        for (row, of_row) in place.clone().zip(message.chunks(k)) {
            let line = &mut cells[n * row..n * (row + 1)];
            line[place.clone()].copy_from_slice(of_row);
            self.encode_line(line);
        }
        for index in 0..n {
            let mut column = line_of(&cells, n, Half::Columns, index);
            self.encode_line(&mut column);
            for (row, cell) in column.into_iter().enumerate() {
                cells[n * row + index] = cell;
            }
        }
        cells
    }

    /// The message cells of an array as they are, unsure ones too.
    pub fn extract(&self, cells: &[u8]) -> Vec<u8> {
        let n = self.n();
        let place = self.degree.message_cells();
        place
            .clone()
            .flat_map(|row| &cells[n * row..][place.clone()])
            .copied()
            .collect()
    }

    /// The plain decoding: what is left in the cells, and the report on it. Each line takes the next two numbers of the
    /// filling.
    pub fn decode(&self, iterations: u64, received: &[u8], filling: &[u64]) -> (Vec<u8>, Report) {
        let n = self.n();
        let mut cells = received.to_vec();
        let mut count = 0;
        let mut words = filling.as_chunks().0.iter();
        for _ in 0..iterations {
            for half in [Half::Rows, Half::Columns] {
                let mut after = cells.clone();
                for (index, &word) in words.by_ref().take(n).enumerate() {
                    let incoming = line_of(&cells, n, half, index);
                    let channel = line_of(received, n, half, index);
                    count += self.line_count(&incoming, &channel, word);
                    let messages = self.messages(&incoming, &channel, word);
                    for (k, message) in messages.into_iter().enumerate() {
                        after[half.place(n, index, k)] = message;
                    }
                }
                cells = after;
            }
        }
        let report = Report {
            count,
            erasures: erasures(&cells) as u64,
            closed: self.is_closed(&cells),
        };
        (cells, report)
    }

    /// "No cell is unsure and each row and each column is a codeword."
    pub fn is_closed(&self, cells: &[u8]) -> bool {
        erasures(cells) == 0
            && self.has_codewords(cells, Half::Rows)
            && self.has_codewords(cells, Half::Columns)
    }

    /// Is each row, or each column, a codeword?
    pub fn has_codewords(&self, cells: &[u8], half: Half) -> bool {
        let n = self.n();
        (0..n).all(|index| self.is_codeword(&line_of(cells, n, half, index)))
    }

    /// The condition of demand 3: in each row, twice the wrong known cells plus the unsure ones is below 6.
    pub fn meets_row_condition(&self, sent: &[u8], received: &[u8]) -> bool {
        let n = self.n();
        received
            .chunks(n)
            .zip(sent.chunks(n))
            .all(|(row, sent)| 2 * known_differences(row, sent) + erasures(row) < TOO_MANY)
    }
}
