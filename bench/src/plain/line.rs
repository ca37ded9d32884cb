//! "One line": the two filled words, line decoding, and the message of a cell.

use super::{Code, Filling, TOO_MANY, UNSURE, erasures};

/// Word one has the filling bit in each unsure cell, word two its opposite.
pub fn filled_words(line: &[u8], filling: Filling) -> [Vec<u8>; 2] {
    [filling, filling.map(|number| !number)].map(|bits| {
        let fill = |(cell, &value): (usize, &u8)| match value {
            UNSURE => (bits[cell / 64] >> (cell % 64) & 1) as u8,
            known => known,
        };
        line.iter().enumerate().map(fill).collect()
    })
}

/// In how many of the line's known cells the word differs from it.
pub fn known_differences(line: &[u8], word: &[u8]) -> usize {
    let differs = |&(&cell, &other): &(&u8, &u8)| cell != UNSURE && cell != other;
    line.iter().zip(word).filter(differs).count()
}

/// The line with one cell replaced.
pub fn replaced(line: &[u8], at: usize, cell: u8) -> Vec<u8> {
    let mut line = line.to_vec();
    line[at] = cell;
    line
}

impl Code {
    /// Algorithm 1 of source document 000 with 6 for its designed distance; nothing if it fails.
    pub fn decode_line(&self, line: &[u8], filling: Filling) -> Option<Vec<u8>> {
        if erasures(line) >= TOO_MANY {
            return None;
        }
        let [one, two] = filled_words(line, filling).map(|word| self.bounded_distance(&word));
        match (one, two) {
            (Some(one), Some(two)) => {
                let two_is_nearer = known_differences(line, &two) < known_differences(line, &one);
                Some(if two_is_nearer { two } else { one })
            }
            (one, two) => one.or(two),
        }
    }

    /// "The message at cell k is cell k of the line decoding of the incoming line with cell k replaced by the
    /// channel's cell." A line that fails is given back as it came.
    pub fn message(&self, incoming: &[u8], channel: &[u8], filling: Filling, k: usize) -> u8 {
        let line = replaced(incoming, k, channel[k]);
        match self.decode_line(&line, filling) {
            Some(codeword) => codeword[k],
            None => line[k],
        }
    }

    /// The messages of all cells of a line, one decoding per cell.
    pub fn messages(&self, incoming: &[u8], channel: &[u8], filling: Filling) -> Vec<u8> {
        (0..self.n())
            .map(|k| self.message(incoming, channel, filling, k))
            .collect()
    }
}
