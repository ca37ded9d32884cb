//! "Outgoing messages": the clauses, which here serve the count alone.

use super::line::{filled_words, replaced};
use super::{Code, Filling, RADIUS, TOO_MANY, UNSURE, erasures};

/// The clause that settles a cell, in document 01's order.
#[derive(Clone, Copy, Debug, PartialEq, Eq)]
pub enum Clause {
    /// Equal cells at k.
    Equal,
    /// The replaced line has 6 unsure cells.
    Crowded,
    /// Both fillings in reach.
    Both,
    /// None in reach, channel cell known.
    Neither,
    /// One in reach, and its codeword agrees at k with the other replaced filling.
    Agreeing,
    /// One in reach, the other filling unchanged by the replacement.
    Unchanged,
    /// All others with fewer than 6 unsure cells coming in: one further decoding.
    Open,
    /// Exactly 6 came in unsure, this cell among them, and the channel's is known: two decodings.
    Afresh,
    /// 6 or more came in unsure, all other cells.
    Channel,
}

impl Code {
    /// The clause of every cell of a line.
    pub fn clauses(&self, incoming: &[u8], channel: &[u8], filling: Filling) -> Vec<Clause> {
        let unsure = erasures(incoming);
        if unsure >= TOO_MANY {
            let clause = |k: usize| {
                if unsure == TOO_MANY && incoming[k] == UNSURE && channel[k] != UNSURE {
                    Clause::Afresh
                } else {
                    Clause::Channel
                }
            };
            return (0..self.n()).map(clause).collect();
        }
        let words = filled_words(incoming, filling);
        let codewords = [0, 1].map(|side| self.bounded_distance(&words[side]));
        let clause = |k: usize| {
            let line = replaced(incoming, k, channel[k]);
            let line_words = filled_words(&line, filling);
            if incoming[k] == channel[k] {
                return Clause::Equal;
            }
            if erasures(&line) == TOO_MANY {
                return Clause::Crowded;
            }
            // The codeword of each filling that is in reach.
            let reached = [0, 1].map(|side| {
                let codeword = codewords[side].as_ref()?;
                (differences(codeword, &line_words[side]) <= RADIUS).then_some(codeword)
            });
            let (codeword, other) = match reached {
                [Some(_), Some(_)] => return Clause::Both,
                [None, None] if channel[k] != UNSURE => return Clause::Neither,
                [None, None] => return Clause::Open,
                [Some(codeword), None] => (codeword, 1),
                [None, Some(codeword)] => (codeword, 0),
            };
            if codeword[k] == line_words[other][k] {
                Clause::Agreeing
            } else if line_words[other] == words[other] {
                Clause::Unchanged
            } else {
                Clause::Open
            }
        };
        (0..self.n()).map(clause).collect()
    }

    /// "The count of a line is 2 if fewer than 6 unsure cells come in, else 0, plus 1 for each open cell, plus 2 for
    /// each cell decoded afresh."
    pub fn line_count(&self, incoming: &[u8], channel: &[u8], filling: Filling) -> u64 {
        let decoded = if erasures(incoming) < TOO_MANY { 2 } else { 0 };
        let settled = self.clauses(incoming, channel, filling).into_iter();
        let further = settled.map(|clause| match clause {
            Clause::Open => 1,
            Clause::Afresh => 2,
            _ => 0,
        });
        decoded + further.sum::<u64>()
    }
}

fn differences(a: &[u8], b: &[u8]) -> usize {
    a.iter().zip(b).filter(|(a, b)| a != b).count()
}
