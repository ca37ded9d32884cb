//! Received arrays, damaged in all kinds of ways, and filling words.

use crate::plain::{Code, Degree, TOO_MANY, UNSURE};
use crate::random::Random;

/// A sent array with this many wrong and this many unsure cells at random places.
pub fn hit(sent: &[u8], wrong: usize, unsure: usize, random: &mut Random) -> Vec<u8> {
    let mut received = sent.to_vec();
    let places = random.places(wrong + unsure, sent.len());
    let (wrong_places, unsure_places) = places.split_at(wrong.min(places.len()));
    wrong_places.iter().for_each(|&cell| received[cell] ^= 1);
    unsure_places
        .iter()
        .for_each(|&cell| received[cell] = UNSURE);
    received
}

/// A random sent array.
pub fn sent(code: &Code, random: &mut Random) -> Vec<u8> {
    let k = code.degree.k();
    code.encode(&random.bits(k * k))
}

/// The kinds of damage to an array.
#[derive(Clone, Copy, Debug)]
pub enum Damage {
    None,
    FewWrong,
    ManyWrong,
    FewUnsure,
    ManyUnsure,
    AllUnsure,
    Mixed,
    /// Every row has 4 to 7 unsure cells and some wrong ones.
    CrowdedRows,
    /// Every column has 4 to 7 unsure cells and some wrong ones.
    CrowdedColumns,
    /// In every row, twice the wrong cells plus the unsure ones is below 6.
    WithinCondition,
    /// The same with some rows at 6 or just above.
    AroundCondition,
    /// Every row lies between the sent codeword and one nearest to it.
    BetweenCodewords,
    /// Some rows and columns are lost as a whole.
    LostLines,
    /// A square of wrong or unsure cells, the shape that iterative decoding is stuck with.
    Blob,
    /// No sent array behind it: any cell is 0, 1 or 2.
    Noise,
    /// The same with few unsure cells.
    KnownNoise,
    /// Each column is a codeword, and rows are off in a way that decoding mostly leaves.
    RowsOff,
    /// Each row is a codeword, and columns are off.
    ColumnsOff,
    /// Each row and each column is a codeword with its unsure cells read as 0, and there are so many that they stay.
    UnsureLeft,
}

/// A received array with a random kind of damage.
pub fn received(code: &Code, random: &mut Random) -> Vec<u8> {
    let sent = sent(code, random);
    let damage = random.pick(&Damage::ALL);
    damage.done_to(sent, code, random)
}

impl Damage {
    pub const ALL: [Damage; 19] = [
        Damage::None,
        Damage::FewWrong,
        Damage::ManyWrong,
        Damage::FewUnsure,
        Damage::ManyUnsure,
        Damage::AllUnsure,
        Damage::Mixed,
        Damage::CrowdedRows,
        Damage::CrowdedColumns,
        Damage::WithinCondition,
        Damage::AroundCondition,
        Damage::BetweenCodewords,
        Damage::LostLines,
        Damage::Blob,
        Damage::Noise,
        Damage::KnownNoise,
        Damage::RowsOff,
        Damage::ColumnsOff,
        Damage::UnsureLeft,
    ];

    /// What it is called in a table.
    pub fn name(self) -> &'static str {
        match self {
            Damage::None => "no damage",
            Damage::FewWrong => "few wrong",
            Damage::ManyWrong => "many wrong",
            Damage::FewUnsure => "few unsure",
            Damage::ManyUnsure => "many unsure",
            Damage::AllUnsure => "all unsure",
            Damage::Mixed => "some wrong and unsure",
            Damage::CrowdedRows => "4 to 7 unsure in every row",
            Damage::CrowdedColumns => "4 to 7 unsure in every column",
            Damage::WithinCondition => "rows within the condition",
            Damage::AroundCondition => "rows around the condition",
            Damage::BetweenCodewords => "rows between two codewords",
            Damage::LostLines => "lost lines",
            Damage::Blob => "a block of wrong and unsure",
            Damage::Noise => "any cells",
            Damage::KnownNoise => "any bits, some unsure",
            Damage::RowsOff => "good columns, rows off",
            Damage::ColumnsOff => "good rows, columns off",
            Damage::UnsureLeft => "good lines, cells unsure",
        }
    }

    /// A sent array after this damage.
    pub fn done_to(self, sent: Vec<u8>, code: &Code, random: &mut Random) -> Vec<u8> {
        let n = code.n();
        let all = n * n;
        match self {
            Damage::None => sent,
            Damage::FewWrong => hit(&sent, random.between(1, n / 2), 0, random),
            Damage::ManyWrong => hit(&sent, random.between(n, 6 * n), 0, random),
            Damage::FewUnsure => hit(&sent, 0, random.between(1, n), random),
            Damage::ManyUnsure => hit(&sent, 0, random.between(2 * n, all), random),
            Damage::AllUnsure => vec![UNSURE; all],
            Damage::Mixed => hit(&sent, random.below(3 * n), random.below(6 * n), random),
            Damage::CrowdedRows => crowded(sent, n, random),
            Damage::CrowdedColumns => transposed(&crowded(transposed(&sent, n), n, random), n),
            Damage::WithinCondition => within_condition(&sent, n, random),
            Damage::AroundCondition => by_rows(&sent, n, 3, random),
            Damage::BetweenCodewords => {
                let rows = sent.chunks(n);
                rows.flat_map(|row| between(code, row, random)).collect()
            }
            Damage::LostLines => lost_lines(sent, n, random),
            Damage::Blob => blob(sent, n, random),
            Damage::Noise => (0..all).map(|_| random.below(3) as u8).collect(),
            Damage::KnownNoise => {
                let cells = random.bits(all);
                hit(&cells, 0, random.below(4 * n), random)
            }
            Damage::RowsOff => rows_off(sent, code, random),
            Damage::ColumnsOff => transposed(&rows_off(transposed(&sent, n), code, random), n),
            Damage::UnsureLeft => unsure_left(code, random),
        }
    }
}

/// A line with few or many wrong and unsure cells, preferring the numbers at which the clauses change.
pub fn line(code: &Code, random: &mut Random) -> Vec<u8> {
    let n = code.n();
    if random.one_in(12) {
        return (0..n).map(|_| random.below(3) as u8).collect();
    }
    let sent = codeword(code, random);
    if random.one_in(3) {
        return between(code, &sent, random);
    }
    hit(
        &sent,
        random.below(5),
        random.pick(&[0, 0, 1, 2, 3, 4, 5, 5, 6, 6, 7]),
        random,
    )
}

/// An incoming and a channel line: two received forms of one codeword, mostly near each other, as they are in an array.
pub fn line_pair(code: &Code, random: &mut Random) -> (Vec<u8>, Vec<u8>) {
    let channel = line(code, random);
    if random.one_in(4) {
        return (line(code, random), channel);
    }
    let mut incoming = channel.clone();
    let changed = random.between(0, 6);
    for cell in random.places(changed, code.n()) {
        incoming[cell] = random.below(3) as u8;
    }
    (incoming, channel)
}

/// A line between a codeword and one of those that differ from it in 6 cells: there it holds the one's cell, the other's,
/// or is unsure. Here both filled words may decode, to different codewords, and the choice between them counts.
fn between(code: &Code, codeword: &[u8], random: &mut Random) -> Vec<u8> {
    // About one in four words with 4 wrong cells is decoded to a neighbour.
    let neighbour = (0..30).find_map(|_| {
        let decoded = code.bounded_distance(&hit(codeword, 4, 0, random))?;
        (decoded != codeword).then_some(decoded)
    });
    let Some(neighbour) = neighbour else {
        return codeword.to_vec();
    };
    let cells = codeword.iter().zip(&neighbour);
    cells
        .map(|(&cell, &other)| {
            if cell == other {
                cell
            } else {
                random.pick(&[cell, other, UNSURE])
            }
        })
        .collect()
}

/// The numbers of this many filling words: zeros, ones, a mix of both, or any.
pub fn filling(degree: Degree, words: usize, random: &mut Random) -> Vec<u64> {
    match random.below(6) {
        0 => filling_by(degree, words, || 0),
        1 => filling_by(degree, words, || !0),
        2 => filling_by(degree, words, || random.pick(&[0, !0])),
        _ => any_filling(degree, words, random),
    }
}

/// The numbers of this many filling words, with any bits.
pub fn any_filling(degree: Degree, words: usize, random: &mut Random) -> Vec<u64> {
    filling_by(degree, words, || random.word())
}

/// Two numbers a word, the low one first. Where a line has no cells for the high one, it is the opposite of the low one: a
/// decoder that read it would be seen.
fn filling_by(degree: Degree, words: usize, mut draw: impl FnMut() -> u64) -> Vec<u64> {
    let word = |_| {
        let low = draw();
        let high = if degree.n() > 64 { draw() } else { !low };
        [low, high]
    };
    (0..words).flat_map(word).collect()
}

/// Rows with 4 to 7 unsure cells and up to 3 wrong ones.
fn crowded(cells: Vec<u8>, n: usize, random: &mut Random) -> Vec<u8> {
    let hit_row = |row: &[u8]| {
        let unsure = random.pick(&[4, 5, 5, 6, 6, 7]);
        let wrong = random.pick(&[0, 0, 0, 1, 2, 3]);
        hit(row, wrong, unsure, random)
    };
    cells.chunks(n).flat_map(hit_row).collect()
}

/// Every row within the condition of demand 3: twice the wrong cells plus the unsure ones is below 6.
pub fn within_condition(sent: &[u8], n: usize, random: &mut Random) -> Vec<u8> {
    by_rows(sent, n, 0, random)
}

/// Every row within the condition, but for about `beyond` of them.
fn by_rows(cells: &[u8], n: usize, beyond: usize, random: &mut Random) -> Vec<u8> {
    let hit_row = |row: &[u8]| {
        let wrong = random.below(3);
        let left = TOO_MANY - 1 - 2 * wrong;
        let unsure = if beyond > 0 && random.below(n) < beyond {
            left + random.between(1, 2)
        } else {
            random.between(0, left)
        };
        hit(row, wrong, unsure, random)
    };
    cells.chunks(n).flat_map(hit_row).collect()
}

/// Some rows and columns unsure or wrong as a whole.
fn lost_lines(mut cells: Vec<u8>, n: usize, random: &mut Random) -> Vec<u8> {
    let (rows, columns) = (random.between(0, 5), random.between(0, 6));
    for row in random.places(rows, n) {
        let to = random.below(3) as u8;
        cells[n * row..n * (row + 1)].fill(to);
    }
    for column in random.places(columns, n) {
        let to = random.pick(&[0, 1, UNSURE, UNSURE]);
        (0..n).for_each(|row| cells[n * row + column] = to);
    }
    cells
}

/// A few rows crossed with a few columns.
fn blob(mut cells: Vec<u8>, n: usize, random: &mut Random) -> Vec<u8> {
    let (height, width) = (random.between(2, 8), random.between(2, 8));
    let rows = random.places(height, n);
    let columns = random.places(width, n);
    for row in rows {
        for column in &columns {
            let cell = &mut cells[n * row + column];
            *cell = random.pick(&[1 - *cell, UNSURE]);
        }
    }
    cells
}

/// One wrong pattern of four cells in each row in which a codeword holds 1: each column is changed by that codeword or not at
/// all, so that it is a codeword still.
fn rows_off(mut cells: Vec<u8>, code: &Code, random: &mut Random) -> Vec<u8> {
    let n = code.n();
    let down = codeword(code, random);
    let columns = random.places(4, n);
    for row in (0..n).filter(|&row| down[row] == 1) {
        columns
            .iter()
            .for_each(|column| cells[n * row + column] ^= 1);
    }
    cells
}

/// A codeword across in each row in which one holds 1, and zeros in the others, with 6 or more of them unsure.
fn unsure_left(code: &Code, random: &mut Random) -> Vec<u8> {
    let n = code.n();
    let (down, across) = (codeword(code, random), codeword(code, random));
    let mut empty = vec![0; n];
    let unsure = random.between(TOO_MANY, n);
    random
        .places(unsure, n)
        .iter()
        .for_each(|&cell| empty[cell] = UNSURE);
    down.iter()
        .flat_map(|&cell| {
            if cell == 1 {
                across.clone()
            } else {
                empty.clone()
            }
        })
        .collect()
}

fn codeword(code: &Code, random: &mut Random) -> Vec<u8> {
    let mut word = random.bits(code.n());
    code.encode_line(&mut word);
    word
}

fn transposed(cells: &[u8], n: usize) -> Vec<u8> {
    (0..n * n)
        .map(|place| cells[place % n * n + place / n])
        .collect()
}

#[cfg(test)]
mod tests {
    use super::*;

    /// At degrees 4 and 6 a filling word takes one draw, so that arrays drawn after it are those that they were before it had a
    /// high number.
    #[test]
    fn a_filling_word_takes_as_many_draws_as_its_line_needs() {
        let drawn = Random::new(1).words(6);
        for degree in [Degree::Four, Degree::Six] {
            let filling = any_filling(degree, 6, &mut Random::new(1));
            let expected: Vec<u64> = drawn.iter().flat_map(|&low| [low, !low]).collect();
            assert_eq!(filling, expected);
        }
        assert_eq!(any_filling(Degree::Seven, 3, &mut Random::new(1)), drawn);
    }
}
