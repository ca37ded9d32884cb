//! The extrinsic messages of a packed line, by the clauses.

use super::Line;
use super::tables::{Mend, Tables};
use super::word::Word;

/// From this many unsure cells on, a line decoding fails.
const TOO_MANY: u32 = 6;

/// One filling of the incoming line: the filled word and what its decoding gave.
struct Side<W> {
    /// The incoming line's filled word.
    word: W,
    /// The cells in which the channel's filled word differs from it.
    changed: W,
    sums: u16,
    mend: Mend,
    /// The codeword, if the decoding did not fail.
    codeword: W,
    /// The cells at which this filling is in reach.
    reach: W,
}

impl<W: Word> Side<W> {
    #[inline(always)]
    fn new(tables: &Tables, word: W, sums: u16, channel_word: W) -> Side<W> {
        let changed = word ^ channel_word;
        let mend = tables.mend(sums);
        let flips = mend.flips();
        let none = W::from(0);
        // A codeword two cells away is left by a change in a third cell, and by no other change.
        let reach = match (mend.failed(), mend.is_far()) {
            (true, _) => none,
            (false, true) => !changed | flips,
            (false, false) => !none,
        };
        Side {
            word,
            changed,
            sums,
            mend,
            codeword: word ^ flips,
            reach,
        }
    }

    /// Decodes the word with one cell changed.
    #[inline(always)]
    fn decode_changed<const COUNTED: bool>(&self, tables: &Tables, cell: W) -> Option<W> {
        let word = self.word ^ cell;
        let sums = if COUNTED {
            tables.sums(word)
        } else {
            self.sums ^ tables.sums_of_cell(cell.lowest_place())
        };
        let mend = tables.mend(sums);
        (!mend.failed()).then_some(word ^ mend.flips())
    }
}

/// The messages of a line and the decodings that they count.
#[inline(always)]
pub fn messages<W: Word, const COUNTED: bool>(
    tables: &Tables,
    incoming: Line<W>,
    channel: Line<W>,
    filling: W,
) -> (Line<W>, u64) {
    let unsure = incoming.erased.count_ones();
    if unsure >= TOO_MANY {
        return crowded_messages(tables, incoming, channel, filling, unsure);
    }
    let one = incoming.ones | incoming.erased & filling;
    let two = incoming.ones | incoming.erased & !filling;
    let sums_one = tables.sums(one);
    if !COUNTED && sums_one == 0 && unsure == 0 {
        // A codeword keeps every cell, whatever the channel says.
        return (incoming, 2);
    }
    let sums_two = if COUNTED || unsure > 0 {
        tables.sums(two)
    } else {
        sums_one
    };
    let channel_one = channel.ones | channel.erased & filling;
    let channel_two = channel.ones | channel.erased & !filling;
    let sides = [
        Side::new(tables, one, sums_one, channel_one),
        Side::new(tables, two, sums_two, channel_two),
    ];
    let own = own_decoding(&sides, incoming);
    let differs = incoming.ones ^ channel.ones | incoming.erased ^ channel.erased;
    if differs == W::from(0) {
        return (own, 2);
    }
    let settled = settled_by_clauses::<W, COUNTED>(tables, &sides, incoming, channel, unsure);
    let line = Line {
        ones: own.ones & !differs | settled.line.ones & differs,
        erased: own.erased & !differs | settled.line.erased & differs,
    };
    (line, 2 + settled.opened)
}

/// The line decoding of the incoming line itself.
#[inline(always)]
fn own_decoding<W: Word>(sides: &[Side<W>; 2], incoming: Line<W>) -> Line<W> {
    let [one, two] = sides;
    match (one.mend.failed(), two.mend.failed()) {
        (true, true) => incoming,
        (true, false) => full(two.codeword),
        (false, true) => full(one.codeword),
        (false, false) => full(nearer(incoming, one.codeword, two.codeword)),
    }
}

/// What the clauses say of the cells at which incoming and channel differ; other cells are not to be looked at.
struct Settled<W> {
    line: Line<W>,
    opened: u64,
}

#[inline(always)]
fn settled_by_clauses<W: Word, const COUNTED: bool>(
    tables: &Tables,
    sides: &[Side<W>; 2],
    incoming: Line<W>,
    channel: Line<W>,
    unsure: u32,
) -> Settled<W> {
    let [one, two] = sides;
    let differs = incoming.ones ^ channel.ones | incoming.erased ^ channel.erased;
    // A sixth unsure cell: the replaced line cannot be decoded.
    let crowded = if unsure + 1 == TOO_MANY {
        differs & channel.erased
    } else {
        W::from(0)
    };
    let todo = differs & !crowded;
    let both = todo & one.reach & two.reach;
    let only_one = todo & one.reach & !two.reach;
    let only_two = todo & two.reach & !one.reach;
    let neither = todo & !(one.reach | two.reach);
    let mut settled = Settled {
        line: Line {
            ones: both & one.codeword
                | only_one & one.codeword
                | only_two & two.codeword
                | neither & channel.ones,
            erased: crowded | neither & channel.erased,
        },
        opened: 0,
    };
    // Where the two codewords in reach are the same, there is nothing to choose.
    for cell in cells_of(both & (one.codeword ^ two.codeword)) {
        let line = replaced(incoming, channel, cell);
        settled.set(cell, nearer(line, one.codeword, two.codeword));
    }
    // None in reach and the channel unsure: one of the fillings changed, and it alone can now be decoded.
    for cell in cells_of(neither & channel.erased) {
        let side = if one.changed & cell == cell { one } else { two };
        settled.opened += 1;
        if let Some(codeword) = side.decode_changed::<COUNTED>(tables, cell) {
            settled.set(cell, codeword);
        }
    }
    // One in reach: the other is open where it changed and the reached codeword does not agree with it.
    let replaced_two = two.word ^ two.changed;
    for cell in cells_of(only_one & two.changed & (one.codeword ^ replaced_two)) {
        settled.opened += 1;
        if let Some(codeword) = two.decode_changed::<COUNTED>(tables, cell) {
            let line = replaced(incoming, channel, cell);
            settled.set(cell, nearer(line, one.codeword, codeword));
        }
    }
    let replaced_one = one.word ^ one.changed;
    for cell in cells_of(only_two & one.changed & (two.codeword ^ replaced_one)) {
        settled.opened += 1;
        if let Some(codeword) = one.decode_changed::<COUNTED>(tables, cell) {
            let line = replaced(incoming, channel, cell);
            settled.set(cell, nearer(line, codeword, two.codeword));
        }
    }
    settled
}

impl<W: Word> Settled<W> {
    /// Gives a cell the codeword's value.
    #[inline(always)]
    fn set(&mut self, cell: W, codeword: W) {
        self.line.ones = self.line.ones & !cell | codeword & cell;
        self.line.erased = self.line.erased & !cell;
    }
}

/// 6 or more unsure cells come in: the channel's cells, but with exactly 6 an unsure cell that the channel knows is
/// decoded afresh.
#[cold]
fn crowded_messages<W: Word>(
    tables: &Tables,
    incoming: Line<W>,
    channel: Line<W>,
    filling: W,
    unsure: u32,
) -> (Line<W>, u64) {
    let mut line = channel;
    let mut count = 0;
    if unsure == TOO_MANY {
        for cell in cells_of(incoming.erased & !channel.erased) {
            count += 2;
            let codeword = decode_line(tables, replaced(incoming, channel, cell), filling);
            if let Some(codeword) = codeword {
                line.ones = line.ones & !cell | codeword & cell;
            }
        }
    }
    (line, count)
}

/// Line decoding of a line with fewer than 6 unsure cells.
fn decode_line<W: Word>(tables: &Tables, line: Line<W>, filling: W) -> Option<W> {
    let [one, two] = [filling, !filling].map(|bits| {
        let word = line.ones | line.erased & bits;
        let mend = tables.mend(tables.sums(word));
        (!mend.failed()).then_some(word ^ mend.flips())
    });
    match (one, two) {
        (Some(one), Some(two)) => Some(nearer(line, one, two)),
        (one, two) => one.or(two),
    }
}

/// The codeword with fewer differences at the known cells; at a tie word one's.
#[inline(always)]
fn nearer<W: Word>(line: Line<W>, one: W, two: W) -> W {
    if one == two {
        return one;
    }
    let differences = |codeword: W| ((codeword ^ line.ones) & !line.erased).count_ones();
    if differences(two) < differences(one) {
        two
    } else {
        one
    }
}

/// The incoming line with one cell of the channel's.
#[inline(always)]
fn replaced<W: Word>(incoming: Line<W>, channel: Line<W>, cell: W) -> Line<W> {
    Line {
        ones: incoming.ones & !cell | channel.ones & cell,
        erased: incoming.erased & !cell | channel.erased & cell,
    }
}

fn full<W: Word>(ones: W) -> Line<W> {
    let erased = W::from(0);
    Line { ones, erased }
}

/// The bits of a word, one at a time.
#[inline(always)]
fn cells_of<W: Word>(word: W) -> impl Iterator<Item = W> {
    let mut left = word;
    std::iter::from_fn(move || {
        let cell = left.lowest();
        left = left ^ cell;
        (cell != W::from(0)).then_some(cell)
    })
}
