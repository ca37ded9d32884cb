//! "W-204, a repeatable load": a sheet with wrong and unsure cells from a seed.

use super::UNSURE;

/// "State s is the seed, w is 0."
struct State {
    s: u64,
    w: u64,
}

/// The draws of a seed, the first one first. There is always another.
pub fn draws(seed: u64) -> impl Iterator<Item = u64> {
    let mut state = State { s: seed, w: 0 };
    std::iter::repeat_with(move || state.draw())
}

impl State {
    /// "A draw does s ^= s << 13, s ^= s >> 7, s ^= s << 17 in 64 bits. Then w grows by hexadecimal 9E3779B97F4A7C15, wrapping past
    /// 64 bits, and the draw is s plus w, wrapping too."
    fn draw(&mut self) -> u64 {
        self.s ^= self.s << 13;
        self.s ^= self.s >> 7;
        self.s ^= self.s << 17;
        self.w = self.w.wrapping_add(0x9E37_79B9_7F4A_7C15);
        self.s.wrapping_add(self.w)
    }
}

/// "Cell places 0 to n × n - 1 are shuffled from the last place down to place 1: place i changes with the place numbered by the
/// draw modulo i + 1."
pub fn shuffled(seed: u64, cells: usize) -> Vec<usize> {
    let mut places: Vec<usize> = (0..cells).collect();
    for (i, draw) in (1..cells).rev().zip(draws(seed)) {
        places.swap(i, (draw % (i as u64 + 1)) as usize);
    }
    places
}

/// "The first D places in the shuffled order are inverted, the next E made unsure."
pub fn hit(seed: u64, wrong: usize, unsure: usize, sent: &[u8]) -> Vec<u8> {
    let places = shuffled(seed, sent.len());
    let (inverted, after) = places.split_at(wrong);
    let mut cells = sent.to_vec();
    for &place in inverted {
        cells[place] = 1 - cells[place];
    }
    for &place in &after[..unsure] {
        cells[place] = UNSURE;
    }
    cells
}
