//! The part of a load of W-204 that comes after encoding, for speed: places of 16 bits, in an array of as many as there are.

use crate::plain::UNSURE;

/// Inverts `wrong` cells of an array that was encoded and makes `unsure` others unsure: the refusal number.
pub fn damage(seed: u64, wrong: u64, unsure: u64, cells: &mut [u8]) -> u64 {
    // Those of degrees 4, 6 and 7.
    match cells.len() {
        256 => damage_of::<256>(seed, wrong, unsure, cells),
        4096 => damage_of::<4096>(seed, wrong, unsure, cells),
        16384 => damage_of::<16384>(seed, wrong, unsure, cells),
        _ => 3,
    }
}

fn damage_of<const CELLS: usize>(seed: u64, wrong: u64, unsure: u64, cells: &mut [u8]) -> u64 {
    let most = CELLS as u64;
    if seed == 0 {
        return 8;
    }
    if wrong > most || unsure > most - wrong {
        return 9;
    }
    let places = shuffled::<CELLS>(seed);
    let (inverted, after) = places.split_at(wrong as usize);
    for &place in inverted {
        cells[usize::from(place)] ^= 1;
    }
    for &place in &after[..unsure as usize] {
        cells[usize::from(place)] = UNSURE;
    }
    0
}

/// The places in the order that the seed gives.
fn shuffled<const CELLS: usize>(seed: u64) -> [u16; CELLS] {
    let mut places = std::array::from_fn(|place| place as u16);
    let (mut s, mut w) = (seed, 0u64);
    for i in (1..CELLS).rev() {
        s ^= s << 13;
        s ^= s >> 7;
        s ^= s << 17;
        w = w.wrapping_add(0x9E37_79B9_7F4A_7C15);
        let draw = s.wrapping_add(w);
        places.swap(i, (draw % (i as u64 + 1)) as usize);
    }
    places
}
