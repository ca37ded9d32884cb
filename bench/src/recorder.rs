//! Sheets and files of the recorder by chance: good files, and files with flaws.

use crate::damage;
use crate::plain::blocks::{self, BLOCK, BLOCKS, CELLS, SUMS};
use crate::plain::{Code, Degree, UNSURE};
use crate::random::Random;

/// The cells of a sheet: all alike, those of a received array, or any.
pub fn sheet(random: &mut Random) -> Vec<u8> {
    match random.below(4) {
        0 => vec![random.pick(&[0, 1, UNSURE]); CELLS],
        1 => damage::received(Code::of(Degree::Six), random),
        _ => (0..CELLS).map(|_| random.pick(&[0, 1, UNSURE])).collect(),
    }
}

/// A sheet number: any, or one with bytes that are 0 or 255.
pub fn number(random: &mut Random) -> u16 {
    let high_and_low = [0, 1].map(|_| match random.below(4) {
        0 => 0,
        1 => 255,
        _ => random.byte(),
    });
    u16::from_be_bytes(high_and_low)
}

/// A file that is taken. In one of four, a sum is 0.
pub fn file(random: &mut Random) -> Vec<u8> {
    let cells = sheet(random);
    let number = number(random);
    if !random.one_in(4) {
        return blocks::written(number, &cells);
    }
    let (block, sum) = (random.below(BLOCKS), random.below(2));
    let mut summed = blocks::written(number, &cells)[block * BLOCK..][..SUMS].to_vec();
    let high = (0..u8::MAX).find(|&high| {
        summed[2] = high;
        blocks::sums(&summed)[sum] == 0
    });
    // It counts once in the first sum and 508 times in the second, so that it takes both through all 255 values.
    let high = high.expect("a high byte for which the sum is 0");
    blocks::written(u16::from_be_bytes([high, number as u8]), &cells)
}

/// What can be wrong in a file.
#[derive(Clone, Copy, PartialEq, Eq)]
enum Flaw {
    Length,
    /// Blocks in each other's place.
    Order,
    /// One of the bytes 0 to 3.
    Head,
    /// Any byte.
    Byte,
    Sum,
    /// A cell of 3.
    Cell,
    Filler,
}

/// Those of the first test are fewer than the others, so that the later tests have their part of the calls.
const FLAWS: [Flaw; 12] = [
    Flaw::Length,
    Flaw::Order,
    Flaw::Head,
    Flaw::Head,
    Flaw::Byte,
    Flaw::Byte,
    Flaw::Sum,
    Flaw::Sum,
    Flaw::Cell,
    Flaw::Cell,
    Flaw::Filler,
    Flaw::Filler,
];

/// Lengths around those of one to three blocks and beyond.
const LENGTHS: [usize; 10] = [0, 1, 511, 512, 1024, 1535, 1537, 1540, 2048, 3072];

/// Adds a flaw, beside those that a file may have already.
pub fn spoil(file: &mut Vec<u8>, random: &mut Random) {
    let flaw = random.pick(&FLAWS);
    if flaw == Flaw::Length {
        return file.resize(random.pick(&LENGTHS), 0);
    }
    let (blocks, _) = file.as_chunks_mut::<BLOCK>();
    if blocks.is_empty() {
        return;
    }
    let at = random.below(blocks.len());
    match flaw {
        Flaw::Order => blocks.swap(at, random.below(blocks.len())),
        Flaw::Sum => spoil_sum(blocks, at, random),
        flaw => spoil_block(&mut blocks[at], at, flaw, random),
    }
}

/// Puts 255 where a sum is 0, or else changes a sum of one block.
fn spoil_sum(blocks: &mut [[u8; BLOCK]], at: usize, random: &mut Random) {
    let mut sums = blocks.iter_mut().flat_map(|block| &mut block[SUMS..]);
    let zero = sums.find(|sum| **sum == 0);
    match zero {
        Some(sum) => *sum = 255,
        None => change(&mut blocks[at][SUMS..], random),
    }
}

/// Adds one of the other flaws. The block's sums are mostly made right after it, so that a later test than theirs comes to be the
/// first that fails.
fn spoil_block(block: &mut [u8; BLOCK], at: usize, flaw: Flaw, random: &mut Random) {
    let (filler, rows): (Vec<usize>, Vec<usize>) =
        (4..SUMS).partition(|&byte| blocks::is_filler(at, byte));
    match flaw {
        Flaw::Head => change(&mut block[..4], random),
        Flaw::Cell => block[first_last_or_any(&rows, random)] |= 3 << (2 * random.below(4)),
        Flaw::Filler => {
            let byte = random.pick(&[1, 2, 4, 64, 128, 255]);
            block[first_last_or_any(&filler, random)] = byte;
        }
        _ => change(block, random),
    }
    if !random.one_in(4) {
        blocks::make_sums(block);
    }
}

fn first_last_or_any(places: &[usize], random: &mut Random) -> usize {
    let any = random.pick(places);
    random.pick(&[places[0], places[places.len() - 1], any])
}

/// Changes one of the bytes. 0 and 255 are the same to the sums, and so take each other's place more often than by chance.
fn change(bytes: &mut [u8], random: &mut Random) {
    let place = random.below(bytes.len());
    bytes[place] = match (bytes[place], random.below(3)) {
        (0, 0) => 255,
        (255, 0) => 0,
        (byte, 1) => byte ^ 1 << random.below(8),
        _ => random.byte(),
    };
}

#[cfg(test)]
mod tests {
    use super::*;

    #[test]
    fn files_are_taken_and_flaws_are_refused_by_every_test() {
        let mut random = Random::new(1);
        let (mut sums_of_zero, mut refusals) = (0, [0; 8]);
        for _ in 0..500 {
            let mut file = file(&mut random);
            assert!(blocks::read(&file).is_ok());
            let sums = file.chunks(BLOCK).flat_map(|block| &block[SUMS..]);
            sums_of_zero += usize::from(sums.into_iter().any(|&sum| sum == 0));
            for _ in 0..random.between(1, 3) {
                spoil(&mut file, &mut random);
            }
            refusals[blocks::read(&file).map_or_else(|refusal| refusal as usize, |_| 0)] += 1;
        }
        assert!(sums_of_zero > 100);
        assert!(refusals[0] > 0, "{refusals:?}");
        assert!(
            refusals[5..].iter().all(|&count| count > 50),
            "{refusals:?}"
        );
    }
}
