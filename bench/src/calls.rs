//! Random calls: good ones, and ones with several faults at once.

use std::iter::repeat_n;

use crate::call::{Call, Entry};
use crate::damage;
use crate::plain::entries::SHEET_OUTPUT;
use crate::plain::{Code, Degree, blocks, text};
use crate::random::Random;
use crate::recorder;

/// Which calls a run is made of.
pub struct Mix {
    pub name: &'static str,
    pub degrees: &'static [Degree],
    /// How often each entry is called, in the order of all: the ones with more to go wrong more often.
    weights: [usize; Entry::ALL.len()],
    /// One call in so many has faults.
    faulty: usize,
    /// So many calls are made for so many of the count.
    share: (u64, u64),
}

impl Mix {
    /// A plain decoding of an array of degree 7 takes its time, so that there are fewer of these; a file takes little, and has many
    /// ways to be wrong. The long lines, the files and the loads have calls of their own, so that the others do not depend on them.
    pub const ALL: [Mix; 4] = [
        Mix {
            name: "degree 4 or 6",
            degrees: &[Degree::Four, Degree::Six],
            weights: [6, 1, 1, 1, 2, 3, 4, 2, 0, 0, 0],
            faulty: 4,
            share: (1, 1),
        },
        Mix {
            name: "degree 7",
            degrees: &[Degree::Seven],
            weights: [1, 1, 1, 1, 2, 3, 4, 1, 0, 0, 0],
            faulty: 4,
            share: (1, 4),
        },
        Mix {
            name: "files of the recorder",
            degrees: &[Degree::Six],
            weights: [0, 0, 0, 0, 0, 0, 0, 0, 2, 1, 0],
            faulty: 2,
            share: (4, 1),
        },
        Mix {
            name: "loads",
            degrees: &Degree::ALL,
            weights: [0, 0, 0, 0, 0, 0, 0, 0, 0, 0, 1],
            faulty: 2,
            share: (1, 1),
        },
    ];

    /// The calls of a run with this count.
    pub fn calls(&self, count: u64) -> u64 {
        let (calls, of) = self.share;
        count.saturating_mul(calls) / of
    }

    pub fn has(&self, entry: Entry) -> bool {
        self.weights[entry.place()] > 0
    }

    fn entry(&self, random: &mut Random) -> Entry {
        let weighted = Entry::ALL.into_iter().zip(self.weights);
        let entries = weighted.flat_map(|(entry, weight)| repeat_n(entry, weight));
        random.pick(&entries.collect::<Vec<Entry>>())
    }
}

/// Bytes that are drawn for the output of `sheet`, and stand there again and again. They were all of it before degree 7:
/// with more draws, the calls of a seed would no longer be those that they were.
const DRAWN: usize = 4244;

/// A call of a random entry, with faults as often as the mix says.
pub fn random_call(mix: &Mix, random: &mut Random) -> Call {
    let entry = mix.entry(random);
    let degree = random.pick(mix.degrees);
    let mut call = good_call(entry, degree, random);
    if random.one_in(mix.faulty) {
        for _ in 0..random.between(1, 3) {
            add_fault(&mut call, random);
        }
    }
    call
}

/// A call that is taken. What is only written holds any bytes.
fn good_call(entry: Entry, degree: Degree, random: &mut Random) -> Call {
    match entry {
        Entry::Decode | Entry::Encode | Entry::Extract | Entry::Row => {
            array_call(entry, degree, random)
        }
        Entry::BoundedDistance | Entry::DecodeLine | Entry::Messages => {
            line_call(entry, degree, random)
        }
        Entry::Sheet => sheet_call(degree, random),
        Entry::ReadBlocks => read_call(recorder::file(random), random),
        Entry::WriteBlocks => {
            let number = recorder::number(random);
            write_call(number, recorder::sheet(random), random)
        }
        Entry::Load => load_call(degree, random),
    }
}

fn array_call(entry: Entry, degree: Degree, random: &mut Random) -> Call {
    let (code, n, k) = (Code::of(degree), degree.n(), degree.k());
    let mut call = Call::new(entry, degree.number());
    match entry {
        Entry::Decode => {
            call.iterations = iterations(degree, random);
            call.input = damage::received(code, random);
            call.filling = damage::filling(degree, degree.lines(call.iterations), random);
            call.output = random.bytes(n * n);
            call.report = random.words(3);
        }
        Entry::Encode => {
            call.input = random.bits(k * k);
            call.output = random.bytes(n * n);
        }
        Entry::Extract => {
            call.input = damage::received(code, random);
            call.output = random.bytes(k * k);
        }
        _ => {
            call.input = damage::received(code, random);
            call.index = random.below(n);
            call.report = random.words(2);
        }
    }
    call
}

fn line_call(entry: Entry, degree: Degree, random: &mut Random) -> Call {
    let code = Code::of(degree);
    let mut call = Call::new(entry, degree.number());
    match entry {
        Entry::BoundedDistance => {
            call.output = word(code, random);
            call.report = random.words(2);
        }
        Entry::DecodeLine => {
            call.output = damage::line(code, random);
            call.filling = damage::filling(degree, 1, random);
            call.report = random.words(1);
        }
        _ => {
            (call.input, call.channel) = damage::line_pair(code, random);
            call.filling = damage::filling(degree, 1, random);
            call.output = random.bytes(degree.n());
            call.report = random.words(1);
        }
    }
    call
}

fn sheet_call(degree: Degree, random: &mut Random) -> Call {
    let mut call = Call::new(Entry::Sheet, 0);
    call.input = sheet_text(degree, random);
    let drawn = random.bytes(DRAWN).into_iter().cycle();
    call.output = drawn.take(SHEET_OUTPUT).collect();
    call.report = random.words(1);
    call
}

/// A call that reads this file.
pub fn read_call(file: Vec<u8>, random: &mut Random) -> Call {
    let mut call = Call::new(Entry::ReadBlocks, 0);
    call.input = file;
    call.output = random.bytes(blocks::CELLS);
    call.report = random.words(1);
    call
}

/// A call that writes this sheet.
pub fn write_call(number: u16, cells: Vec<u8>, random: &mut Random) -> Call {
    let mut call = Call::new(Entry::WriteBlocks, 0);
    call.number = number;
    call.input = cells;
    call.output = random.bytes(blocks::FILE);
    call
}

/// A call that loads a sheet: with few cells hit, with any number, or with all of them.
pub fn load_call(degree: Degree, random: &mut Random) -> Call {
    let (n, k) = (degree.n(), degree.k());
    let mut call = Call::new(Entry::Load, degree.number());
    let hit = match random.below(4) {
        0 => random.below(6),
        1 => random.below(6 * n),
        2 => random.between(0, n * n),
        _ => n * n,
    };
    call.wrong = random.between(0, hit) as u64;
    call.unsure = hit as u64 - call.wrong;
    call.seed = seed(random);
    call.input = random.bits(k * k);
    call.output = random.bytes(n * n);
    call
}

/// A seed that is taken: any, a small one, or one with a single bit.
fn seed(random: &mut Random) -> u64 {
    match random.below(4) {
        0 => random.between(1, 20) as u64,
        1 => 1 << random.below(64),
        2 => u64::MAX,
        _ => random.word().max(1),
    }
}

/// 1 to 20, mostly few: the plain decoding takes its time.
fn iterations(degree: Degree, random: &mut Random) -> u64 {
    let usual = match degree {
        Degree::Four => 8,
        Degree::Six => 4,
        Degree::Seven => 2,
    };
    let most = if random.one_in(8) { 20 } else { usual };
    random.between(1, most) as u64
}

/// A full word: a codeword with up to 4 cells flipped, or any.
fn word(code: &Code, random: &mut Random) -> Vec<u8> {
    let mut word = random.bits(code.n());
    if random.one_in(8) {
        return word;
    }
    code.encode_line(&mut word);
    let wrong = random.below(5);
    damage::hit(&word, wrong, 0, random)
}

/// A text for `sheet`, in one of three cases a broken one.
fn sheet_text(degree: Degree, random: &mut Random) -> Vec<u8> {
    let mut input = text::sheet_input(degree, &damage::received(Code::of(degree), random));
    if random.one_in(3) {
        for _ in 0..random.between(1, 3) {
            break_text(&mut input, random);
        }
    }
    input
}

/// Changes a text in one of the ways that a sender may.
fn break_text(input: &mut Vec<u8>, random: &mut Random) {
    let length = input.len();
    let place = random.below(length + 1);
    let byte = random.pick(b"01?\n\r 2x4\0\xff");
    match random.below(8) {
        0 => input.insert(place, byte),
        1 if place < length => {
            input.remove(place);
        }
        2 | 3 if place < length => input[place] = byte,
        4 if length > 0 => input[0] = random.pick(b"45670 \n"),
        5 => input.truncate(place),
        6 if length > 1 => input.swap(place.min(length - 2), place.min(length - 2) + 1),
        _ => input.push(byte),
    }
}

/// What can be wrong with a call.
#[derive(Clone, Copy)]
enum Fault {
    Degree,
    Iterations,
    Index,
    InputLength,
    ChannelLength,
    FillingLength,
    OutputLength,
    ReportLength,
    InputCell,
    ChannelCell,
    /// A fault only where the output is worked on in place: old cells of a slice that is only written are not tested.
    OutputCell,
    /// A flaw of the file that is read, its length too.
    File,
    /// The seed 0.
    Seed,
    /// More wrong and unsure cells than there are.
    TooMany,
}

/// The faults that a call of this entry can have.
fn faults_of(entry: Entry) -> &'static [Fault] {
    use Fault::*;
    match entry {
        Entry::Decode => &[
            Degree,
            Iterations,
            InputLength,
            FillingLength,
            OutputLength,
            ReportLength,
            InputCell,
            OutputCell,
        ],
        Entry::Encode | Entry::Extract => {
            &[Degree, InputLength, OutputLength, InputCell, OutputCell]
        }
        Entry::Row => &[Degree, Index, InputLength, ReportLength, InputCell],
        Entry::BoundedDistance | Entry::DecodeLine => {
            &[Degree, OutputLength, ReportLength, OutputCell]
        }
        Entry::Messages => &[
            Degree,
            InputLength,
            ChannelLength,
            OutputLength,
            ReportLength,
            InputCell,
            ChannelCell,
            OutputCell,
        ],
        Entry::Sheet => &[OutputLength, ReportLength, InputLength],
        // There are many flaws that a file can have.
        Entry::ReadBlocks => &[File, File, File, File, File, OutputLength, ReportLength],
        Entry::WriteBlocks => &[InputLength, InputCell, InputCell, OutputLength],
        Entry::Load => &[
            Degree,
            InputLength,
            OutputLength,
            InputCell,
            OutputCell,
            Seed,
            Seed,
            TooMany,
            TooMany,
        ],
    }
}

fn add_fault(call: &mut Call, random: &mut Random) {
    match random.pick(faults_of(call.entry)) {
        Fault::Degree => call.degree = random.pick(&[0, 3, 5, 8, 9, 64, u64::MAX]),
        Fault::Iterations => {
            call.iterations = random.pick(&[0, 21, 22, 1 << 32, 1 << 58, u64::MAX]);
        }
        Fault::Index => call.index = random.pick(row_numbers(call.degree)),
        Fault::InputLength => resize(&mut call.input, random),
        Fault::ChannelLength => resize(&mut call.channel, random),
        Fault::FillingLength => resize(&mut call.filling, random),
        Fault::OutputLength => resize(&mut call.output, random),
        Fault::ReportLength => resize(&mut call.report, random),
        Fault::InputCell => spoil(&mut call.input, random),
        Fault::ChannelCell => spoil(&mut call.channel, random),
        Fault::OutputCell => spoil(&mut call.output, random),
        Fault::File => recorder::spoil(&mut call.input, random),
        Fault::Seed => call.seed = 0,
        Fault::TooMany => (call.wrong, call.unsure) = too_many(call.output.len() as u64, random),
    }
}

/// Wrong and unsure cells that are together more than these: mostly one more, in any parts, or so many that a sum of 64 bits wraps
/// to few.
fn too_many(cells: u64, random: &mut Random) -> (u64, u64) {
    let part = random.between(0, cells as usize) as u64;
    let one_more = (part, cells + 1 - part);
    let (one, other) = random.pick(&[
        one_more,
        one_more,
        one_more,
        (cells, cells),
        (part, u64::MAX),
        (u64::MAX - part, part + 1),
        (1 << 63, 1 << 63),
        (1 << 32, 1 << 32),
        (u64::MAX, u64::MAX),
    ]);
    random.pick(&[(one, other), (other, one)])
}

/// Row numbers around n, and far beyond it.
fn row_numbers(degree: u64) -> &'static [usize] {
    if degree == Degree::Seven.number() {
        &[64, 126, 127, 128, 129, 1 << 40, usize::MAX]
    } else {
        &[16, 17, 63, 64, 65, 1 << 40, usize::MAX]
    }
}

/// A cell that is not 0 or 1: unsure, or none at all.
fn spoil(cells: &mut [u8], random: &mut Random) {
    if !cells.is_empty() {
        let ends = [0, cells.len() - 1, random.below(cells.len())];
        cells[random.pick(&ends)] = random.pick(&[2, 3, 3, 4, 48, 128, 255]);
    }
}

/// Another length: one more or less, none, half, or twice as much.
fn resize<T: Copy + Default>(cells: &mut Vec<T>, random: &mut Random) {
    let length = cells.len();
    let other = match random.below(6) {
        0 => 0,
        1 => length / 2,
        2 => 2 * length,
        3 => length.saturating_sub(1),
        _ => length + 1,
    };
    cells.resize(other, T::default());
}

#[cfg(test)]
mod tests {
    use super::*;
    use crate::call::Side;

    #[test]
    fn loads_are_taken_and_refused_by_every_test() {
        let mut random = Random::new(1);
        let mut mixes = Mix::ALL.into_iter();
        let mix = mixes.find(|mix| mix.has(Entry::Load)).unwrap();
        let (mut refusals, mut wrapping) = ([0; 10], 0);
        for _ in 0..600 {
            let call = random_call(&mix, &mut random);
            let refusal = call.run(Side::Plain).refusal;
            refusals[refusal as usize] += 1;
            let wrapped = call.wrong.wrapping_add(call.unsure);
            wrapping += u64::from(refusal == 9 && wrapped <= call.output.len() as u64);
        }
        let seen = [0, 1, 3, 4, 8, 9].map(|number| refusals[number]);
        assert!(seen.iter().all(|&count| count > 20), "{refusals:?}");
        assert_eq!(seen.iter().sum::<u64>(), 600);
        assert!(wrapping > 5, "{wrapping} sums wrap to few");
    }
}
