//! Ratios of times that a busy machine does not spoil.

use std::fs;
use std::hint::black_box;
use std::time::Instant;

use crate::damage;
use crate::fast::{Decoder, Effort};
use crate::plain::array::Report;
use crate::plain::{Code, Degree};
use crate::pugdrel;
use crate::random::Random;

/// A kind of received arrays, and the iterations to decode them with.
#[derive(Clone, Copy)]
pub struct Setting {
    pub degree: Degree,
    pub wrong: usize,
    pub unsure: usize,
    pub iterations: u64,
}

impl Setting {
    pub const fn new(degree: Degree, wrong: usize, unsure: usize, iterations: u64) -> Setting {
        Setting {
            degree,
            wrong,
            unsure,
            iterations,
        }
    }

    /// A received array, of a message and a seed that are drawn.
    fn received(&self, random: &mut Random) -> Vec<u8> {
        let (n, k) = (self.degree.n(), self.degree.k());
        let (message, seed) = (random.bits(k * k), random.word().max(1));
        let mut cells = vec![0; n * n];
        pugdrel::load(
            self.degree.number(),
            seed,
            self.wrong as u64,
            self.unsure as u64,
            &message,
            &mut cells,
        )
        .expect("these loads are not refused");
        cells
    }
}

/// What is timed.
#[derive(Clone, Copy, PartialEq, Eq)]
pub enum Maker {
    Library,
    FastCounted,
    FastNeeded,
    Plain,
}

impl Maker {
    pub fn name(self) -> &'static str {
        match self {
            Maker::Library => "library",
            Maker::FastCounted => "fast",
            Maker::FastNeeded => "fast, needed only",
            Maker::Plain => "plain",
        }
    }
}

/// Arrays with their filling words.
pub struct Load {
    degree: Degree,
    iterations: u64,
    arrays: Vec<(Vec<u8>, Vec<u64>)>,
}

impl Load {
    /// Arrays of one setting, loaded by the library: a message and a seed are drawn for each, so that settings that differ in the
    /// wrong and unsure cells alone have the same messages and the same order of places.
    pub fn new(setting: Setting, arrays: usize, random: &mut Random) -> Load {
        let received = |random: &mut Random| setting.received(random);
        Load::of(received, setting.degree, setting.iterations, arrays, random)
    }

    /// Arrays that `received` makes.
    pub fn of(
        mut received: impl FnMut(&mut Random) -> Vec<u8>,
        degree: Degree,
        iterations: u64,
        arrays: usize,
        random: &mut Random,
    ) -> Load {
        let lines = degree.lines(iterations);
        // All arrays before all filling words: settings that differ in the iterations alone then have the same arrays.
        let received: Vec<_> = (0..arrays).map(|_| received(random)).collect();
        let filled = received
            .into_iter()
            .map(|cells| (cells, damage::any_filling(degree, lines, random)));
        Load {
            degree,
            iterations,
            arrays: filled.collect(),
        }
    }

    /// Cells to decode an array into.
    fn room(&self) -> Vec<u8> {
        vec![0; self.degree.n() * self.degree.n()]
    }

    /// Lines that one decoding of each array goes through.
    pub fn lines(&self) -> usize {
        self.arrays.len() * self.degree.lines(self.iterations)
    }
}

pub struct Stopwatch {
    fast: [Decoder; Degree::ALL.len()],
    rounds: usize,
}

/// Arrays of a load that the plain implementation decodes, at least once.
const FEW: usize = 8;

/// Seconds that it decodes them for, at least: many steps of the kernel's count.
const LONG: f64 = 0.1;

impl Stopwatch {
    pub fn new(rounds: usize) -> Stopwatch {
        Stopwatch {
            fast: Degree::ALL.map(Decoder::new),
            rounds: rounds.max(1),
        }
    }

    /// Decodes every array of a load once.
    pub fn reports(&self, maker: Maker, load: &Load) -> Vec<Report> {
        let arrays = 0..load.arrays.len();
        arrays
            .map(|array| self.decode(maker, load, array, &mut load.room()))
            .collect()
    }

    /// The time of one maker on a load by that of another on a load of as many arrays.
    ///
    /// The two take turns, array by array. Each such turn is far shorter than the time for which a busy machine puts a
    /// process aside, so that few of them are interrupted, and the median of their ratios is not moved by those.
    pub fn ratio(&self, first: (Maker, &Load), second: (Maker, &Load)) -> f64 {
        let mut ratios = Vec::new();
        for _ in 0..self.rounds {
            for array in 0..first.1.arrays.len() {
                let time = self.time(first.0, first.1, array);
                ratios.push(time / self.time(second.0, second.1, array));
            }
        }
        median(ratios)
    }

    /// The time of the plain implementation on a load by that of the library on another.
    ///
    /// A plain decoding takes long enough to be put aside for others again and again. So its time on the processor is
    /// taken, which the kernel counts in steps of some milliseconds, over several arrays together.
    pub fn plain_ratio(&self, load: &Load, unit: &Load) -> f64 {
        let arrays = FEW.min(load.arrays.len());
        let library = (0..arrays).map(|array| {
            let times = (0..self.rounds).map(|_| self.time(Maker::Library, unit, array));
            median(times.collect())
        });
        let library: f64 = library.sum();
        let mut room = load.room();
        let start = Clock::now();
        let mut decodings = 0;
        while decodings < arrays || start.seconds() < LONG {
            black_box(self.decode(Maker::Plain, load, decodings % arrays, &mut room));
            decodings += 1;
        }
        let plain = start.seconds() * arrays as f64 / decodings as f64;
        plain / library
    }

    /// Seconds of the library for each array of a load, in each round: the runs of one array are far from each other, so
    /// that they are not all disturbed by the same other work.
    pub fn runs(&self, load: &Load) -> Vec<Vec<f64>> {
        let mut runs = vec![Vec::new(); load.arrays.len()];
        for _ in 0..self.rounds {
            for (array, runs) in runs.iter_mut().enumerate() {
                runs.push(self.time(Maker::Library, load, array));
            }
        }
        runs
    }

    /// Seconds for one array.
    fn time(&self, maker: Maker, load: &Load, array: usize) -> f64 {
        let mut room = load.room();
        let start = Instant::now();
        black_box(self.decode(maker, load, array, &mut room));
        start.elapsed().as_secs_f64()
    }

    /// Decodes one array into these cells.
    fn decode(&self, maker: Maker, load: &Load, array: usize, cells: &mut [u8]) -> Report {
        let Load {
            degree, iterations, ..
        } = *load;
        let (received, filling) = &load.arrays[array];
        let fast = &self.fast[degree.place()];
        let report = match maker {
            Maker::Library => {
                pugdrel::decode(degree.number(), iterations, received, filling, cells)
                    .expect("these arrays are not refused")
            }
            Maker::FastCounted => {
                fast.decode(Effort::Counted, iterations, received, filling, cells)
            }
            Maker::FastNeeded => fast.decode(Effort::Needed, iterations, received, filling, cells),
            Maker::Plain => {
                let (left, report) = Code::of(degree).decode(iterations, received, filling);
                cells.copy_from_slice(&left);
                report
            }
        };
        black_box(cells);
        report
    }
}

/// Time on the processor, or time as it passes where the kernel does not tell that.
struct Clock {
    start: Instant,
    on_processor: Option<f64>,
}

impl Clock {
    fn now() -> Clock {
        Clock {
            start: Instant::now(),
            on_processor: processor_seconds(),
        }
    }

    fn seconds(&self) -> f64 {
        match (self.on_processor, processor_seconds()) {
            (Some(before), Some(after)) => after - before,
            _ => self.start.elapsed().as_secs_f64(),
        }
    }
}

/// How long this thread has been on a processor.
fn processor_seconds() -> Option<f64> {
    let numbers = fs::read_to_string("/proc/thread-self/schedstat").ok()?;
    let nanoseconds: f64 = numbers.split(' ').next()?.parse().ok()?;
    Some(nanoseconds * 1e-9)
}

pub fn median(mut values: Vec<f64>) -> f64 {
    values.sort_by(f64::total_cmp);
    values[values.len() / 2]
}

#[cfg(test)]
mod tests {
    use super::*;
    use crate::plain;

    /// A run has the same arrays wherever W-204 is done as it is written.
    #[test]
    fn arrays_are_those_of_the_plain_load() {
        let setting = Setting::new(Degree::Six, 40, 60, 1);
        let load = Load::new(setting, 3, &mut Random::new(1));
        let mut random = Random::new(1);
        for (received, _) in &load.arrays {
            let (message, seed) = (random.bits(51 * 51), random.word());
            let mut expected = vec![9; 64 * 64];
            let refusal = plain::entries::load(6, seed, 40, 60, &message, &mut expected);
            assert!(refusal == 0 && *received == expected);
        }
    }

    #[test]
    fn settings_with_other_hits_have_the_same_messages_and_places() {
        let arrays = |wrong, unsure| {
            let setting = Setting::new(Degree::Four, wrong, unsure, 1);
            Load::new(setting, 4, &mut Random::new(2)).arrays
        };
        let (sent, few, many) = (arrays(0, 0), arrays(3, 5), arrays(3, 50));
        for ((sent, few), many) in sent.iter().zip(&few).zip(&many) {
            let hit = |cells: &[u8], place: usize| cells[place] != sent.0[place];
            assert_eq!((0..256).filter(|&place| hit(&few.0, place)).count(), 8);
            assert!((0..256).all(|place| !hit(&few.0, place) || few.0[place] == many.0[place]));
        }
    }
}
