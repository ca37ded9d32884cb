//! The command `load`: the library's load of a sheet beside those in C and in Rust.

use std::hint::black_box;
use std::time::Instant;

use crate::arguments::{Arguments, Failure};
use crate::plain::Degree;
use crate::random::Random;
use crate::turns::{Run, Turns, warm_up};
use crate::{fast, in_c, pugdrel};

/// Cells of a turn, which are those of four arrays of degree 7.
const CELLS: usize = 4 << 14;

pub fn load(arguments: Arguments) -> Result<(), Failure> {
    let run = Run::of("load", 201, arguments)?;
    let mut random = run.random();
    let first = Sheets::new(Degree::Six, Weight::Light, &mut random);
    warm_up(|| {
        first.turn(Maker::Library);
        first.turn(Maker::C);
    });
    println!(
        "| degree | wrong | unsure | library, ns a cell | C, ns a cell | Rust, ns a cell | encoding of each, ns a cell \
         | library / C | library / Rust |"
    );
    println!("|{}", "---|".repeat(9));
    for degree in Degree::ALL {
        for weight in [Weight::Light, Weight::Heavy] {
            let sheets = Sheets::new(degree, weight, &mut random);
            sheets.print(&sheets.turns(run.rounds));
        }
    }
    run.print_source();
    Ok(())
}

/// How many cells are hit.
#[derive(Clone, Copy)]
enum Weight {
    /// As many as the first seed of the acceptance run hits.
    Light,
    /// All of them.
    Heavy,
}

impl Weight {
    /// Wrong and unsure cells.
    fn hits(self, n: usize) -> (usize, usize) {
        match self {
            Weight::Light => (n / 16, n / 8),
            Weight::Heavy => (n * n / 2, n * n / 2),
        }
    }
}

/// What a turn loads.
struct Sheets {
    degree: Degree,
    wrong: u64,
    unsure: u64,
    /// Seeds, with messages to encode.
    sheets: Vec<(u64, Vec<u8>)>,
}

impl Sheets {
    fn new(degree: Degree, weight: Weight, random: &mut Random) -> Sheets {
        let (n, k) = (degree.n(), degree.k());
        let (wrong, unsure) = weight.hits(n);
        let sheet = |_| (random.word().max(1), random.bits(k * k));
        Sheets {
            degree,
            wrong: wrong as u64,
            unsure: unsure as u64,
            sheets: (0..CELLS / (n * n)).map(sheet).collect(),
        }
    }

    /// Cells to load a sheet into.
    fn room(&self) -> Vec<u8> {
        vec![0; self.degree.n() * self.degree.n()]
    }

    /// Loads one sheet: the refusal number. The others begin with the library's own encoding, so that what is compared is the rest.
    fn load(&self, maker: Maker, seed: u64, message: &[u8], cells: &mut [u8]) -> u64 {
        let (degree, wrong, unsure) = (self.degree.number(), self.wrong, self.unsure);
        let encode = |cells: &mut [u8]| {
            pugdrel::encode(degree, message, cells).expect("these messages are not refused");
        };
        match maker {
            Maker::Library => pugdrel::entries::load(degree, seed, wrong, unsure, message, cells),
            Maker::C => {
                encode(cells);
                in_c::damage(seed, wrong, unsure, cells)
            }
            Maker::Rust => {
                encode(cells);
                fast::load::damage(seed, wrong, unsure, cells)
            }
            Maker::Encoding => {
                encode(cells);
                0
            }
        }
    }

    /// Seconds of one maker for all sheets.
    fn turn(&self, maker: Maker) -> f64 {
        let mut cells = self.room();
        let start = Instant::now();
        for (seed, message) in &self.sheets {
            let refusal = self.load(maker, *seed, black_box(message), &mut cells);
            assert_eq!(refusal, 0, "these are not refused");
            black_box(&mut cells);
        }
        start.elapsed().as_secs_f64()
    }

    fn turns(&self, rounds: usize) -> Turns<{ Maker::ALL.len() }> {
        Turns::of(Maker::ALL, rounds, |maker| self.turn(maker))
    }

    fn print(&self, turns: &Turns<{ Maker::ALL.len() }>) {
        let [library, c, rust, encoding] = turns.nanoseconds(CELLS);
        println!(
            "| {} | {} | {} | {library:.2} | {c:.2} | {rust:.2} | {encoding:.2} | {:.2} | {:.2} |",
            self.degree.number(),
            self.wrong,
            self.unsure,
            turns.first_by(Maker::C as usize),
            turns.first_by(Maker::Rust as usize),
        );
    }
}

/// What is timed.
#[derive(Clone, Copy, Debug, PartialEq, Eq)]
enum Maker {
    Library,
    C,
    Rust,
    /// The part that is the library's in all of them.
    Encoding,
}

impl Maker {
    const ALL: [Maker; 4] = [Maker::Library, Maker::C, Maker::Rust, Maker::Encoding];
}

#[cfg(test)]
mod tests {
    use super::*;
    use crate::plain;

    #[test]
    fn makers_load_the_sheets_of_the_plain_implementation() {
        let mut random = Random::new(1);
        for degree in Degree::ALL {
            for weight in [Weight::Light, Weight::Heavy] {
                let sheets = Sheets::new(degree, weight, &mut random);
                for (seed, message) in sheets.sheets.iter().take(8) {
                    let (degree, wrong, unsure) = (degree.number(), sheets.wrong, sheets.unsure);
                    let mut expected = sheets.room();
                    plain::entries::load(degree, *seed, wrong, unsure, message, &mut expected);
                    for maker in [Maker::Library, Maker::C, Maker::Rust] {
                        let mut cells = sheets.room();
                        assert_eq!(sheets.load(maker, *seed, message, &mut cells), 0);
                        assert!(cells == expected, "{maker:?} at degree {degree}");
                    }
                }
            }
        }
    }

    /// Damage that is refused leaves the cells.
    #[test]
    fn damage_is_refused_by_its_seed_and_its_sum() {
        for damage in [in_c::damage, fast::load::damage] {
            let mut cells = vec![1; 256];
            assert_eq!(damage(0, 257, 0, &mut cells), 8);
            for (wrong, unsure) in [(257, 0), (0, 257), (100, 157), (u64::MAX, 1), (1, u64::MAX)] {
                assert_eq!(damage(1, wrong, unsure, &mut cells), 9);
            }
            assert_eq!(damage(1, 0, 0, &mut vec![1; 65536]), 3);
            assert!(cells.iter().all(|&cell| cell == 1));
            assert_eq!(damage(1, 100, 156, &mut cells), 0);
            assert_eq!(cells.iter().filter(|&&cell| cell == 0).count(), 100);
            assert_eq!(cells.iter().filter(|&&cell| cell == 2).count(), 156);
        }
    }

    #[test]
    fn every_turn_takes_time() {
        let sheets = Sheets::new(Degree::Four, Weight::Light, &mut Random::new(2));
        let turns = sheets.turns(3);
        assert!(turns.nanoseconds(1).iter().all(|&time| time > 0.0));
        assert!(turns.first_by(Maker::C as usize) > 0.0);
    }
}
