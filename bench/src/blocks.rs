//! The command `blocks`: the library's reader and writer of the recorder's files beside those in C and in plain Rust.

use std::hint::black_box;
use std::time::Instant;

use crate::arguments::{Arguments, Failure};
use crate::plain::blocks::{CELLS, FILE};
use crate::random::Random;
use crate::turns::{Run, Turns, warm_up};
use crate::{damage, in_c, plain, pugdrel};
use plain::{Code, Degree};

/// Files of a turn.
const FILES: usize = 64;

/// Wrong and unsure cells of the sheets.
const WRONG: usize = 40;
const UNSURE: usize = 60;

pub fn blocks(arguments: Arguments) -> Result<(), Failure> {
    let run = Run::of("blocks", 501, arguments)?;
    let sheets = sheets(&mut run.random());
    warm_up(|| {
        Work::Read.turn(Maker::Library, &sheets);
        Work::Write.turn(Maker::C, &sheets);
    });
    println!("| | library, ns a byte | C, ns a byte | plain, ns a byte | library / C |");
    println!("|{}", "---|".repeat(5));
    for work in [Work::Read, Work::Write] {
        work.print(&work.turns(&sheets, run.rounds));
    }
    run.print_source();
    Ok(())
}

/// A sheet and its file.
struct Sheet {
    number: u16,
    cells: Vec<u8>,
    file: Vec<u8>,
}

fn sheets(random: &mut Random) -> Vec<Sheet> {
    let code = Code::of(Degree::Six);
    let sheet = |_| {
        let number = random.word() as u16;
        let sent = damage::sent(code, random);
        let cells = damage::hit(&sent, WRONG, UNSURE, random);
        let file = plain::blocks::written(number, &cells);
        Sheet {
            number,
            cells,
            file,
        }
    };
    (0..FILES).map(sheet).collect()
}

/// What is timed.
#[derive(Clone, Copy, Debug, PartialEq, Eq)]
enum Maker {
    Library,
    C,
    Plain,
}

impl Maker {
    const ALL: [Maker; 3] = [Maker::Library, Maker::C, Maker::Plain];

    /// Reads a file, as every entry does: the refusal number.
    fn read(self, file: &[u8], cells: &mut [u8], report: &mut [u64]) -> u64 {
        match self {
            Maker::Library => pugdrel::entries::read_blocks(file, cells, report),
            Maker::C => in_c::read_blocks(file, cells, report),
            Maker::Plain => plain::entries::read_blocks(file, cells, report),
        }
    }

    fn write(self, number: u16, cells: &[u8], file: &mut [u8]) -> u64 {
        match self {
            Maker::Library => pugdrel::entries::write_blocks(number, cells, file),
            Maker::C => in_c::write_blocks(number, cells, file),
            Maker::Plain => plain::entries::write_blocks(number, cells, file),
        }
    }
}

#[derive(Clone, Copy)]
enum Work {
    Read,
    Write,
}

impl Work {
    fn name(self) -> &'static str {
        match self {
            Work::Read => "reader",
            Work::Write => "writer",
        }
    }

    /// Seconds of one maker for all sheets.
    fn turn(self, maker: Maker, sheets: &[Sheet]) -> f64 {
        let (mut cells, mut file, mut report) = ([0; CELLS], [0; FILE], [0]);
        let start = Instant::now();
        for sheet in sheets {
            let refusal = match self {
                Work::Read => maker.read(black_box(&sheet.file), &mut cells, &mut report),
                Work::Write => maker.write(sheet.number, black_box(&sheet.cells), &mut file),
            };
            assert_eq!(refusal, 0, "these are not refused");
            black_box((&mut cells, &mut file, &mut report));
        }
        start.elapsed().as_secs_f64()
    }

    fn turns(self, sheets: &[Sheet], rounds: usize) -> Turns<{ Maker::ALL.len() }> {
        Turns::of(Maker::ALL, rounds, |maker| self.turn(maker, sheets))
    }

    fn print(self, turns: &Turns<{ Maker::ALL.len() }>) {
        let [library, c, plain] = turns.nanoseconds(FILES * FILE);
        let library_by_c = turns.first_by(Maker::C as usize);
        println!(
            "| {} | {library:.3} | {c:.3} | {plain:.3} | {library_by_c:.2} |",
            self.name()
        );
    }
}

#[cfg(test)]
mod tests {
    use super::*;

    #[test]
    fn makers_read_and_write_the_same_sheets() {
        for sheet in sheets(&mut Random::new(1)) {
            for maker in Maker::ALL {
                let (mut cells, mut file, mut report) = ([9; CELLS], [9; FILE], [9]);
                assert_eq!(maker.read(&sheet.file, &mut cells, &mut report), 0);
                assert!(cells[..] == sheet.cells && report == [u64::from(sheet.number)]);
                assert_eq!(maker.write(sheet.number, &sheet.cells, &mut file), 0);
                assert!(file[..] == sheet.file, "{maker:?}");
            }
        }
    }

    #[test]
    fn every_turn_takes_time() {
        let sheets = sheets(&mut Random::new(2));
        for work in [Work::Read, Work::Write] {
            let turns = work.turns(&sheets, 3);
            assert!(turns.nanoseconds(1).iter().all(|&time| time > 0.0));
            assert!(turns.first_by(Maker::C as usize) > 0.0);
        }
    }
}
