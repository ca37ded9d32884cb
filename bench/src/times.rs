//! The command `times`: how long one decoding of degree 6 or 7 by the library takes on this machine, in microseconds.
//!
//! What it prints stands as it is in docs/BENCHMARKS.md.

use crate::arguments::{Arguments, Failure};
use crate::damage::{self, Damage};
use crate::machine::Machine;
use crate::plain::{Code, Degree};
use crate::random::Random;
use crate::timing::stopwatch::{Load, Setting, Stopwatch, median};
use std::time::{Duration, Instant};

const DEGREES: [Degree; 2] = [Degree::Six, Degree::Seven];

/// Wrong and unsure bits in 64 lines, and iterations, of the loads that are always told.
const TOLD: [(usize, usize, u64); 4] = [(0, 0, 1), (0, 0, 4), (40, 60, 4), (100, 200, 10)];

/// Numbers of wrong and of unsure bits in 64 lines of the loads that the worst is looked for in, each with each, beside all
/// kinds of damage of the conformance run.
const WRONG: [usize; 9] = [0, 40, 80, 120, 160, 200, 300, 500, 1000];
const UNSURE: [usize; 9] = [0, 60, 120, 180, 240, 300, 400, 500, 600];

/// Iterations for which the worst is told.
const WORST: [u64; 3] = [1, 4, 20];

pub fn times(mut arguments: Arguments) -> Result<(), Failure> {
    let arrays: usize = arguments.option("arrays", 32)?;
    let rounds: usize = arguments.option("rounds", 25)?;
    let seed: u64 = arguments.option("seed", 1)?;
    arguments.end()?;
    if arrays == 0 || rounds == 0 {
        return Err("there must be at least one array and one round".into());
    }
    let machine = Machine::watch();
    let mut bench = Bench {
        arrays,
        stopwatch: Stopwatch::new(rounds),
        random: Random::new(seed),
    };
    bench.warm_up();
    let tables = DEGREES.map(|degree| Table::of(degree, &mut bench));
    println!(
        "From `bench times --arrays {arrays} --rounds {rounds} --seed {seed}`: {}.",
        machine.text()
    );
    println!();
    tables.iter().for_each(Table::print);
    Ok(())
}

/// What every load of a run is made and timed with.
struct Bench {
    arrays: usize,
    stopwatch: Stopwatch,
    random: Random,
}

impl Bench {
    /// Decodes for a second and forgets how long that took: a processor that was idle is slow at first. The arrays have draws of
    /// their own.
    fn warm_up(&mut self) {
        let began = Instant::now();
        let kind = Kind::in_64_lines(Degree::Six, 40, 60);
        let load = kind.load(Degree::Six, 4, self.arrays, &mut Random::new(1));
        while began.elapsed() < Duration::from_secs(1) {
            self.stopwatch.runs(&load);
        }
    }

    fn times(&mut self, degree: Degree, kind: Kind, iterations: u64) -> Times {
        let load = kind.load(degree, iterations, self.arrays, &mut self.random);
        Times::of(kind.name(), iterations, &self.stopwatch.runs(&load))
    }

    /// The load with the slowest array, of all kinds.
    fn worst(&mut self, degree: Degree, iterations: u64) -> Times {
        let tried = Kind::all(degree)
            .into_iter()
            .map(|kind| self.times(degree, kind, iterations));
        let slowest = tried.max_by(|a, b| a.slowest_array.total_cmp(&b.slowest_array));
        slowest.expect("there are kinds")
    }
}

/// A kind of received arrays.
#[derive(Clone, Copy)]
enum Kind {
    Bits { wrong: usize, unsure: usize },
    Damaged(Damage),
}

impl Kind {
    /// So many wrong and unsure bits in each 64 lines of a degree.
    fn in_64_lines(degree: Degree, wrong: usize, unsure: usize) -> Kind {
        let in_all = |bits: usize| bits * degree.n() / 64;
        Kind::Bits {
            wrong: in_all(wrong),
            unsure: in_all(unsure),
        }
    }

    fn all(degree: Degree) -> Vec<Kind> {
        let bits = WRONG.iter().flat_map(|&wrong| {
            UNSURE
                .iter()
                .map(move |&unsure| Kind::in_64_lines(degree, wrong, unsure))
        });
        bits.chain(Damage::ALL.map(Kind::Damaged)).collect()
    }

    fn name(self) -> String {
        match self {
            Kind::Bits {
                wrong: 0,
                unsure: 0,
            } => "clean".to_string(),
            Kind::Bits { wrong, unsure } => format!("{wrong} wrong, {unsure} unsure"),
            Kind::Damaged(damage) => damage.name().to_string(),
        }
    }

    fn load(self, degree: Degree, iterations: u64, arrays: usize, random: &mut Random) -> Load {
        match self {
            Kind::Bits { wrong, unsure } => Load::new(
                Setting::new(degree, wrong, unsure, iterations),
                arrays,
                random,
            ),
            Kind::Damaged(damage) => {
                let code = Code::of(degree);
                let received =
                    |random: &mut Random| damage.done_to(damage::sent(code, random), code, random);
                Load::of(received, degree, iterations, arrays, random)
            }
        }
    }
}

/// Microseconds of a second.
const MICRO: f64 = 1e6;

/// Times of one load, in microseconds.
struct Times {
    name: String,
    iterations: u64,
    /// Of all runs.
    least: f64,
    median: f64,
    /// The greatest over the arrays of the least time of the array: a decoding does the same each time, so that what is
    /// above the least is other work on the machine.
    slowest_array: f64,
    /// Of all runs.
    slowest_run: f64,
}

impl Times {
    /// From the runs of each array, in seconds.
    fn of(name: String, iterations: u64, runs: &[Vec<f64>]) -> Times {
        let least = |runs: &Vec<f64>| runs.iter().copied().fold(f64::INFINITY, f64::min);
        let all = runs.concat();
        Times {
            name,
            iterations,
            least: MICRO * least(&all),
            slowest_array: MICRO * runs.iter().map(least).fold(0.0, f64::max),
            slowest_run: MICRO * all.iter().copied().fold(0.0, f64::max),
            median: MICRO * median(all),
        }
    }

    fn print(&self, before: &str) {
        println!(
            "| {before}{} | {} | {} | {} | {} | {} |",
            self.name,
            self.iterations,
            time_text(self.least),
            time_text(self.median),
            time_text(self.slowest_array),
            time_text(self.slowest_run)
        );
    }
}

/// The times of one degree.
struct Table {
    degree: Degree,
    told: Vec<Times>,
    worst: Vec<Times>,
}

impl Table {
    fn of(degree: Degree, bench: &mut Bench) -> Table {
        let told = TOLD.iter().map(|&(wrong, unsure, iterations)| {
            let kind = Kind::in_64_lines(degree, wrong, unsure);
            bench.times(degree, kind, iterations)
        });
        Table {
            degree,
            told: told.collect(),
            worst: WORST
                .iter()
                .map(|&iterations| bench.worst(degree, iterations))
                .collect(),
        }
    }

    fn print(&self) {
        println!("| load | L | least, µs | median, µs | slowest array, µs | slowest run, µs |");
        println!("|{}", "---|".repeat(6));
        self.told.iter().for_each(|times| times.print(""));
        let before = format!("worst of {} loads: ", Kind::all(self.degree).len());
        self.worst.iter().for_each(|times| times.print(&before));
        println!();
        self.print_summary();
        println!();
    }

    /// The line for those who read no table.
    fn print_summary(&self) {
        let typical: Vec<String> = self
            .told
            .iter()
            .map(|times| {
                let (name, iterations) = (&times.name, times.iterations);
                format!("{} µs ({name}, L = {iterations})", time_text(times.median))
            })
            .collect();
        let slowest = self
            .worst
            .iter()
            .max_by(|a, b| a.slowest_array.total_cmp(&b.slowest_array));
        let worst = slowest.map_or(String::new(), |times| {
            format!(
                "{} µs ({}, L = {})",
                time_text(times.slowest_array),
                times.name,
                times.iterations
            )
        });
        println!(
            "One decoding of degree {} typically takes {}; the slowest array seen over all loads tried takes {worst}.",
            self.degree.number(),
            typical.join(", ")
        );
    }
}

/// Microseconds with as many digits as they are worth.
fn time_text(microseconds: f64) -> String {
    if microseconds < 100.0 {
        format!("{microseconds:.1}")
    } else {
        format!("{microseconds:.0}")
    }
}

#[cfg(test)]
mod tests {
    use super::*;

    #[test]
    fn an_array_counts_with_its_least_time() {
        let runs = [vec![5e-6, 3e-6, 90e-6], vec![4e-6, 7e-6, 6e-6]];
        let times = Times::of("some".to_string(), 4, &runs);
        let seen = [
            times.least,
            times.median,
            times.slowest_array,
            times.slowest_run,
        ];
        assert_eq!(seen.map(f64::round), [3.0, 6.0, 4.0, 90.0]);
    }

    #[test]
    fn every_kind_is_decoded_and_has_a_name_of_its_own() {
        let mut bench = Bench {
            arrays: 2,
            stopwatch: Stopwatch::new(1),
            random: Random::new(1),
        };
        for degree in DEGREES {
            let mut names: Vec<String> = Vec::new();
            for kind in Kind::all(degree) {
                let times = bench.times(degree, kind, 1);
                assert!(times.least > 0.0 && times.least <= times.slowest_array);
                names.push(times.name);
            }
            names.sort();
            names.dedup();
            assert_eq!(names.len(), WRONG.len() * UNSURE.len() + Damage::ALL.len());
        }
    }
}
