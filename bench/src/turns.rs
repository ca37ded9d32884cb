//! The same work by several makers, timed by turns: what the commands `blocks` and `load` share.

use std::time::{Duration, Instant};

use crate::arguments::{Arguments, Failure};
use crate::machine::Machine;
use crate::random::Random;
use crate::timing::stopwatch::median;

/// What compiled the C: another compiler may make it twice as fast, or half.
const COMPILER: &str = env!("C_COMPILER");

/// Nanoseconds of a second.
const NANO: f64 = 1e9;

/// A run of a command that times by turns.
pub struct Run {
    command: &'static str,
    seed: u64,
    machine: Machine,
    pub rounds: usize,
}

impl Run {
    pub fn of(
        command: &'static str,
        usual_rounds: usize,
        mut arguments: Arguments,
    ) -> Result<Run, Failure> {
        let rounds = arguments.option("rounds", usual_rounds)?;
        let seed = arguments.option("seed", 1)?;
        arguments.end()?;
        if rounds == 0 {
            return Err("there must be at least one round".into());
        }
        Ok(Run {
            command,
            seed,
            machine: Machine::watch(),
            rounds,
        })
    }

    pub fn random(&self) -> Random {
        Random::new(self.seed)
    }

    /// Prints where the figures above come from.
    pub fn print_source(&self) {
        let Run {
            command,
            rounds,
            seed,
            machine,
        } = self;
        println!();
        println!(
            "From `bench {command} --rounds {rounds} --seed {seed}`, C by {COMPILER}: {}.",
            machine.text()
        );
    }
}

/// Works for half a second and forgets how long that took: a processor that was idle is slow at first.
pub fn warm_up(mut work: impl FnMut()) {
    let began = Instant::now();
    while began.elapsed() < Duration::from_millis(500) {
        work();
    }
}

/// Seconds of a turn of each maker, in each round.
pub struct Turns<const MAKERS: usize> {
    rounds: Vec<[f64; MAKERS]>,
}

impl<const MAKERS: usize> Turns<MAKERS> {
    /// The makers take turns, each with all of the work. A turn is to be far shorter than the time for which a busy machine puts a
    /// process aside, so that few are interrupted, and the medians are not moved by those.
    pub fn of<M: Copy>(
        makers: [M; MAKERS],
        rounds: usize,
        mut turn: impl FnMut(M) -> f64,
    ) -> Turns<MAKERS> {
        let round = |_| makers.map(&mut turn);
        Turns {
            rounds: (0..rounds).map(round).collect(),
        }
    }

    /// The median of a turn of each maker, by this many parts, in nanoseconds.
    pub fn nanoseconds(&self, parts: usize) -> [f64; MAKERS] {
        std::array::from_fn(|maker| {
            let turns = self.rounds.iter().map(|turns| turns[maker]);
            NANO * median(turns.collect()) / parts as f64
        })
    }

    /// The median of the first maker's time by that of another.
    pub fn first_by(&self, other: usize) -> f64 {
        let ratios = self.rounds.iter().map(|turns| turns[0] / turns[other]);
        median(ratios.collect())
    }
}

#[cfg(test)]
mod tests {
    use super::*;

    #[test]
    fn medians_are_taken_over_the_rounds() {
        let mut times = [1.0, 2.0, 90.0, 4.0, 3.0, 6.0]
            .map(|time| time / NANO)
            .into_iter();
        let turns = Turns::of([(), ()], 3, |()| times.next().unwrap());
        assert_eq!(turns.nanoseconds(1).map(f64::round), [3.0, 4.0]);
        assert_eq!(turns.first_by(1), 0.5);
    }
}
