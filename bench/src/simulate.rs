//! The command `simulate`: a receiver behind additive white Gaussian noise, for arrays of one degree.
//!
//! As in source document 000, a bit x is sent as 1 or -1, noise is added, and a value between -T and T is marked unsure;
//! T = 0 marks none. Two things are seen: how many bits are wrong after decoding, and how many decodings that takes.

mod capacity;
mod tables;

use std::fs;
use std::path::PathBuf;

use crate::arguments::{Arguments, Failure};
use crate::damage;
use crate::plain::{Degree, UNSURE};
use crate::pugdrel::{self, Refusal};
use crate::random::Random;
use crate::timing::default_plots;
use tables::print_thresholds;

/// "For PCs 20 iterations": with these the bit error rate is measured.
const RATE_ITERATIONS: u64 = 20;

/// "20 half-iterations": with these the decodings are counted.
const COUNT_ITERATIONS: u64 = 10;

/// Bits that are sent at most at a point: 6000 arrays of degree 6, 1500 of degree 7.
const MOST_BITS: usize = 6000 * 64 * 64;

/// Thresholds of which the best is taken, beside the one that is best for the capacity.
const THRESHOLDS: [f64; 7] = [0.04, 0.08, 0.12, 0.16, 0.20, 0.24, 0.28];

pub fn simulate(arguments: Arguments) -> Result<(), Failure> {
    let options = Options::of(arguments)?;
    fs::create_dir_all(&options.plots)?;
    let run = options.text();
    println!("From `{run}`.");
    println!();
    let mut link = Link {
        degree: options.degree,
        extent: options.extent,
        random: Random::new(options.seed),
    };
    let best = link.best_threshold(options.probe)?;
    let thresholds = [0.0, best];
    let count = ((options.to - options.from) / options.step).round() as usize;
    let mut points = Vec::new();
    for at in 0..=count {
        let decibels = options.from + at as f64 * options.step;
        eprintln!("Eb/N0 = {decibels:.3} dB");
        points.push(Point {
            decibels,
            results: link.measure(decibels, &thresholds, true)?,
        });
    }
    let survey = Survey {
        degree: options.degree,
        best,
        points,
        run,
    };
    survey.print_rates();
    survey.print_counts();
    fs::write(options.plot("bit-error-rate"), survey.rate_plot().to_svg())?;
    fs::write(options.plot("decodings"), survey.count_plot().to_svg())?;
    Ok(())
}

/// What the command was asked for.
struct Options {
    degree: Degree,
    extent: Extent,
    seed: u64,
    /// The strengths of the noise in decibels: the first, the last, the step between them, and the one at which the threshold
    /// is chosen.
    from: f64,
    to: f64,
    step: f64,
    probe: f64,
    plots: PathBuf,
}

impl Options {
    fn of(mut arguments: Arguments) -> Result<Options, Failure> {
        let number: u64 = arguments.option("degree", Degree::Six.number())?;
        let degree = Degree::named(number).ok_or_else(|| format!("there is no degree {number}"))?;
        let [from, to, probe] = usual_decibels(degree);
        let options = Options {
            degree,
            extent: Extent {
                arrays: arguments.option("arrays", MOST_BITS / (degree.n() * degree.n()))?,
                failures: arguments.option("failures", 100)?,
            },
            seed: arguments.option("seed", 1)?,
            from: arguments.option("from", from)?,
            to: arguments.option("to", to)?,
            step: arguments.option("step", 0.125)?,
            probe: arguments.option("probe", probe)?,
            plots: arguments.option("plots", default_plots())?,
        };
        arguments.end()?;
        if options.extent.arrays == 0 || options.step <= 0.0 {
            return Err("there must be at least one array a point, and a step above 0".into());
        }
        Ok(options)
    }

    /// The command with all that it was asked for.
    fn text(&self) -> String {
        let Options {
            degree,
            extent: Extent { arrays, failures },
            seed,
            from,
            to,
            step,
            probe,
            ..
        } = self;
        format!(
            "bench simulate --degree {} --arrays {arrays} --failures {failures} --seed {seed} \
             --from {from} --to {to} --step {step} --probe {probe}",
            degree.number()
        )
    }

    /// The file of a plot. Those of degree 6 have the plain name.
    fn plot(&self, name: &str) -> PathBuf {
        let file = match self.degree {
            Degree::Six => format!("{name}.svg"),
            other => format!("{name}-degree{}.svg", other.number()),
        };
        self.plots.join(file)
    }
}

/// Where arrays of a degree begin to be decoded, where none fails any more, and a strength of the noise between, at which the
/// threshold is chosen.
fn usual_decibels(degree: Degree) -> [f64; 3] {
    match degree {
        Degree::Four => [2.0, 8.0, 5.0],
        Degree::Six => [2.75, 4.25, 3.25],
        Degree::Seven => [3.375, 4.625, 3.75],
    }
}

/// How long a point is measured: until every threshold has failed on so many arrays, or until so many were sent.
#[derive(Clone, Copy)]
struct Extent {
    arrays: usize,
    failures: usize,
}

impl Extent {
    fn goes_on(self, results: &[Seen]) -> bool {
        let sent = |seen: &Seen| seen.arrays >= self.arrays as f64;
        let failed = |seen: &Seen| seen.failures >= self.failures as f64;
        !results.iter().all(|seen| sent(seen) || failed(seen))
    }
}

/// What was seen of one degree.
struct Survey {
    degree: Degree,
    /// The threshold with the mark.
    best: f64,
    points: Vec<Point>,
    /// The command that it comes from.
    run: String,
}

/// What was seen at one strength of the noise, without the mark and with it.
struct Point {
    decibels: f64,
    results: Vec<Seen>,
}

/// Sums over the arrays of a point, for one threshold.
#[derive(Clone, Default)]
struct Seen {
    bits: f64,
    /// Known bits that are wrong, and unsure ones, before decoding.
    received_wrong: f64,
    received_unsure: f64,
    /// The same after it; an unsure bit is wrong in half of the cases, if it is guessed.
    wrong: f64,
    unsure: f64,
    arrays: f64,
    /// Arrays that are not what was sent.
    failures: f64,
    closed: f64,
    /// Arrays that are closed and yet not what was sent.
    false_closed: f64,
    /// Decodings in all iterations, and in those up to the first that leaves the array closed.
    decodings: f64,
    decodings_to_closed: f64,
}

impl Seen {
    /// The bit error rate after decoding.
    fn rate(&self) -> f64 {
        (self.wrong + self.unsure / 2.0) / self.bits
    }

    /// Rows and columns of all arrays.
    fn lines(&self, degree: Degree) -> f64 {
        self.arrays * 2.0 * degree.n() as f64
    }
}

/// A sender and a receiver of arrays of one degree.
struct Link {
    degree: Degree,
    extent: Extent,
    random: Random,
}

impl Link {
    /// The threshold of those tried with the lowest bit error rate at one strength of the noise.
    fn best_threshold(&mut self, decibels: f64) -> Result<f64, Failure> {
        eprintln!("the threshold, at Eb/N0 = {decibels:.2} dB");
        let of_capacity = capacity::best_threshold(sent_decibels(self.degree, decibels));
        let mut thresholds = THRESHOLDS.to_vec();
        thresholds.push(of_capacity);
        thresholds.sort_by(f64::total_cmp);
        let results = self.measure(decibels, &thresholds, false)?;
        let tried = thresholds.iter().zip(&results);
        let best = tried.min_by(|a, b| a.1.rate().total_cmp(&b.1.rate()));
        let best = best.map_or(0.0, |(&threshold, _)| threshold);
        let noise = [decibels, sent_decibels(self.degree, decibels)];
        print_thresholds(noise, &thresholds, &results, [best, of_capacity]);
        Ok(best)
    }

    /// Sends arrays, and decodes what comes through with each threshold: the same noise for all of them.
    fn measure(
        &mut self,
        decibels: f64,
        thresholds: &[f64],
        counted: bool,
    ) -> Result<Vec<Seen>, Failure> {
        let Link {
            degree,
            extent,
            ref mut random,
        } = *self;
        let (n, k) = (degree.n(), degree.k());
        let deviation = noise_deviation(degree, decibels);
        let mut results = vec![Seen::default(); thresholds.len()];
        let mut sent = vec![0; n * n];
        while extent.goes_on(&results) {
            pugdrel::encode(degree.number(), &random.bits(k * k), &mut sent)?;
            let values: Vec<f64> = sent
                .iter()
                .map(|&bit| 1.0 - 2.0 * f64::from(bit) + deviation * random.normal())
                .collect();
            let filling = damage::any_filling(degree, degree.lines(RATE_ITERATIONS), random);
            for (&threshold, seen) in thresholds.iter().zip(&mut results) {
                let received: Vec<u8> = values
                    .iter()
                    .map(|&value| decide(value, threshold))
                    .collect();
                seen.add_rate(degree, &sent, &received, &filling)?;
                if counted {
                    seen.add_counts(degree, &received, &filling)?;
                }
            }
        }
        Ok(results)
    }
}

impl Seen {
    fn add_rate(
        &mut self,
        degree: Degree,
        sent: &[u8],
        received: &[u8],
        filling: &[u64],
    ) -> Result<(), Refusal> {
        let mut cells = vec![0; sent.len()];
        let number = degree.number();
        let report = pugdrel::decode(number, RATE_ITERATIONS, received, filling, &mut cells)?;
        let unsure = |cells: &[u8]| cells.iter().filter(|&&cell| cell == UNSURE).count() as f64;
        let apart = |cells: &[u8]| cells.iter().zip(sent).filter(|(a, b)| a != b).count() as f64;
        self.arrays += 1.0;
        self.bits += sent.len() as f64;
        self.received_unsure += unsure(received);
        self.received_wrong += apart(received) - unsure(received);
        self.unsure += unsure(&cells);
        self.wrong += apart(&cells) - unsure(&cells);
        self.failures += f64::from(cells != sent);
        self.closed += f64::from(report.closed);
        self.false_closed += f64::from(report.closed && cells != sent);
        Ok(())
    }

    /// The first words of the filling serve fewer iterations just as they serve more, so that what a caller sees who
    /// asks for one iteration more until the array is closed is what one decoding would see that stops there.
    fn add_counts(
        &mut self,
        degree: Degree,
        received: &[u8],
        filling: &[u64],
    ) -> Result<(), Refusal> {
        let mut cells = vec![0; received.len()];
        let mut to_closed = None;
        for iterations in 1..=COUNT_ITERATIONS {
            if to_closed.is_some() && iterations < COUNT_ITERATIONS {
                continue;
            }
            let first = &filling[..2 * degree.lines(iterations)];
            let report = pugdrel::decode(degree.number(), iterations, received, first, &mut cells)?;
            if report.closed || iterations == COUNT_ITERATIONS {
                to_closed.get_or_insert(report.count);
            }
            if iterations == COUNT_ITERATIONS {
                self.decodings += report.count as f64;
            }
        }
        self.decodings_to_closed += to_closed.unwrap_or_default() as f64;
        Ok(())
    }
}

/// The receiver's choice.
fn decide(value: f64, threshold: f64) -> u8 {
    if value.abs() < threshold {
        UNSURE
    } else {
        u8::from(value < 0.0)
    }
}

/// The rate of the code, by which the energy of a message bit is that of a sent bit.
fn code_rate(degree: Degree) -> f64 {
    (degree.k() as f64 / degree.n() as f64).powi(2)
}

/// Es/N0 in decibels for Eb/N0 in decibels.
fn sent_decibels(degree: Degree, decibels: f64) -> f64 {
    decibels + 10.0 * code_rate(degree).log10()
}

/// The variance is half of N0 / Es.
fn noise_deviation(degree: Degree, decibels: f64) -> f64 {
    (0.5 / 10f64.powf(sent_decibels(degree, decibels) / 10.0)).sqrt()
}

#[cfg(test)]
mod tests {
    use super::*;

    #[test]
    fn the_receiver_marks_what_is_near_zero() {
        assert_eq!(
            [1.2, 0.1, -0.1, -0.9].map(|value| decide(value, 0.2)),
            [0, 2, 2, 1]
        );
        assert_eq!([0.0, 0.1, -0.1].map(|value| decide(value, 0.0)), [0, 0, 1]);
    }

    #[test]
    fn the_noise_is_that_of_the_rate() {
        // Es/N0 is Eb/N0 times 51² / 64² at degree 6 and 113² / 128² at degree 7, and the variance at Es/N0 = 1 is 1/2.
        for (degree, loss) in [(Degree::Six, 1.972), (Degree::Seven, 1.083)] {
            assert!((sent_decibels(degree, 0.0) + loss).abs() < 0.001);
            assert!((noise_deviation(degree, loss).powi(2) - 0.5).abs() < 0.001);
        }
    }
}
