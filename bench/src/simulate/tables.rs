//! What the simulation saw, as tables and plots.

use super::capacity::{best_gain, capacity};
use super::{COUNT_ITERATIONS, Point, RATE_ITERATIONS, Seen, Survey, code_rate, sent_decibels};
use crate::svg::{Axis, Plot, Series};

/// The bit error rate at which the paper reads off its noise thresholds.
const TARGET: f64 = 1e-4;

/// Where the bit error rate of curve `which` falls to the target: between two points on a straight line in the logarithm.
fn crossing(points: &[Point], which: usize) -> Option<f64> {
    points.windows(2).find_map(|pair| {
        let [before, after] = [0, 1].map(|at: usize| pair[at].results[which].rate());
        let falls = before > TARGET && after <= TARGET && after > 0.0;
        falls.then(|| {
            let part = (before / TARGET).ln() / (before / after).ln();
            pair[0].decibels + part * (pair[1].decibels - pair[0].decibels)
        })
    })
}

/// A bit error rate; a measured 0 says no more than that none of so many bits was wrong.
fn rate_text(seen: &Seen) -> String {
    if seen.rate() > 0.0 {
        format!("{:.2e}", seen.rate())
    } else {
        none_text(seen)
    }
}

fn none_text(seen: &Seen) -> String {
    format!("none in {} bits", seen.bits)
}

/// `none of 7`, or `2 of 7`.
fn part_text(part: f64, whole: f64) -> String {
    if part > 0.0 {
        format!("{part} of {whole}")
    } else {
        format!("none of {whole}")
    }
}

/// What the thresholds that were tried are worth at a strength of the noise, given as Eb/N0 and as Es/N0 in decibels; the two
/// best are that of the decoder and that of the capacity.
pub fn print_thresholds(
    [decibels, sent_decibels]: [f64; 2],
    thresholds: &[f64],
    results: &[Seen],
    [best, of_capacity]: [f64; 2],
) {
    let bits = |threshold| capacity(sent_decibels, threshold);
    println!(
        "Eb/N0 = {decibels:.2} dB, {} arrays, L = {RATE_ITERATIONS}:",
        results[0].arrays
    );
    println!();
    println!("| T | received wrong | received unsure | bit error rate | capacity |");
    println!("|---|---|---|---|---|");
    for (&threshold, seen) in thresholds.iter().zip(results) {
        println!(
            "| {} | {:.2}% | {:.2}% | {} | {:.4} |",
            threshold_text(threshold),
            100.0 * seen.received_wrong / seen.bits,
            100.0 * seen.received_unsure / seen.bits,
            rate_text(seen),
            bits(threshold)
        );
    }
    println!();
    println!(
        "Of these, T = {} is best for the decoder. The capacity of the channel, in bits for each bit sent, is greatest at \
         T = {}: {:.4} there, {:.4} at T = {} and {:.4} without the mark.",
        threshold_text(best),
        threshold_text(of_capacity),
        bits(of_capacity),
        bits(best),
        threshold_text(best),
        bits(0.0)
    );
    println!();
}

/// With as many digits as there are, three at most.
fn threshold_text(threshold: f64) -> String {
    let text = format!("{threshold:.3}");
    text.strip_suffix('0').unwrap_or(&text).to_string()
}

impl Survey {
    pub fn print_rates(&self) {
        let best = threshold_text(self.best);
        println!("Bits wrong after decoding with L = {RATE_ITERATIONS}, T = 0 and T = {best}:");
        println!();
        println!(
            "| Eb/N0, dB | Es/N0, dB | arrays | received wrong, T = 0 | bit error rate, T = 0 | bit error rate, T = {best} \
             | closed, T = 0 | closed, T = {best} | closed and wrong, both |"
        );
        println!("|{}", "---|".repeat(9));
        for point in &self.points {
            self.print_rate(point);
        }
        println!();
        let points = &self.points;
        if let (Some(hard), Some(marked)) = (crossing(points, 0), crossing(points, 1)) {
            println!(
                "A bit error rate of {TARGET:.0e} is reached at {hard:.2} dB without the mark and at {marked:.2} dB with it: \
                 a gain of {:.2} dB. In capacity, the mark gains {:.2} dB at this rate.",
                hard - marked,
                best_gain(code_rate(self.degree))
            );
            println!();
        }
    }

    fn print_rate(&self, point: &Point) {
        let [hard, marked] = [&point.results[0], &point.results[1]];
        println!(
            "| {:.3} | {:.2} | {} | {:.2}% | {} | {} | {} | {} | {} |",
            point.decibels,
            sent_decibels(self.degree, point.decibels),
            hard.arrays,
            100.0 * hard.received_wrong / hard.bits,
            rate_text(hard),
            rate_text(marked),
            part_text(hard.closed, hard.arrays),
            part_text(marked.closed, marked.arrays),
            part_text(
                hard.false_closed + marked.false_closed,
                hard.closed + marked.closed
            )
        );
    }

    pub fn print_counts(&self) {
        let best = threshold_text(self.best);
        println!("Decodings for each row or column in {COUNT_ITERATIONS} iterations:");
        println!();
        println!(
            "| Eb/N0, dB | all, T = 0 | all, T = {best} | to the first closed, T = 0 | to the first closed, T = {best} |"
        );
        println!("|---|---|---|---|---|");
        for point in &self.points {
            let by_line = |sum: fn(&Seen) -> f64| {
                let results = point.results.iter();
                let numbers = results.map(|seen| sum(seen) / seen.lines(self.degree));
                let texts: Vec<String> = numbers.map(|number| format!("{number:.2}")).collect();
                texts.join(" | ")
            };
            println!(
                "| {:.3} | {} | {} |",
                point.decibels,
                by_line(|seen| seen.decodings),
                by_line(|seen| seen.decodings_to_closed)
            );
        }
        println!();
    }

    pub fn rate_plot(&self) -> Plot {
        let best = threshold_text(self.best);
        let curve = |name: String, value: &dyn Fn(&Point) -> f64| Series {
            name,
            points: self
                .points
                .iter()
                .map(|point| (point.decibels, value(point)))
                .collect(),
        };
        Plot {
            title: format!("Bit error rate, {}, L = {RATE_ITERATIONS}", self.size()),
            x: Axis::linear("Eb/N0, dB"),
            y: Axis::log("bit error rate"),
            series: vec![
                curve("received, T = 0".to_string(), &|point| {
                    point.results[0].received_wrong / point.results[0].bits
                }),
                curve("decoded, T = 0".to_string(), &|point| {
                    point.results[0].rate()
                }),
                curve(format!("decoded, T = {best}"), &|point| {
                    point.results[1].rate()
                }),
            ],
            zero: none_legend(&self.points),
            source: self.run.clone(),
        }
    }

    pub fn count_plot(&self) -> Plot {
        let best = threshold_text(self.best);
        let curve = |name: String, which: usize, sum: fn(&Seen) -> f64| Series {
            name,
            points: self
                .points
                .iter()
                .map(|point| {
                    let seen = &point.results[which];
                    (point.decibels, sum(seen) / seen.lines(self.degree))
                })
                .collect(),
        };
        Plot {
            title: format!(
                "Decodings for each row or column, {}, at most {COUNT_ITERATIONS} iterations",
                self.size()
            ),
            x: Axis::linear("Eb/N0, dB"),
            y: Axis::linear("decodings"),
            series: vec![
                curve("all, T = 0".to_string(), 0, |seen| seen.decodings),
                curve(format!("all, T = {best}"), 1, |seen| seen.decodings),
                curve("to closed, T = 0".to_string(), 0, |seen| {
                    seen.decodings_to_closed
                }),
                curve(format!("to closed, T = {best}"), 1, |seen| {
                    seen.decodings_to_closed
                }),
            ],
            zero: None,
            source: self.run.clone(),
        }
    }

    /// `64 by 64`.
    fn size(&self) -> String {
        let n = self.degree.n();
        format!("{n} by {n}")
    }
}

/// What the arrows of the plot stand for. Points without a wrong bit have run for as many arrays as are allowed, all of
/// them for the same number.
fn none_legend(points: &[Point]) -> Option<String> {
    let results = points.iter().flat_map(|point| &point.results);
    let without = results.filter(|seen| seen.rate() == 0.0);
    let shortest = without.min_by(|a, b| a.bits.total_cmp(&b.bits));
    shortest.map(none_text)
}

#[cfg(test)]
mod tests {
    use super::*;
    use crate::plain::Degree;

    fn seen(wrong: f64) -> Seen {
        Seen {
            bits: 1e6,
            wrong,
            ..Seen::default()
        }
    }

    fn point(decibels: f64, wrong: &[f64]) -> Point {
        Point {
            decibels,
            results: wrong.iter().map(|&wrong| seen(wrong)).collect(),
        }
    }

    #[test]
    fn the_crossing_is_on_the_line_between_two_points() {
        let points = [point(4.0, &[1e4]), point(4.5, &[1e3]), point(5.0, &[10.0])];
        let crossing = crossing(&points, 0).unwrap();
        assert!((crossing - 4.75).abs() < 1e-9);
    }

    #[test]
    fn a_measured_zero_is_none_in_so_many_bits() {
        assert_eq!(rate_text(&seen(0.0)), "none in 1000000 bits");
        assert_eq!(rate_text(&seen(125.0)), "1.25e-4");
        assert_eq!(part_text(0.0, 5.0), "none of 5");
        assert_eq!(part_text(3.0, 5.0), "3 of 5");
    }

    #[test]
    fn thresholds_have_two_or_three_digits() {
        assert_eq!(threshold_text(0.12), "0.12");
        assert_eq!(threshold_text(0.2937), "0.294");
        assert_eq!(threshold_text(0.2), "0.20");
    }

    #[test]
    fn the_plot_of_rates_explains_its_arrows() {
        let svg = |last: &[f64]| {
            let survey = Survey {
                degree: Degree::Seven,
                best: 0.12,
                points: vec![point(4.0, &[1e4, 1e3]), point(4.5, last)],
                run: "a run".to_string(),
            };
            survey.rate_plot().to_svg()
        };
        assert!(!svg(&[1e3, 10.0]).contains("none in"));
        let none = svg(&[1e3, 0.0]);
        assert!(none.contains("none in 1000000 bits</text>") && none.contains("a run</text>"));
        assert!(none.contains("128 by 128"));
    }
}
