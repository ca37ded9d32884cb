//! Rulers: an axis with its range and its ticks.

#[derive(Clone, Copy, Debug, PartialEq, Eq)]
pub enum Scale {
    Linear,
    /// By powers of ten; there is no place for points at 0 or below.
    Log,
}

impl Scale {
    pub fn shows(self, value: f64) -> bool {
        value.is_finite() && (self == Scale::Linear || value > 0.0)
    }

    /// Where a value stands on a straight ruler.
    fn mark(self, value: f64) -> f64 {
        match self {
            Scale::Linear => value,
            Scale::Log => value.log10(),
        }
    }
}

/// 1, 2 or 5 times a power of ten.
#[derive(Clone, Copy)]
struct Step {
    times: f64,
    power: i32,
}

impl Step {
    /// So that there are about six steps from one mark to the other.
    fn between(low: f64, high: f64) -> Step {
        let rough = (high - low) / 6.0;
        let power = rough.log10().floor() as i32;
        let fits = [1.0, 2.0, 5.0]
            .into_iter()
            .map(|times| Step { times, power })
            .find(|step| step.size() >= rough);
        fits.unwrap_or(Step {
            times: 1.0,
            power: power + 1,
        })
    }

    fn size(self) -> f64 {
        self.times * 10f64.powi(self.power)
    }

    /// Digits after the point that a multiple of it needs.
    fn decimals(self) -> usize {
        usize::try_from(-self.power).unwrap_or(0)
    }
}

/// An axis laid out from one place on the page to another. Its ticks are the multiples `first` to `last` of a step, and
/// its ends are the first and the last of them: the step is chosen once, for the ends and for the ticks.
pub struct Ruler {
    pub scale: Scale,
    step: Step,
    first: i64,
    last: i64,
    from: f64,
    to: f64,
}

/// A line across the plot at a place on the page; one without a label is a fine line of a log scale.
pub struct Tick {
    pub place: f64,
    pub label: Option<String>,
}

impl Ruler {
    /// The shortest range of whole steps around the values.
    pub fn new(scale: Scale, values: impl Iterator<Item = f64>, from: f64, to: f64) -> Ruler {
        let marks = values
            .filter(|&value| scale.shows(value))
            .map(|value| scale.mark(value));
        let (low, high) = marks.fold((f64::INFINITY, f64::NEG_INFINITY), |(low, high), mark| {
            (low.min(mark), high.max(mark))
        });
        let (low, high) = if low <= high { (low, high) } else { (0.0, 0.0) };
        // One value alone, or values that differ by rounding only, still make a range.
        let apart = high - low > 1e-9 * low.abs();
        let high = if apart {
            high
        } else {
            low + low.abs().max(1.0)
        };
        let step = match scale {
            Scale::Linear => Step::between(low, high),
            Scale::Log => Step {
                times: 1.0,
                power: 0,
            },
        };
        Ruler {
            scale,
            step,
            first: (low / step.size()).floor() as i64,
            last: (high / step.size()).ceil() as i64,
            from,
            to,
        }
    }

    pub fn place(&self, value: f64) -> f64 {
        self.place_of(self.scale.mark(value) / self.step.size())
    }

    /// Where a number of steps from 0 lies on the page.
    fn place_of(&self, steps: f64) -> f64 {
        let part = (steps - self.first as f64) / (self.last - self.first) as f64;
        self.from + part * (self.to - self.from)
    }

    pub fn ticks(&self) -> Vec<Tick> {
        let labelled = (self.first..=self.last).map(|multiple| Tick {
            place: self.place_of(multiple as f64),
            label: Some(self.label(multiple)),
        });
        let fine = |decade: i64| {
            (2..10).map(move |times| Tick {
                place: self.place_of(decade as f64 + f64::from(times).log10()),
                label: None,
            })
        };
        match self.scale {
            Scale::Linear => labelled.collect(),
            Scale::Log => labelled
                .chain((self.first..self.last).flat_map(fine))
                .collect(),
        }
    }

    fn label(&self, multiple: i64) -> String {
        match self.scale {
            Scale::Linear => {
                let value = multiple as f64 * self.step.size();
                format!("{value:.*}", self.step.decimals())
            }
            // All labels of an axis are written in one way.
            Scale::Log if self.first >= -3 && self.last <= 4 => {
                let decimals = usize::try_from(-multiple).unwrap_or(0);
                format!("{:.decimals$}", 10f64.powi(multiple as i32))
            }
            Scale::Log => format!("1e{multiple}"),
        }
    }
}

#[cfg(test)]
mod tests {
    use super::*;
    use crate::random::Random;

    fn labels(ruler: &Ruler) -> Vec<String> {
        let ticks = ruler.ticks().into_iter();
        ticks.filter_map(|tick| tick.label).collect()
    }

    #[test]
    fn linear_ticks_are_round_and_hold_all_values() {
        let ruler = Ruler::new(Scale::Linear, [0.3, 2.9].into_iter(), 0.0, 100.0);
        assert_eq!(
            labels(&ruler),
            ["0.0", "0.5", "1.0", "1.5", "2.0", "2.5", "3.0"]
        );
        assert!((ruler.place(1.5) - 50.0).abs() < 1e-9);
    }

    #[test]
    fn log_ticks_are_whole_decades() {
        let ruler = Ruler::new(Scale::Log, [0.0, 0.004, 20.0].into_iter(), 0.0, 100.0);
        assert_eq!(labels(&ruler), ["0.001", "0.01", "0.1", "1", "10", "100"]);
        assert!((ruler.place(0.1) - 40.0).abs() < 1e-9);
        assert!(!ruler.scale.shows(0.0));
    }

    #[test]
    fn labels_of_many_decades_are_all_powers() {
        let ruler = Ruler::new(Scale::Log, [2e-5, 0.05].into_iter(), 0.0, 100.0);
        assert_eq!(labels(&ruler), ["1e-5", "1e-4", "1e-3", "1e-2", "1e-1"]);
    }

    /// The step for 0.48 to 3.27 is 0.5, and so the range is 0 to 3.5; the step for 0 to 3.5 would be 1.
    #[test]
    fn the_step_of_the_range_is_that_of_the_ticks() {
        let ruler = Ruler::new(Scale::Linear, [0.48, 3.27].into_iter(), 400.0, 48.0);
        assert_tidy(&ruler, &[0.48, 3.27]);
        assert_eq!(ruler.ticks().last().unwrap().place, 48.0);
    }

    #[test]
    fn every_tick_and_every_value_lies_in_the_frame() {
        let mut random = Random::new(1);
        for _ in 0..20_000 {
            let size = 10f64.powf(12.0 * random.unit() - 6.0);
            let low = size * (2.0 * random.unit() - 1.0);
            let high = low + size * 10f64.powf(-3.0 * random.unit());
            let (from, to) = random.pick(&[(84.0, 610.0), (400.0, 48.0)]);
            let ruler = |scale, values: [f64; 2]| Ruler::new(scale, values.into_iter(), from, to);
            assert_tidy(&ruler(Scale::Linear, [low, high]), &[low, high]);
            let (low, high) = (low.abs(), high.abs().max(low.abs()));
            assert_tidy(&ruler(Scale::Log, [low, high]), &[low, high]);
        }
    }

    #[test]
    fn whole_ranges_and_single_values_are_tidy_too() {
        for low in -12..=12 {
            for high in low..=40 {
                for scale in [1e-3, 0.1, 0.5, 1.0, 20.0] {
                    let values = [low, high].map(|number| scale * f64::from(number));
                    let ruler = Ruler::new(Scale::Linear, values.into_iter(), 84.0, 610.0);
                    assert_tidy(&ruler, &values);
                }
            }
        }
    }

    /// All ticks and values lie between the ends, the ends have labels, and no two labels are the same.
    fn assert_tidy(ruler: &Ruler, values: &[f64]) {
        let (least, most) = (ruler.from.min(ruler.to), ruler.from.max(ruler.to));
        let within = |place: f64| place > least - 1e-6 && place < most + 1e-6;
        let ticks = ruler.ticks();
        assert!(ticks.iter().all(|tick| within(tick.place)), "{values:?}");
        assert!(values.iter().all(|&value| within(ruler.place(value))));
        let labelled = ticks.iter().filter(|tick| tick.label.is_some());
        let places: Vec<f64> = labelled.map(|tick| tick.place).collect();
        let ends = [ruler.from, ruler.to];
        assert!(ends.iter().all(|end| places.contains(end)), "{values:?}");
        let mut labels = labels(ruler);
        let count = labels.len();
        assert!(count >= 2 && (count <= 9 || ruler.scale == Scale::Log));
        labels.sort();
        labels.dedup();
        assert_eq!(labels.len(), count, "{labels:?}");
    }
}
