//! What the mark can gain at best: the capacity of the receiver's channel, by the formula of source document 000.

/// The most that marking bits unsure can gain, in decibels, for a code of this rate: the distance between the strengths of
/// noise at which the capacity is the rate, without the mark and with the best threshold.
pub fn best_gain(rate: f64) -> f64 {
    let hard = where_reached(rate, |decibels| capacity(decibels, 0.0));
    let marked = where_reached(rate, |decibels| {
        capacity(decibels, best_threshold(decibels))
    });
    hard - marked
}

/// The threshold T at which the capacity at this Es/N0 in decibels is greatest, between 0 and 1.
///
/// The capacity rises with T up to there and falls after it, so that of two thresholds the one with the lower capacity
/// bounds the best one.
pub fn best_threshold(decibels: f64) -> f64 {
    let (mut low, mut high) = (0.0, 1.0);
    for _ in 0..40 {
        let third = (high - low) / 3.0;
        if capacity(decibels, low + third) < capacity(decibels, high - third) {
            low += third;
        } else {
            high -= third;
        }
    }
    (low + high) / 2.0
}

/// The capacity at this Es/N0 in decibels, in bits for each bit sent, if values between -T and T are marked.
pub fn capacity(decibels: f64, threshold: f64) -> f64 {
    let scale = (2.0 * 10f64.powf(decibels / 10.0)).sqrt();
    let wrong = normal_tail(scale * (threshold + 1.0));
    let right = normal_tail(scale * (threshold - 1.0));
    let known = wrong + right;
    let part = |share: f64| share * (2.0 * share / known).log2();
    part(right) + if wrong > 0.0 { part(wrong) } else { 0.0 }
}

/// Where a rising function of decibels reaches a value, between -10 and 15.
fn where_reached(value: f64, function: impl Fn(f64) -> f64) -> f64 {
    let (mut low, mut high) = (-10.0, 15.0);
    for _ in 0..40 {
        let middle = (low + high) / 2.0;
        if function(middle) < value {
            low = middle;
        } else {
            high = middle;
        }
    }
    high
}

/// The chance that a normal number of mean 0 and variance 1 is above x, by Simpson's rule.
fn normal_tail(x: f64) -> f64 {
    if x < 0.0 {
        return 1.0 - normal_tail(-x);
    }
    const STEPS: u32 = 400;
    // What lies beyond is below 1e-15.
    let width = 8.0 / f64::from(STEPS);
    let density = |at: f64| (-at * at / 2.0).exp() / (2.0 * std::f64::consts::PI).sqrt();
    let weighted = (0..=STEPS).map(|step| {
        let weight = match step {
            0 | STEPS => 1.0,
            odd if odd % 2 == 1 => 4.0,
            _ => 2.0,
        };
        weight * density(x + f64::from(step) * width)
    });
    weighted.sum::<f64>() * width / 3.0
}

#[cfg(test)]
mod tests {
    use super::*;

    #[test]
    fn tails_of_the_normal_distribution() {
        for (x, tail) in [
            (0.0, 0.5),
            (1.0, 0.158_655_3),
            (1.96, 0.024_997_9),
            (-1.0, 0.841_344_7),
        ] {
            assert!((normal_tail(x) - tail).abs() < 1e-6, "{x}");
        }
    }

    #[test]
    fn without_the_mark_it_is_the_capacity_of_a_binary_symmetric_channel() {
        let wrong = normal_tail(2f64.sqrt());
        let entropy = -wrong * wrong.log2() - (1.0 - wrong) * (1.0 - wrong).log2();
        assert!((capacity(0.0, 0.0) - (1.0 - entropy)).abs() < 1e-9);
        assert!(capacity(20.0, 0.0) > 0.999_999);
    }

    #[test]
    fn the_mark_gains_something_at_every_rate() {
        for rate in [0.3, 0.6, 0.9] {
            let gain = best_gain(rate);
            assert!(gain > 0.3 && gain < 1.2, "{gain}");
        }
    }

    #[test]
    fn the_best_threshold_is_the_best_of_all_on_a_fine_grid() {
        for decibels in [-3.0, 0.0, 0.78, 1.28, 2.28, 5.0] {
            let best = best_threshold(decibels);
            let grid = (0..=200).map(|step| f64::from(step) / 200.0);
            let greatest = grid
                .map(|threshold| capacity(decibels, threshold))
                .fold(0.0, f64::max);
            let found = capacity(decibels, best);
            assert!(found >= greatest && found < greatest + 1e-4, "{decibels}");
            assert!(found > capacity(decibels, 0.0), "{decibels}");
        }
        // The weaker the noise, the fewer values need the mark.
        assert!(best_threshold(2.0) < best_threshold(1.0));
    }
}
