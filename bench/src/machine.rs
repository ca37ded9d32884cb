//! What a time was taken on: the processor, its cores, and how busy it was with other work.

use std::time::Instant;
use std::{fs, thread};

/// The kernel counts time on processors in hundredths of a second.
const TICKS: f64 = 100.0;

/// From this part of a core on, other work disturbs what is timed.
const DISTURBS: f64 = 0.1;

/// Watches the machine from when it is made.
pub struct Machine {
    start: Instant,
    /// Ticks of all processors and of this process at the start.
    ticks: Option<(f64, f64)>,
}

impl Machine {
    pub fn watch() -> Machine {
        Machine {
            start: Instant::now(),
            ticks: ticks(),
        }
    }

    /// The processor and how busy it was since, as an end of a sentence.
    pub fn text(&self) -> String {
        let cores = thread::available_parallelism().map_or(1, usize::from);
        let information = fs::read_to_string("/proc/cpuinfo").unwrap_or_default();
        let model = model(&information).unwrap_or("a processor without a name");
        format!("{model}, {cores} cores, {}", load_text(self.other_cores()))
    }

    /// How many cores other work has taken on average.
    fn other_cores(&self) -> Option<f64> {
        let (all, own) = self.ticks?;
        let (all_after, own_after) = ticks()?;
        let other = (all_after - all) - (own_after - own);
        Some(other.max(0.0) / TICKS / self.start.elapsed().as_secs_f64())
    }
}

fn load_text(other_cores: Option<f64>) -> String {
    match other_cores {
        None => "perhaps busy with other work".to_string(),
        Some(cores) if cores < DISTURBS => "a quiet machine".to_string(),
        Some(cores) => format!(
            "on a busy machine (other work took {cores:.1} cores): **to be run again on a quiet one**"
        ),
    }
}

/// Ticks of all processors and of this process.
fn ticks() -> Option<(f64, f64)> {
    let all = busy_ticks(&fs::read_to_string("/proc/stat").ok()?)?;
    let own = own_ticks(&fs::read_to_string("/proc/self/stat").ok()?)?;
    Some((all, own))
}

/// The name of the processor, of the text of `/proc/cpuinfo`.
fn model(information: &str) -> Option<&str> {
    let mut lines = information.lines();
    let line = lines.find(|line| line.starts_with("model name"))?;
    Some(line.split_once(':')?.1.trim())
}

/// Ticks in which a processor was not idle, of the text of `/proc/stat`: user, nice, system, idle, waiting for a disk,
/// two kinds of interrupts, and what other machines on the same processor have taken.
fn busy_ticks(text: &str) -> Option<f64> {
    let line = text.lines().next()?.strip_prefix("cpu ")?;
    let ticks: Option<Vec<f64>> = line
        .split_whitespace()
        .take(8)
        .map(|word| word.parse().ok())
        .collect();
    match ticks?[..] {
        [user, nice, system, _, _, hard, soft, stolen] => {
            Some(user + nice + system + hard + soft + stolen)
        }
        _ => None,
    }
}

/// Ticks of a process, of the text of its `stat`: the words 14 and 15, where the second is a name in brackets that may
/// have spaces.
fn own_ticks(text: &str) -> Option<f64> {
    let after_name = text.rsplit_once(')')?.1;
    let mut words = after_name.split_whitespace().skip(11);
    let user: f64 = words.next()?.parse().ok()?;
    let system: f64 = words.next()?.parse().ok()?;
    Some(user + system)
}

#[cfg(test)]
mod tests {
    use super::*;

    #[test]
    fn texts_of_the_kernel_are_read() {
        let information = "processor\t: 0\nmodel name\t: Some (R) Processor: 3\nmodel name\t: x\n";
        assert_eq!(model(information), Some("Some (R) Processor: 3"));
        assert_eq!(model("processor: 0"), None);
        let stat = "cpu  10 20 30 4000 500 6 7 8 0 0\ncpu0 1 2 3 4 5 6 7 8 0 0\n";
        assert_eq!(busy_ticks(stat), Some(81.0));
        assert_eq!(busy_ticks("cpu  1 2 3\n"), None);
        let own = "42 (a (b) c) R 1 2 3 4 5 6 7 8 9 10 250 50 0 0";
        assert_eq!(own_ticks(own), Some(300.0));
        assert_eq!(own_ticks("42"), None);
    }

    #[test]
    fn a_busy_machine_is_marked() {
        assert_eq!(load_text(Some(0.02)), "a quiet machine");
        assert!(load_text(Some(1.26)).contains("other work took 1.3 cores"));
        assert!(load_text(Some(1.26)).contains("to be run again"));
        assert!(!load_text(None).contains("quiet"));
    }
}
