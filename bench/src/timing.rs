//! The command `timing`: the library beside the two implementations in Rust, in ratios of their times.

pub(crate) mod stopwatch;

use std::fs;
use std::path::{Path, PathBuf};

use crate::arguments::{Arguments, Failure};
use crate::machine::Machine;
use crate::plain::Degree;
use crate::random::Random;
use crate::svg::{Axis, Plot, Scale, Series};
use stopwatch::{Load, Maker, Setting, Stopwatch};

const SETTINGS: [Setting; 12] = [
    Setting::new(Degree::Six, 0, 0, 1),
    Setting::new(Degree::Six, 10, 20, 2),
    Setting::new(Degree::Six, 40, 60, 4),
    Setting::new(Degree::Six, 100, 200, 10),
    Setting::new(Degree::Six, 150, 0, 10),
    Setting::new(Degree::Six, 0, 400, 10),
    Setting::new(Degree::Six, 200, 400, 20),
    Setting::new(Degree::Four, 0, 0, 1),
    Setting::new(Degree::Four, 5, 10, 2),
    Setting::new(Degree::Four, 10, 20, 4),
    Setting::new(Degree::Four, 20, 40, 10),
    Setting::new(Degree::Four, 0, 100, 10),
];

/// Arrays of degree 7, with as many wrong and unsure bits in a line as the first settings have.
const LONG_SETTINGS: [Setting; 7] = [
    Setting::new(Degree::Seven, 0, 0, 1),
    Setting::new(Degree::Seven, 20, 40, 2),
    Setting::new(Degree::Seven, 80, 120, 4),
    Setting::new(Degree::Seven, 200, 400, 10),
    Setting::new(Degree::Seven, 300, 0, 10),
    Setting::new(Degree::Seven, 0, 800, 10),
    Setting::new(Degree::Seven, 400, 800, 20),
];

/// Arrays of each setting.
const ARRAYS: usize = 32;

pub fn timing(mut arguments: Arguments) -> Result<(), Failure> {
    let rounds: usize = arguments.option("rounds", 21)?;
    let seed: u64 = arguments.option("seed", 1)?;
    let plots: PathBuf = arguments.option("plots", default_plots())?;
    arguments.end()?;
    let run = format!("bench timing --rounds {rounds} --seed {seed}");
    let machine = Machine::watch();
    let stopwatch = Stopwatch::new(rounds);
    let mut random = Random::new(seed);
    print_settings(&stopwatch, &mut random);
    fs::create_dir_all(&plots)?;
    for growth in growths() {
        let curves = growth.curves(&stopwatch, &mut random);
        growth.print(&curves);
        fs::write(plots.join(growth.file), growth.plot(&curves, &run).to_svg())?;
    }
    println!("From `{run}`: {}.", machine.text());
    Ok(())
}

/// docs/plots of the repository.
pub fn default_plots() -> PathBuf {
    Path::new(env!("CARGO_MANIFEST_DIR")).join("../docs/plots")
}

fn print_settings(stopwatch: &Stopwatch, random: &mut Random) {
    println!("Ratios of times:");
    println!();
    println!(
        "| degree | wrong | unsure | L | closed | decodings a line \
         | library / fast | library / fast, needed only | plain / library |"
    );
    println!("|{}", "---|".repeat(9));
    for setting in SETTINGS {
        print_setting(setting, stopwatch, random);
    }
    // From a copy of the draws, so that what comes after does not depend on these.
    let mut own_draws = random.clone();
    for setting in LONG_SETTINGS {
        print_setting(setting, stopwatch, &mut own_draws);
    }
    println!();
}

fn print_setting(setting: Setting, stopwatch: &Stopwatch, random: &mut Random) {
    let load = Load::new(setting, ARRAYS, random);
    let reports = stopwatch.reports(Maker::Library, &load);
    let closed = reports.iter().filter(|report| report.closed).count();
    let count: u64 = reports.iter().map(|report| report.count).sum();
    let library_by = |maker| stopwatch.ratio((Maker::Library, &load), (maker, &load));
    println!(
        "| {} | {} | {} | {} | {closed} of {ARRAYS} | {:.2} | {:.2} | {:.2} | {:.0} |",
        setting.degree.number(),
        setting.wrong,
        setting.unsure,
        setting.iterations,
        count as f64 / load.lines() as f64,
        library_by(Maker::FastCounted),
        library_by(Maker::FastNeeded),
        stopwatch.plain_ratio(&load, &load),
    );
}

/// How the time grows along one of the numbers of a setting.
struct Growth {
    file: &'static str,
    title: &'static str,
    along: &'static str,
    unit: &'static str,
    scale: Scale,
    makers: &'static [Maker],
    /// Where the library's time is the unit.
    base: Setting,
    settings: Vec<Setting>,
    /// The number of a setting that grows.
    value: fn(&Setting) -> f64,
}

fn growths() -> [Growth; 3] {
    const FAST: [Maker; 3] = [Maker::Library, Maker::FastCounted, Maker::FastNeeded];
    const ALL: [Maker; 4] = [
        Maker::Library,
        Maker::FastCounted,
        Maker::FastNeeded,
        Maker::Plain,
    ];
    let six = |wrong, unsure, iterations| Setting::new(Degree::Six, wrong, unsure, iterations);
    let wrong = [0, 20, 40, 60, 80, 100, 125, 150, 200, 300];
    let unsure = [0, 40, 80, 120, 160, 200, 250, 300, 350, 400, 500, 600];
    let iterations = [1, 2, 4, 6, 8, 10, 12, 14, 16, 18, 20];
    [
        Growth {
            file: "timing-wrong.svg",
            title: "Degree 6, 60 unsure bits, L = 4",
            along: "wrong bits in the array",
            unit: "time by that of the library without damage",
            scale: Scale::Linear,
            makers: &FAST,
            base: six(0, 0, 4),
            settings: wrong.map(|wrong| six(wrong, 60, 4)).to_vec(),
            value: |setting| setting.wrong as f64,
        },
        Growth {
            file: "timing-unsure.svg",
            title: "Degree 6, 40 wrong bits, L = 4",
            along: "unsure bits in the array",
            unit: "time by that of the library without damage",
            scale: Scale::Linear,
            makers: &FAST,
            base: six(0, 0, 4),
            settings: unsure.map(|unsure| six(40, unsure, 4)).to_vec(),
            value: |setting| setting.unsure as f64,
        },
        Growth {
            file: "timing-iterations.svg",
            title: "Degree 6, 100 wrong and 200 unsure bits",
            along: "iterations L",
            unit: "time by that of the library with L = 1",
            scale: Scale::Log,
            makers: &ALL,
            base: six(100, 200, 1),
            settings: iterations
                .map(|iterations| six(100, 200, iterations))
                .to_vec(),
            value: |setting| setting.iterations as f64,
        },
    ]
}

impl Growth {
    /// For each maker, its times along the settings in the unit.
    fn curves(&self, stopwatch: &Stopwatch, random: &mut Random) -> Vec<Vec<f64>> {
        let base = Load::new(self.base, ARRAYS, random);
        let mut curves = vec![Vec::new(); self.makers.len()];
        for &setting in &self.settings {
            // From the same draws each time, so that the settings differ in what grows and in little else.
            let load = Load::new(setting, ARRAYS, &mut random.clone());
            for (maker, curve) in self.makers.iter().zip(&mut curves) {
                curve.push(match maker {
                    Maker::Plain => stopwatch.plain_ratio(&load, &base),
                    maker => stopwatch.ratio((*maker, &load), (Maker::Library, &base)),
                });
            }
        }
        curves
    }

    fn print(&self, curves: &[Vec<f64>]) {
        println!("{}: {}.", self.title, self.unit);
        println!();
        let names: Vec<&str> = self.makers.iter().map(|maker| maker.name()).collect();
        println!("| {} | {} |", self.along, names.join(" | "));
        println!("|{}", "---|".repeat(1 + names.len()));
        for (at, setting) in self.settings.iter().enumerate() {
            let times: Vec<String> = curves.iter().map(|curve| time_text(curve[at])).collect();
            println!("| {} | {} |", (self.value)(setting), times.join(" | "));
        }
        println!();
    }

    fn plot(&self, curves: &[Vec<f64>], run: &str) -> Plot {
        let series = self.makers.iter().zip(curves).map(|(maker, curve)| Series {
            name: maker.name().to_string(),
            points: self
                .settings
                .iter()
                .map(self.value)
                .zip(curve.iter().copied())
                .collect(),
        });
        Plot {
            title: self.title.to_string(),
            x: Axis::linear(self.along),
            y: Axis {
                label: self.unit.to_string(),
                scale: self.scale,
            },
            series: series.collect(),
            zero: None,
            source: run.to_string(),
        }
    }
}

/// A ratio with as many digits as it is worth.
fn time_text(ratio: f64) -> String {
    if ratio < 100.0 {
        format!("{ratio:.2}")
    } else {
        format!("{ratio:.0}")
    }
}
