//! Plots as SVG text: two axes with ticks, lines with markers, and a legend.

mod ruler;

pub use ruler::Scale;
use ruler::{Ruler, Tick};

pub struct Axis {
    pub label: String,
    pub scale: Scale,
}

pub struct Series {
    pub name: String,
    pub points: Vec<(f64, f64)>,
}

pub struct Plot {
    pub title: String,
    pub x: Axis,
    pub y: Axis,
    pub series: Vec<Series>,
    /// What the legend says of a measured 0 where the vertical axis has no place for it: an arrow below the scale stands
    /// for it then. Without this, it is left out.
    pub zero: Option<String>,
    /// The run that the plot comes from.
    pub source: String,
}

const HEIGHT: f64 = 480.0;
const LEFT: f64 = 84.0;
const RIGHT: f64 = 610.0;
const TOP: f64 = 48.0;
const BOTTOM: f64 = 400.0;

/// From the frame to the texts of the legend, and what a character of them takes at most.
const LEGEND: f64 = 52.0;
const CHARACTER: f64 = 8.0;

/// From the arrows of one series to those of the next.
const ARROW_STEP: f64 = 18.0;

/// From one entry of the legend to the next.
const LEGEND_STEP: f64 = 24.0;

/// Colours that can be told apart by readers who do not see all of them.
const COLOURS: [&str; 6] = [
    "#0072b2", "#d55e00", "#009e73", "#cc79a7", "#e69f00", "#56b4e9",
];

/// Lines differ in more than colour, for print and for curves that lie on each other.
const DASHES: [&str; 4] = ["none", "8 3", "3 2", "9 3 2 3"];

const TEXT_COLOUR: &str = "#222222";

impl Axis {
    pub fn linear(label: &str) -> Axis {
        Axis {
            label: label.to_string(),
            scale: Scale::Linear,
        }
    }

    pub fn log(label: &str) -> Axis {
        Axis {
            label: label.to_string(),
            scale: Scale::Log,
        }
    }
}

impl Plot {
    pub fn to_svg(&self) -> String {
        let points = || self.series.iter().flat_map(|series| &series.points);
        let x = Ruler::new(self.x.scale, points().map(|point| point.0), LEFT, RIGHT);
        let floor = BOTTOM - self.band();
        let y = Ruler::new(self.y.scale, points().map(|point| point.1), floor, TOP);
        let width = RIGHT + LEGEND + CHARACTER * self.longest_legend() as f64;
        let mut lines = vec![
            format!(
                r#"<svg xmlns="http://www.w3.org/2000/svg" viewBox="0 0 {width} {HEIGHT}" width="{width}" height="{HEIGHT}" font-family="sans-serif" font-size="13" role="img">"#
            ),
            format!("<title>{}</title>", escaped(&self.title)),
            format!("<desc>{}</desc>", escaped(&self.description())),
            r##"<rect width="100%" height="100%" fill="#ffffff"/>"##.to_string(),
        ];
        lines.extend(grid(&x, &y));
        lines.extend(self.texts());
        for (number, series) in self.series.iter().enumerate() {
            let shown = series.points.iter();
            let shown = shown.filter(|point| x.scale.shows(point.0) && y.scale.shows(point.1));
            let places: Vec<(f64, f64)> = shown
                .map(|point| (x.place(point.0), y.place(point.1)))
                .collect();
            lines.push(curve(&places, number));
            lines.extend(places.iter().map(|&place| marker(place, number)));
        }
        lines.extend(self.zero_arrows(&x));
        lines.extend(self.legend());
        lines.push("</svg>".to_string());
        lines.join("\n") + "\n"
    }

    /// What the plot shows, in words.
    fn description(&self) -> String {
        let names: Vec<&str> = self
            .series
            .iter()
            .map(|series| series.name.as_str())
            .collect();
        format!(
            "{} against {}: {}. From {}.",
            self.y.label,
            self.x.label,
            names.join("; "),
            self.source
        )
    }

    /// The title, the labels of the axes, and the run.
    fn texts(&self) -> [String; 4] {
        let centre = (LEFT + RIGHT) / 2.0;
        let middle = (TOP + BOTTOM) / 2.0;
        let turned = format!(r#" transform="rotate(-90 24 {middle})""#);
        let small = r#" font-size="11""#;
        [
            label(centre, 26.0, "middle", &self.title, r#" font-size="15""#),
            label(centre, BOTTOM + 44.0, "middle", &self.x.label, ""),
            label(24.0, middle, "middle", &self.y.label, &turned),
            label(LEFT, BOTTOM + 68.0, "start", &self.source, small),
        ]
    }

    /// Is this a measured 0 that the vertical axis has no place for?
    fn is_zero(&self, value: f64) -> bool {
        value == 0.0 && !self.y.scale.shows(value)
    }

    /// The numbers of the series with such zeros.
    fn with_zeros(&self) -> Vec<usize> {
        let has_zeros = |number: &usize| {
            let mut points = self.series[*number].points.iter();
            points.any(|point| self.is_zero(point.1))
        };
        (0..self.series.len()).filter(has_zeros).collect()
    }

    /// The text for the arrows, if there are any.
    fn zero_text(&self) -> Option<&str> {
        let zero = self.zero.as_deref();
        zero.filter(|_| !self.with_zeros().is_empty())
    }

    /// The height of the band below the scale that the arrows stand in.
    fn band(&self) -> f64 {
        match self.zero_text() {
            Some(_) => ARROW_STEP * self.with_zeros().len() as f64 + 4.0,
            None => 0.0,
        }
    }

    /// Arrows for zeros in their band; those of one series above those of another.
    fn zero_arrows(&self, x: &Ruler) -> Vec<String> {
        if self.zero_text().is_none() {
            return Vec::new();
        }
        let middle = BOTTOM - self.band() / 2.0;
        let mut lines = vec![label(LEFT - 8.0, middle + 4.5, "end", "none", "")];
        for (above, number) in self.with_zeros().into_iter().enumerate() {
            let tip = BOTTOM - 4.0 - ARROW_STEP * above as f64;
            let points = self.series[number].points.iter();
            let zeros = points.filter(|point| self.is_zero(point.1));
            lines.extend(zeros.map(|point| arrow((x.place(point.0), tip), colour(number))));
        }
        lines
    }

    fn legend(&self) -> Vec<String> {
        let height = |entry: usize| TOP + 14.0 + LEGEND_STEP * entry as f64;
        let text =
            |entry, text: &str| label(RIGHT + LEGEND, height(entry) + 4.5, "start", text, "");
        let mut lines = Vec::new();
        for (number, series) in self.series.iter().enumerate() {
            let at = height(number);
            lines.push(curve(&[(RIGHT + 14.0, at), (RIGHT + 46.0, at)], number));
            lines.push(marker((RIGHT + 30.0, at), number));
            lines.push(text(number, &series.name));
        }
        if let Some(zero) = self.zero_text() {
            let entry = self.series.len();
            lines.push(arrow((RIGHT + 30.0, height(entry) + 6.0), TEXT_COLOUR));
            lines.push(text(entry, zero));
        }
        lines
    }

    fn longest_legend(&self) -> usize {
        let names = self.series.iter().map(|series| series.name.as_str());
        let texts = names.chain(self.zero_text());
        texts.map(|text| text.chars().count()).max().unwrap_or(0)
    }
}

/// The ticks with their labels, and the frame.
fn grid(x: &Ruler, y: &Ruler) -> Vec<String> {
    let mut lines = Vec::new();
    for Tick { place, label: text } in x.ticks() {
        lines.push(grid_line((place, TOP), (place, BOTTOM), text.is_some()));
        let written = text.map(|text| label(place, BOTTOM + 18.0, "middle", &text, ""));
        lines.extend(written);
    }
    for Tick { place, label: text } in y.ticks() {
        lines.push(grid_line((LEFT, place), (RIGHT, place), text.is_some()));
        let written = text.map(|text| label(LEFT - 8.0, place + 4.5, "end", &text, ""));
        lines.extend(written);
    }
    lines.push(format!(
        r##"<rect x="{LEFT}" y="{TOP}" width="{:.1}" height="{:.1}" fill="none" stroke="#444444"/>"##,
        RIGHT - LEFT,
        BOTTOM - TOP
    ));
    lines
}

fn label(x: f64, y: f64, anchor: &str, text: &str, more: &str) -> String {
    format!(
        r##"<text x="{x:.1}" y="{y:.1}" text-anchor="{anchor}" fill="{TEXT_COLOUR}"{more}>{}</text>"##,
        escaped(text)
    )
}

fn grid_line(from: (f64, f64), to: (f64, f64), strong: bool) -> String {
    let colour = if strong { "#cccccc" } else { "#eeeeee" };
    format!(
        r#"<line x1="{:.1}" y1="{:.1}" x2="{:.1}" y2="{:.1}" stroke="{colour}"/>"#,
        from.0, from.1, to.0, to.1
    )
}

fn curve(places: &[(f64, f64)], number: usize) -> String {
    let points: Vec<String> = places
        .iter()
        .map(|(x, y)| format!("{x:.1},{y:.1}"))
        .collect();
    format!(
        r#"<polyline points="{}" fill="none" stroke="{}" stroke-width="1.8" stroke-dasharray="{}"/>"#,
        points.join(" "),
        colour(number),
        DASHES[number % DASHES.len()]
    )
}

/// Shapes differ too, for print without colour; the first is the largest, to be seen behind another on the same place.
fn marker((x, y): (f64, f64), number: usize) -> String {
    let fill = colour(number);
    match number % 4 {
        0 => format!(r#"<circle cx="{x:.1}" cy="{y:.1}" r="4.6" fill="{fill}"/>"#),
        1 => format!(
            r#"<rect x="{:.1}" y="{:.1}" width="6.8" height="6.8" fill="{fill}"/>"#,
            x - 3.4,
            y - 3.4
        ),
        2 => format!(
            r#"<path d="M{x:.1} {:.1}l4.2 7.4h-8.4z" fill="{fill}"/>"#,
            y - 4.6
        ),
        _ => format!(
            r#"<path d="M{x:.1} {:.1}l4.4 4.4l-4.4 4.4l-4.4 -4.4z" fill="{fill}"/>"#,
            y - 4.4
        ),
    }
}

/// An arrow that points down to a place.
fn arrow((x, y): (f64, f64), colour: &str) -> String {
    format!(
        r#"<path d="M{x:.1} {:.1}v9" stroke="{colour}" stroke-width="1.8"/><path d="M{:.1} {:.1}h8l-4 6z" fill="{colour}"/>"#,
        y - 13.0,
        x - 4.0,
        y - 6.0
    )
}

fn colour(number: usize) -> &'static str {
    COLOURS[number % COLOURS.len()]
}

/// Text that holds no mark-up.
pub fn escaped(text: &str) -> String {
    text.replace('&', "&amp;")
        .replace('<', "&lt;")
        .replace('>', "&gt;")
}

#[cfg(test)]
mod tests {
    use super::*;

    fn plot(scale: Scale, points: &[(f64, f64)], zero: Option<&str>) -> Plot {
        let axis = || Axis {
            label: "a < b".to_string(),
            scale,
        };
        Plot {
            title: "none".to_string(),
            x: axis(),
            y: axis(),
            series: vec![Series {
                name: "s & t".to_string(),
                points: points.to_vec(),
            }],
            zero: zero.map(String::from),
            source: "bench".to_string(),
        }
    }

    #[test]
    fn a_plot_of_one_point_or_none_is_still_drawn() {
        for points in [vec![], vec![(1.0, 1.0)]] {
            for scale in [Scale::Linear, Scale::Log] {
                let svg = plot(scale, &points, None).to_svg();
                assert!(svg.contains("a &lt; b") && svg.contains("s &amp; t"));
                assert!(!svg.contains("NaN") && !svg.contains("inf"));
            }
        }
    }

    #[test]
    fn a_zero_on_a_log_axis_is_an_arrow_that_the_legend_explains() {
        let points = [(1.0, 0.1), (2.0, 0.0), (3.0, 0.0)];
        let arrows = |plot: &Plot| plot.to_svg().matches("v9").count();
        let told = plot(Scale::Log, &points, Some("none in 7 bits"));
        assert_eq!(arrows(&told), 2 + 1);
        assert!(told.to_svg().contains("none in 7 bits</text>"));
        assert!(told.to_svg().contains(">none</text>"));
        // Without a text it is left out; without a zero, or with a place for it, the legend says nothing of it.
        assert_eq!(arrows(&plot(Scale::Log, &points, None)), 0);
        for other in [
            plot(Scale::Log, &points[..1], Some("none in 7 bits")),
            plot(Scale::Linear, &points, Some("none in 7 bits")),
        ] {
            assert_eq!(arrows(&other), 0);
            assert!(!other.to_svg().contains("none in"));
        }
    }

    #[test]
    fn the_page_is_as_wide_as_the_legend() {
        let mut wide = plot(Scale::Linear, &[(1.0, 1.0)], None);
        wide.series[0].name = "n".repeat(50);
        assert!(wide.to_svg().contains(r#" width="1062" "#));
    }
}
