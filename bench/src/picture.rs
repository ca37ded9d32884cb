//! The command `picture`: a received array and what the library makes of it, side by side as one SVG.
//!
//! Bits are light and dark cells, so that the picture that a sample's message holds is seen; faults and what became of
//! them are coloured marks on the cells. Colours are from Okabe and Ito's palette, differ in lightness, and no two marks
//! have the same shape.

mod marks;

use std::fs;

use crate::arguments::{Arguments, Failure};
use crate::plain::{Degree, UNSURE, text};
use crate::pugdrel::{self, Report};
use crate::svg::escaped;
use marks::{Mark, fault, outcome};

pub fn picture(mut arguments: Arguments) -> Result<(), Failure> {
    let received = arguments.word("the file with the received array")?;
    let sent = arguments.word("the file with the array that was sent")?;
    let output = arguments.word("the file to write")?;
    arguments.end()?;
    let sample = Sample::of(&cells_of(&received)?, &cells_of(&sent)?)?;
    fs::write(output, sample.to_svg())?;
    Ok(())
}

/// The degree and the cells of a file that `sheet` would take.
fn cells_of(path: &str) -> Result<(Degree, Vec<u8>), Failure> {
    let bytes = fs::read(path).map_err(|why| format!("{path}: {why}"))?;
    let cells = text::cells_of(&bytes);
    cells.map_err(|refusal| format!("{path}: refused: {refusal}").into())
}

/// An array as it was sent, as it was received, and as it was decoded.
struct Sample {
    degree: Degree,
    received: Vec<u8>,
    decoded: Vec<u8>,
    report: Report,
    /// What is seen at each cell of the received and of the decoded array.
    faults: Vec<Mark>,
    outcomes: Vec<Mark>,
}

impl Sample {
    /// Decodes as the program `sheet` does: one iteration, and filling words of zero.
    fn of(
        (degree, received): &(Degree, Vec<u8>),
        (sent_degree, sent): &(Degree, Vec<u8>),
    ) -> Result<Sample, Failure> {
        if degree != sent_degree {
            return Err("the two arrays are not of the same degree".into());
        }
        if sent.contains(&UNSURE) {
            return Err("no cell of the array that was sent can be unsure".into());
        }
        let mut decoded = vec![0; received.len()];
        let filling = vec![0; 4 * degree.n()];
        let report = pugdrel::decode(degree.number(), 1, received, &filling, &mut decoded)?;
        let both = received.iter().zip(sent);
        let faults = both.map(|(&cell, &sent)| fault(cell, sent)).collect();
        let all = received.iter().zip(&decoded).zip(sent);
        let outcomes = all.map(|((&before, &after), &sent)| outcome(before, after, sent));
        Ok(Sample {
            degree: *degree,
            outcomes: outcomes.collect(),
            received: received.clone(),
            decoded,
            report,
            faults,
        })
    }

    fn to_svg(&self) -> String {
        let panel_size = CELL * self.degree.n() as f64;
        let width = 2.0 * (MARGIN + panel_size) + GAP;
        let height = TOP + panel_size + LEGEND * LEGEND_LINES + MARGIN;
        let mut lines = vec![
            format!(
                r#"<svg xmlns="http://www.w3.org/2000/svg" viewBox="0 0 {width} {height}" width="{width}" height="{height}" font-family="sans-serif" font-size="14" role="img">"#
            ),
            format!("<title>{}</title>", escaped(&self.title())),
            format!("<desc>{}</desc>", escaped(&self.description())),
            r##"<rect width="100%" height="100%" fill="#ffffff"/>"##.to_string(),
        ];
        for panel in self.panels() {
            lines.extend(panel.lines(self.degree));
        }
        lines.push("</svg>".to_string());
        lines.join("\n") + "\n"
    }

    fn panels(&self) -> [Panel<'_>; 2] {
        let left = MARGIN;
        let right = left + CELL * self.degree.n() as f64 + GAP;
        [
            Panel {
                title: "Received".to_string(),
                left,
                cells: &self.received,
                marks: &self.faults,
                legend: &[
                    (Mark::Right, "right"),
                    (Mark::Wrong, "wrong"),
                    (Mark::Unsure, "unsure"),
                ],
                notes: &[
                    "Ones are dark cells, zeros light ones.",
                    "The check bits around the message are paler.",
                ],
            },
            Panel {
                title: format!("Decoded with one iteration, {}", self.closed()),
                left: right,
                cells: &self.decoded,
                marks: &self.outcomes,
                legend: &[
                    (Mark::Right, "right"),
                    (Mark::Mended, "mended (was wrong)"),
                    (Mark::Filled, "filled (was unsure)"),
                    (Mark::Wrong, "left wrong"),
                    (Mark::Unsure, "left unsure"),
                ],
                notes: &[],
            },
        ]
    }

    fn closed(&self) -> &'static str {
        if self.report.closed {
            "closed"
        } else {
            "not closed"
        }
    }

    fn title(&self) -> String {
        let n = self.degree.n();
        format!("An array of {n} by {n} bits as it was received, and as the library decodes it")
    }

    /// The picture in words.
    fn description(&self) -> String {
        let panels = self.panels().map(|panel| {
            let counts: Vec<String> = panel
                .legend
                .iter()
                .map(|&(mark, name)| format!("{name} {}", panel.count(mark)))
                .collect();
            format!("{}: {}.", panel.title, counts.join(", "))
        });
        let k = self.degree.k();
        format!(
            "Ones are dark and zeros are light cells; the check bits around the message of {k} by {k} bits are paler. {}",
            panels.join(" ")
        )
    }
}

const MARGIN: f64 = 8.0;
const GAP: f64 = 16.0;
const CELL: f64 = 6.0;
/// Where the panels start, below their titles.
const TOP: f64 = 32.0;
/// From one entry of the legend to the next, the size of its marks, and where its texts start.
const LEGEND: f64 = 22.0;
const LEGEND_MARK: f64 = 14.0;
const LEGEND_TEXT: f64 = 40.0;
const LEGEND_LINES: f64 = 5.25;

/// Shades of zeros and ones; check bits are paler than the message.
const ZERO: &str = "#ffffff";
const ONE: &str = "#333333";
const CHECK_ZERO: &str = "#eeeeee";
const CHECK_ONE: &str = "#9a9a9a";
const FRAME: &str = "#222222";

/// One of the two arrays with its legend.
struct Panel<'a> {
    title: String,
    left: f64,
    cells: &'a [u8],
    marks: &'a [Mark],
    legend: &'static [(Mark, &'static str)],
    /// Further lines of the legend.
    notes: &'static [&'static str],
}

impl Panel<'_> {
    fn count(&self, mark: Mark) -> usize {
        self.marks.iter().filter(|&&other| other == mark).count()
    }

    fn lines(&self, degree: Degree) -> Vec<String> {
        let n = degree.n();
        let size = CELL * n as f64;
        let (message, side) = (degree.message_cells(), CELL * degree.k() as f64);
        let start = CELL * message.start as f64;
        let mut lines = vec![
            format!("<g><title>{}</title>", escaped(&self.title)),
            text_at(self.left, TOP - 10.0, &self.title),
            square(self.left, TOP, size, CHECK_ZERO),
            square(self.left + start, TOP + start, side, ZERO),
        ];
        for (shade, in_message) in [(CHECK_ONE, false), (ONE, true)] {
            let ones = |row: usize, column: usize| {
                let inside = message.contains(&row) && message.contains(&column);
                self.cells[n * row + column] == 1 && inside == in_message
            };
            let path = runs(n, self.left, ones);
            lines.push(format!(
                r#"<path d="{path}" fill="{shade}" shape-rendering="crispEdges"/>"#
            ));
        }
        lines.push(outline(self.left + start, TOP + start, side, 1.0));
        lines.push(outline(self.left, TOP, size, 1.0));
        for &(mark, name) in self.legend {
            lines.extend(self.marks_of(mark, name, n));
        }
        lines.extend(self.legend_lines(TOP + size));
        lines.push("</g>".to_string());
        lines
    }

    /// All marks of a kind, with a title for readers who point at one.
    fn marks_of(&self, mark: Mark, name: &str, n: usize) -> Option<String> {
        let places = (0..self.marks.len()).filter(|&place| self.marks[place] == mark);
        let centre = |place: usize| {
            let middle = |number: usize| CELL * (number as f64 + 0.5);
            (self.left + middle(place % n), TOP + middle(place / n))
        };
        let centres: Vec<(f64, f64)> = places.map(centre).collect();
        let drawn = mark.drawn(&centres, CELL)?;
        Some(format!("<g><title>{}</title>{drawn}</g>", escaped(name)))
    }

    fn legend_lines(&self, below: f64) -> Vec<String> {
        let middle = |entry: usize| below + LEGEND * (entry as f64 + 0.75);
        let mut lines = Vec::new();
        for (entry, &(mark, name)) in self.legend.iter().enumerate() {
            lines.extend(self.legend_marks(mark, middle(entry)));
            let text = format!("{name}: {}", self.count(mark));
            lines.push(text_at(self.left + LEGEND_TEXT, middle(entry) + 5.0, &text));
        }
        for (entry, text) in (self.legend.len()..).zip(self.notes) {
            lines.push(text_at(self.left, middle(entry) + 5.0, text));
        }
        lines
    }

    /// A mark on a zero and on a one, as they are in the message; an unsure cell is neither.
    fn legend_marks(&self, mark: Mark, middle: f64) -> Vec<String> {
        let shades: &[&str] = match mark {
            Mark::Unsure => &[ZERO],
            _ => &[ZERO, ONE],
        };
        let mut lines = Vec::new();
        for (cell, shade) in shades.iter().enumerate() {
            let x = self.left + 0.5 + (LEGEND_MARK + 2.0) * cell as f64;
            let top = middle - LEGEND_MARK / 2.0;
            lines.push(square(x, top, LEGEND_MARK, shade));
            lines.push(outline(x, top, LEGEND_MARK, 0.5));
            lines.extend(mark.drawn(&[(x + LEGEND_MARK / 2.0, middle)], LEGEND_MARK));
        }
        lines
    }
}

fn square(x: f64, y: f64, size: f64, fill: &str) -> String {
    format!(r#"<rect x="{x}" y="{y}" width="{size}" height="{size}" fill="{fill}"/>"#)
}

fn outline(x: f64, y: f64, size: f64, width: f64) -> String {
    format!(
        r#"<rect x="{x}" y="{y}" width="{size}" height="{size}" fill="none" stroke="{FRAME}" stroke-width="{width}"/>"#
    )
}

fn text_at(x: f64, y: f64, text: &str) -> String {
    format!(
        r#"<text x="{x}" y="{y}" fill="{FRAME}">{}</text>"#,
        escaped(text)
    )
}

/// The cells that are chosen, as a path of one rectangle for each run of them in a row.
fn runs(n: usize, left: f64, chosen: impl Fn(usize, usize) -> bool) -> String {
    let mut path = String::new();
    for row in 0..n {
        let mut column = 0;
        while column < n {
            let length = (column..n).take_while(|&at| chosen(row, at)).count();
            if length > 0 {
                let (x, y) = (left + CELL * column as f64, TOP + CELL * row as f64);
                let width = CELL * length as f64;
                path += &format!("M{x} {y}h{width}v{CELL}h-{width}z");
            }
            column += length + 1;
        }
    }
    path
}

#[cfg(test)]
mod tests {
    use super::*;
    use std::path::Path;

    fn file(name: &str) -> String {
        let samples = Path::new(env!("CARGO_MANIFEST_DIR")).join("../samples");
        samples.join(name).display().to_string()
    }

    fn sample(name: &str) -> Sample {
        let [received, sent] =
            ["", "-sent"].map(|part| cells_of(&file(&format!("{name}{part}.txt"))));
        Sample::of(&received.unwrap(), &sent.unwrap()).unwrap()
    }

    #[test]
    fn samples_are_mended_as_a_whole() {
        for (name, right, wrong, unsure) in [
            ("degree4", 231, 9, 16),
            ("degree6", 3947, 44, 105),
            ("degree7", 16088, 101, 195),
        ] {
            let sample = sample(name);
            let [received, decoded] = sample.panels().map(|panel| {
                let marks = panel.legend.iter();
                marks
                    .map(|&(mark, _)| panel.count(mark))
                    .collect::<Vec<_>>()
            });
            assert_eq!(received, [right, wrong, unsure], "{name}");
            assert_eq!(decoded, [right, wrong, unsure, 0, 0], "{name}");
            assert!(sample.report.closed);
        }
    }

    #[test]
    fn the_picture_has_its_counts_in_words_and_all_marks() {
        let svg = sample("degree6").to_svg();
        assert!(svg.contains("Received: right 3947, wrong 44, unsure 105."));
        assert!(svg.contains(
            "closed: right 3947, mended (was wrong) 44, filled (was unsure) 105, left wrong 0, left unsure 0.</desc>"
        ));
        for mark in [
            "<title>wrong</title>",
            "<title>unsure</title>",
            "<title>mended (was wrong)</title>",
            "<title>filled (was unsure)</title>",
        ] {
            assert_eq!(svg.matches(mark).count(), 1, "{mark}");
        }
        assert!(!svg.contains("<title>left wrong</title>"));
        assert!(!svg.contains("NaN") && !svg.contains("href") && !svg.contains("url("));
    }

    #[test]
    fn what_decoding_cannot_mend_is_shown() {
        let n = Degree::Four.n();
        let sent = vec![0; n * n];
        let decoded = |received: Vec<u8>, mark: Mark| {
            let sample = Sample::of(&(Degree::Four, received), &(Degree::Four, sent.clone()));
            let sample = sample.unwrap();
            let [_, panel] = sample.panels();
            assert!(panel.title.ends_with("not closed"));
            (panel.count(mark), sample.to_svg())
        };
        let (unsure, svg) = decoded(vec![UNSURE; n * n], Mark::Unsure);
        assert_eq!(unsure, n * n);
        assert!(svg.contains("<title>left unsure</title>"));
        // Three wrong cells in each of three rows and columns: no line can mend them by itself.
        let place = |row: usize, column: usize| (4..7).contains(&row) && (4..7).contains(&column);
        let wrong = (0..n * n).map(|at| u8::from(place(at / n, at % n)));
        let (wrong, svg) = decoded(wrong.collect(), Mark::Wrong);
        assert!(wrong > 0);
        assert!(svg.contains("<title>left wrong</title>"));
    }

    #[test]
    fn arrays_that_do_not_belong_together_are_refused() {
        let array = |degree: Degree, cell: u8| (degree, vec![cell; degree.n() * degree.n()]);
        let refused = |a, b| Sample::of(&a, &b).is_err();
        assert!(refused(array(Degree::Four, 0), array(Degree::Six, 0)));
        assert!(refused(array(Degree::Four, 0), array(Degree::Four, UNSURE)));
        assert!(!refused(
            array(Degree::Four, UNSURE),
            array(Degree::Four, 0)
        ));
        assert!(cells_of(&file("none.txt")).is_err());
        assert!(cells_of(concat!(env!("CARGO_MANIFEST_DIR"), "/Cargo.toml")).is_err());
    }

    #[test]
    fn cells_are_drawn_in_runs() {
        let chosen = |row, column| row == 1 && column != 2;
        let y = TOP + CELL;
        assert_eq!(
            runs(4, 0.0, chosen),
            format!("M0 {y}h12v6h-12zM18 {y}h6v6h-6z")
        );
    }
}
