//! The marks on cells: what was wrong with a cell, and what became of it.

use crate::plain::UNSURE;

#[derive(Clone, Copy, Debug, PartialEq, Eq)]
pub enum Mark {
    Right,
    /// Received wrong, or left so.
    Wrong,
    /// Received unsure, or left so.
    Unsure,
    /// Right after decoding; it was wrong.
    Mended,
    /// Right after decoding; it was unsure.
    Filled,
}

/// What is seen at a cell beside the one that was sent.
pub fn fault(cell: u8, sent: u8) -> Mark {
    if cell == sent {
        Mark::Right
    } else if cell == UNSURE {
        Mark::Unsure
    } else {
        Mark::Wrong
    }
}

/// What decoding has made of a cell.
pub fn outcome(received: u8, decoded: u8, sent: u8) -> Mark {
    match (fault(received, sent), fault(decoded, sent)) {
        (Mark::Wrong, Mark::Right) => Mark::Mended,
        (Mark::Unsure, Mark::Right) => Mark::Filled,
        (_, after) => after,
    }
}

impl Mark {
    /// A fault is warm and an outcome cool in colour; what has to do with a wrong bit is darker than what has to do with
    /// an unsure one. All are of Okabe and Ito's palette.
    fn colour(self) -> Option<&'static str> {
        match self {
            Mark::Right => None,
            Mark::Wrong => Some("#d55e00"),
            Mark::Unsure => Some("#f0e442"),
            Mark::Mended => Some("#0072b2"),
            Mark::Filled => Some("#56b4e9"),
        }
    }

    /// Marks at these places in cells of this size; nothing for a right cell, or for no place.
    pub fn drawn(self, centres: &[(f64, f64)], size: f64) -> Option<String> {
        let colour = self.colour()?;
        let (shape, paint): (Shape, String) = match self {
            Mark::Right => return None,
            Mark::Wrong => (cross, stroke(colour, 0.32 * size)),
            Mark::Unsure => (disc, filled(colour, 0.12 * size)),
            Mark::Mended => (frame, stroke(colour, 0.28 * size)),
            Mark::Filled => (ring, stroke(colour, 0.28 * size)),
        };
        let path: String = centres.iter().map(|&centre| shape(centre, size)).collect();
        (!path.is_empty()).then(|| format!(r#"<path d="{path}" {paint}/>"#))
    }
}

/// A path around a centre, in a cell of a size.
type Shape = fn((f64, f64), f64) -> String;

fn stroke(colour: &str, width: f64) -> String {
    format!(r#"fill="none" stroke="{colour}" stroke-width="{width:.2}""#)
}

/// With a dark edge: the colour is too near to white to be seen on a light cell.
fn filled(colour: &str, edge: f64) -> String {
    format!(r##"fill="{colour}" stroke="#222222" stroke-width="{edge:.2}""##)
}

fn cross((x, y): (f64, f64), size: f64) -> String {
    let (half, whole) = (0.42 * size, 0.84 * size);
    let (left, top) = (x - half, y - half);
    format!("M{left:.2} {top:.2}l{whole:.2} {whole:.2}m0 -{whole:.2}l-{whole:.2} {whole:.2}")
}

fn frame((x, y): (f64, f64), size: f64) -> String {
    let (half, whole) = (0.36 * size, 0.72 * size);
    let (left, top) = (x - half, y - half);
    format!("M{left:.2} {top:.2}h{whole:.2}v{whole:.2}h-{whole:.2}z")
}

fn disc(centre: (f64, f64), size: f64) -> String {
    circle(centre, 0.44 * size)
}

fn ring(centre: (f64, f64), size: f64) -> String {
    circle(centre, 0.38 * size)
}

fn circle((x, y): (f64, f64), radius: f64) -> String {
    let left = x - radius;
    let across = 2.0 * radius;
    format!(
        "M{left:.2} {y:.2}a{radius:.2} {radius:.2} 0 1 0 {across:.2} 0a{radius:.2} {radius:.2} 0 1 0 -{across:.2} 0z"
    )
}

#[cfg(test)]
mod tests {
    use super::*;

    #[test]
    fn every_outcome_has_its_mark() {
        for sent in [0, 1] {
            let wrong = 1 - sent;
            for (received, decoded, mark) in [
                (sent, sent, Mark::Right),
                (wrong, sent, Mark::Mended),
                (UNSURE, sent, Mark::Filled),
                (sent, wrong, Mark::Wrong),
                (wrong, wrong, Mark::Wrong),
                (UNSURE, wrong, Mark::Wrong),
                (sent, UNSURE, Mark::Unsure),
                (wrong, UNSURE, Mark::Unsure),
                (UNSURE, UNSURE, Mark::Unsure),
            ] {
                assert_eq!(outcome(received, decoded, sent), mark);
            }
            assert_eq!(fault(sent, sent), Mark::Right);
            assert_eq!(fault(wrong, sent), Mark::Wrong);
            assert_eq!(fault(UNSURE, sent), Mark::Unsure);
        }
    }

    #[test]
    fn a_right_cell_has_no_mark() {
        assert_eq!(Mark::Right.drawn(&[(1.0, 1.0)], 6.0), None);
        assert_eq!(Mark::Wrong.drawn(&[], 6.0), None);
        assert!(Mark::Wrong.drawn(&[(1.0, 1.0)], 6.0).is_some());
    }

    /// Lightness from 0, black, to 100, white, by the formula of CIELAB.
    fn lightness(colour: &str) -> f64 {
        let part = |at: usize| {
            let value = u8::from_str_radix(&colour[at..at + 2], 16).unwrap();
            let value = f64::from(value) / 255.0;
            ((value + 0.055) / 1.055).powf(2.4)
        };
        let light = 0.2126 * part(1) + 0.7152 * part(3) + 0.0722 * part(5);
        116.0 * light.cbrt() - 16.0
    }

    #[test]
    fn colours_differ_in_lightness() {
        let marks = [Mark::Mended, Mark::Wrong, Mark::Filled, Mark::Unsure];
        let lights = marks.map(|mark| lightness(mark.colour().unwrap()));
        for pair in lights.windows(2) {
            assert!(pair[1] - pair[0] > 7.0, "{lights:?}");
        }
    }
}
