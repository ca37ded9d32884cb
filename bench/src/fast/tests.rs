//! The fast decoder beside the plain one.

use super::*;
use crate::damage;
use crate::plain::Code;
use crate::random::Random;

fn compare(degree: Degree, rounds: usize, most_iterations: usize, seed: u64) {
    let mut random = Random::new(seed);
    let (code, fast, n) = (Code::of(degree), Decoder::new(degree), degree.n());
    for _ in 0..rounds {
        let received = damage::received(code, &mut random);
        let iterations = random.between(1, most_iterations);
        let filling = damage::filling(degree, degree.lines(iterations as u64), &mut random);
        let (expected, report) = code.decode(iterations as u64, &received, &filling);
        for effort in [Effort::Counted, Effort::Needed] {
            let mut cells = random.bytes(n * n);
            let answer = fast.decode(effort, iterations as u64, &received, &filling, &mut cells);
            assert_eq!(answer, report, "{effort:?}");
            assert!(cells == expected, "other cells with {effort:?}");
        }
    }
}

#[test]
fn degree_4_agrees_with_the_plain_decoding() {
    compare(Degree::Four, 400, 20, 1);
}

#[test]
fn degree_6_agrees_with_the_plain_decoding() {
    compare(Degree::Six, 40, 3, 2);
}

#[test]
fn degree_7_agrees_with_the_plain_decoding() {
    compare(Degree::Seven, 20, 2, 3);
}
