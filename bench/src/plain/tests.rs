//! The examples of document 01, and properties that the sentences of documents 01 and 02 name.

use std::fs;
use std::path::Path;

use super::clauses::Clause;
use super::line::{filled_words, known_differences, replaced};
use super::*;
use crate::damage::{self, Damage};
use crate::random::Random;

/// "G has ones at 0, 4, 6, 7, 8, 15."
const G: [usize; 6] = [0, 4, 6, 7, 8, 15];

/// A line of degree 4: "unnamed cells are 0".
fn line(ones: &[usize], unsure: &[usize]) -> Vec<u8> {
    line_of(Degree::Four, ones, unsure)
}

fn line_of(degree: Degree, ones: &[usize], unsure: &[usize]) -> Vec<u8> {
    let mut cells = vec![0; degree.n()];
    ones.iter().for_each(|&cell| cells[cell] = 1);
    unsure.iter().for_each(|&cell| cells[cell] = UNSURE);
    cells
}

fn four() -> &'static Code {
    Code::of(Degree::Four)
}

#[test]
fn lines_p1_to_p9() {
    let bits = |cells: &[usize]| cells.iter().fold(0, |word, cell| word | 1u64 << cell);
    let zero = Some(line(&[], &[]));
    let g = Some(line(&G, &[]));
    let table = [
        ("P1", line(&[], &[]), 0, zero.clone()),
        ("P2", line(&[0, 4], &[]), 0, zero.clone()),
        ("P3", line(&[0, 4, 6], &[]), 0, None),
        ("P4", line(&[], &[0, 4, 6, 7, 8]), 0, zero.clone()),
        ("P5", line(&[15], &[0, 4, 6, 7, 8]), 0, g.clone()),
        ("P6", line(&[], &G), 0, None),
        ("P7", line(&[0, 4], &[6, 7]), 0, zero),
        ("P8", line(&[0, 4], &[6, 7]), bits(&[6, 7]), g),
        ("P9", line(&[0, 4], &[6, 7]), bits(&[6]), None),
    ];
    for (name, cells, filling, decoded) in table {
        // No cell is the high number's.
        for high in [0, !0, filling, !filling] {
            let filling = [filling, high];
            assert_eq!(four().decode_line(&cells, filling), decoded, "{name}");
        }
    }
}

/// As P7 to P9 at every degree: halfway between all zeros and a codeword of six ones, with two of its ones and two unsure
/// cells, the filling bits of these choose. At degree 7 one of the two is the high number's.
#[test]
fn filling_bits_choose_between_two_codewords() {
    let bits = |cells: [usize; 2]| {
        let word = cells.iter().fold(0, |word, cell| word | 1u128 << cell);
        [word as u64, (word >> 64) as u64]
    };
    for (degree, [a, b, c, d, e, f]) in [
        (Degree::Four, G),
        (Degree::Six, [0, 57, 3, 22, 1, 63]),
        (Degree::Seven, [0, 80, 2, 69, 1, 127]),
    ] {
        let code = Code::of(degree);
        let zero = line_of(degree, &[], &[]);
        let ones = line_of(degree, &[a, b, c, d, e, f], &[]);
        assert!(code.is_codeword(&ones));
        let half = line_of(degree, &[a, b], &[c, d]);
        let [low, high] = bits([c, d]);
        for (filling, decoded) in [
            ([0, 0], Some(zero.clone())),
            ([low, high], Some(ones.clone())),
            ([!0, !0], Some(ones)),
            ([high, low], Some(zero)),
            (bits([c, c]), None),
            (bits([d, d]), None),
        ] {
            assert_eq!(code.decode_line(&half, filling), decoded, "{degree:?}");
        }
    }
}

#[test]
fn messages_p10_to_p14() {
    let p3 = line(&[0, 4, 6], &[]);
    let p4 = line(&[], &[0, 4, 6, 7, 8]);
    let p14 = line(&[4, 6, 7, 8, 15], &[0, 1, 2, 3, 5, 9]);
    let channel = |incoming: &[u8], at: usize, cell: u8| replaced(incoming, at, cell);
    let p10 = line(&[0, 4], &[]);
    let table = [
        ("P10", p10.clone(), channel(&p10, 6, 1), line(&[6], &[]), 2),
        ("P11", p3.clone(), channel(&p3, 6, 0), line(&[0, 4], &[]), 2),
        (
            "P12",
            p3.clone(),
            channel(&p3, 6, UNSURE),
            line(&[0, 4], &[]),
            3,
        ),
        (
            "P13",
            p4.clone(),
            channel(&p4, 15, UNSURE),
            line(&[], &[15]),
            2,
        ),
        (
            "P14",
            p14.clone(),
            channel(&p14, 0, 0),
            replaced(&p14, 0, 1),
            2,
        ),
    ];
    for (name, incoming, channel, messages, count) in table {
        let said = four().messages(&incoming, &channel, [0, 0]);
        assert_eq!(said, messages, "{name}");
        let counted = four().line_count(&incoming, &channel, [0, 0]);
        assert_eq!(counted, count, "{name}");
    }
}

#[test]
fn the_printed_example() {
    let zeros = "0000000000000000\n";
    let input = format!("4\n1000100000000000\n{}", zeros.repeat(15));
    let printed = format!("0 64 0 1\n{}", zeros.repeat(16));
    assert_eq!(text::printed(input.as_bytes()), printed.as_bytes());
}

#[test]
fn samples_are_printed_as_stored() {
    let samples = Path::new(env!("CARGO_MANIFEST_DIR")).join("../samples");
    for name in ["degree4", "degree6", "degree6-rows-off", "degree7"] {
        let file = |part: &str| fs::read(samples.join(format!("{name}{part}.txt"))).unwrap();
        assert!(text::printed(&file("")) == file("-printed"), "{name}");
    }
}

#[test]
fn g_is_a_codeword_of_least_weight() {
    assert!(four().is_codeword(&line(&G, &[])));
    let is_codeword = |bits: &u32| {
        let word: Vec<u8> = (0..16).map(|cell| (bits >> cell & 1) as u8).collect();
        four().is_codeword(&word)
    };
    let weights = (1..1u32 << 16).filter(is_codeword).map(u32::count_ones);
    assert_eq!(weights.min(), Some(6));
}

#[test]
fn powers_go_through_every_element_and_return_to_one() {
    for degree in Degree::ALL {
        let order = degree.n() - 1;
        let mut powers: Vec<u16> = (0..order).map(|i| degree.power(i)).collect();
        assert_eq!(degree.power(order), 1);
        powers.sort_unstable();
        assert!(powers.into_iter().eq(1..=order as u16));
    }
}

#[test]
fn message_lengths_are_7_51_and_113() {
    assert_eq!(Degree::ALL.map(Degree::k), [7, 51, 113]);
    assert_eq!(Degree::ALL.map(Degree::n), [16, 64, 128]);
    assert_eq!(Degree::ALL.map(Degree::place), [0, 1, 2]);
}

#[test]
fn an_encoded_array_holds_its_message_and_is_closed() {
    let mut random = Random::new(3);
    for degree in Degree::ALL {
        let code = Code::of(degree);
        for _ in 0..20 {
            let message = random.bits(degree.k() * degree.k());
            let cells = code.encode(&message);
            assert_eq!(code.extract(&cells), message);
            assert!(code.is_closed(&cells));
        }
    }
}

/// Arrays that fail one of the three tests of closed alone.
#[test]
fn closed_asks_for_rows_columns_and_known_cells() {
    let mut random = Random::new(9);
    for degree in Degree::ALL {
        let code = Code::of(degree);
        for _ in 0..20 {
            let mut made = |damage: Damage| {
                let sent = damage::sent(code, &mut random);
                damage.done_to(sent, code, &mut random)
            };
            let rows_off = made(Damage::RowsOff);
            assert!(code.has_codewords(&rows_off, Half::Columns));
            assert_eq!(
                code.is_closed(&rows_off),
                code.has_codewords(&rows_off, Half::Rows)
            );
            let columns_off = made(Damage::ColumnsOff);
            assert!(code.has_codewords(&columns_off, Half::Rows));
            assert_eq!(
                code.is_closed(&columns_off),
                code.has_codewords(&columns_off, Half::Columns)
            );
            let unsure: Vec<u8> = made(Damage::UnsureLeft);
            let ones: Vec<u8> = unsure.iter().map(|&cell| cell % UNSURE).collect();
            assert!(code.is_closed(&ones));
            assert_eq!(code.is_closed(&unsure), erasures(&unsure) == 0);
        }
    }
}

#[test]
fn encoding_is_linear() {
    let mut random = Random::new(4);
    let sum = |a: &[u8], b: &[u8]| a.iter().zip(b).map(|(a, b)| a ^ b).collect::<Vec<u8>>();
    for degree in Degree::ALL {
        let code = Code::of(degree);
        let messages = [0, 1].map(|_| random.bits(degree.k() * degree.k()));
        let arrays = [0, 1].map(|at: usize| code.encode(&messages[at]));
        assert_eq!(
            code.encode(&sum(&messages[0], &messages[1])),
            sum(&arrays[0], &arrays[1])
        );
    }
}

/// "Checks on checks are equal whether rows or columns are worked first": the array of the transposed message is the
/// transposed array.
#[test]
fn rows_or_columns_first_is_the_same() {
    let mut random = Random::new(5);
    let transposed = |cells: &[u8], n: usize| -> Vec<u8> {
        (0..n * n)
            .map(|place| cells[place % n * n + place / n])
            .collect()
    };
    for degree in Degree::ALL {
        let (code, n, k) = (Code::of(degree), degree.n(), degree.k());
        let message = random.bits(k * k);
        assert_eq!(
            code.encode(&transposed(&message, k)),
            transposed(&code.encode(&message), n)
        );
    }
}

/// "If twice the wrong known cells plus the unsure ones is below 6, the sent codeword comes out under every filling."
#[test]
fn a_line_within_the_condition_comes_out_as_sent() {
    let mut random = Random::new(6);
    for degree in Degree::ALL {
        let (code, n) = (Code::of(degree), degree.n());
        for _ in 0..2000 {
            let mut sent = random.bits(n);
            code.encode_line(&mut sent);
            assert!(code.is_codeword(&sent));
            let wrong = random.below(3);
            let unsure = random.below(TOO_MANY - 2 * wrong);
            let places = random.places(wrong + unsure, n);
            let mut line = sent.clone();
            places[..wrong].iter().for_each(|&cell| line[cell] ^= 1);
            places[wrong..].iter().for_each(|&cell| line[cell] = UNSURE);
            let filling = [random.word(), random.word()];
            assert_eq!(code.decode_line(&line, filling), Some(sent));
        }
    }
}

/// What each clause says the message is, beside one decoding per cell.
#[test]
fn every_clause_gives_the_message_of_the_definition() {
    let mut random = Random::new(7);
    let mut seen = Vec::new();
    for degree in Degree::ALL {
        let (code, n) = (Code::of(degree), degree.n());
        for _ in 0..3000 {
            let (incoming, channel) = damaged_pair(code, &mut random);
            let filling = [random.word(), random.word()];
            let clauses = code.clauses(&incoming, &channel, filling);
            let own = code.decode_line(&incoming, filling);
            let codewords =
                filled_words(&incoming, filling).map(|word| code.bounded_distance(&word));
            for (k, &clause) in clauses.iter().enumerate().take(n) {
                let line = replaced(&incoming, k, channel[k]);
                let line_words = filled_words(&line, filling);
                let reached = [0, 1].map(|side: usize| {
                    let codeword = codewords[side].as_ref()?;
                    let apart = codeword
                        .iter()
                        .zip(&line_words[side])
                        .filter(|(a, b)| a != b);
                    (apart.count() <= RADIUS).then_some(codeword)
                });
                let said = match (clause, reached) {
                    (Clause::Equal, _) => own.as_ref().map_or(incoming[k], |word| word[k]),
                    (Clause::Crowded, _) => UNSURE,
                    (Clause::Both, [Some(one), Some(two)]) => {
                        let two_is_nearer =
                            known_differences(&line, two) < known_differences(&line, one);
                        if two_is_nearer { two[k] } else { one[k] }
                    }
                    (Clause::Neither | Clause::Channel, _) => channel[k],
                    (
                        Clause::Agreeing | Clause::Unchanged,
                        [Some(word), None] | [None, Some(word)],
                    ) => word[k],
                    (Clause::Open | Clause::Afresh, _) => continue,
                    (clause, reached) => panic!("{clause:?} with {reached:?}"),
                };
                assert_eq!(
                    said,
                    code.message(&incoming, &channel, filling, k),
                    "{clause:?}"
                );
                if !seen.contains(&clause) {
                    seen.push(clause);
                }
            }
        }
    }
    assert_eq!(seen.len(), 7, "clauses seen: {seen:?}");
}

/// Two damaged copies of one codeword.
fn damaged_pair(code: &Code, random: &mut Random) -> (Vec<u8>, Vec<u8>) {
    let mut sent = random.bits(code.n());
    code.encode_line(&mut sent);
    let mut damaged = || {
        let mut line = sent.clone();
        let (wrong, unsure) = (random.below(5), random.below(8));
        let places = random.places(wrong + unsure, code.n());
        places[..wrong].iter().for_each(|&cell| line[cell] ^= 1);
        places[wrong..].iter().for_each(|&cell| line[cell] = UNSURE);
        line
    };
    (damaged(), damaged())
}

/// The last sentence of demand 3.
#[test]
fn the_row_condition_finds_the_sent_array() {
    let mut random = Random::new(8);
    for (degree, rounds) in Degree::ALL.into_iter().zip([50, 5, 2]) {
        let code = Code::of(degree);
        for _ in 0..rounds {
            let sent = damage::sent(code, &mut random);
            let received = damage::within_condition(&sent, code.n(), &mut random);
            assert!(code.meets_row_condition(&sent, &received));
            let iterations = random.between(1, 3) as u64;
            let lines = degree.lines(iterations);
            let filling = damage::any_filling(degree, lines, &mut random);
            let (cells, report) = code.decode(iterations, &received, &filling);
            assert_eq!(cells, sent);
            assert!(report.closed);
            assert_eq!(report.erasures, 0);
            assert!(report.count <= (lines * (code.n() + 2)) as u64);
        }
    }
}

#[test]
fn tests_run_in_number_order() {
    use super::entries::*;
    let filled = vec![7u64; 64];
    let (good, bad) = (vec![0u8; 256], vec![3u8; 256]);
    let mut cells = vec![9u8; 256];
    let mut call = |degree, iterations, received: &[u8], long: usize, report: &mut [u64]| {
        let refusal = decode(
            degree,
            iterations,
            received,
            &filled,
            &mut cells[..long],
            report,
        );
        (refusal, cells.iter().all(|&cell| cell == 9))
    };
    let mut report = [5; 3];
    assert_eq!(call(5, 0, &bad, 255, &mut report), (1, true));
    assert_eq!(report, [0; 3]);
    assert_eq!(call(4, 0, &bad, 255, &mut report), (2, true));
    assert_eq!(call(4, 21, &bad, 255, &mut report), (2, true));
    assert_eq!(call(4, 1, &bad, 255, &mut report), (3, true));
    assert_eq!(call(4, 1, &bad, 256, &mut report), (4, true));
    assert_eq!(call(4, 1, &bad, 256, &mut [5; 2]), (3, true));
    // One number for each filling word, or two for each of twice as many.
    assert_eq!(call(4, 2, &bad, 256, &mut report), (3, true));
    assert_eq!(call(4, 1, &good, 256, &mut report), (0, false));
    assert_eq!(report, [64, 0, 1]);
}

#[test]
fn an_index_of_n_is_3_and_comes_before_the_cells() {
    use super::entries::row;
    let mut report = [5; 2];
    assert_eq!(row(4, &[3; 256], 16, &mut report), 3);
    assert_eq!(row(4, &[3; 256], 15, &mut report), 4);
    assert_eq!(report, [0, 0]);
    assert_eq!(row(4, &[2; 256], 15, &mut report), 0);
    assert_eq!(report, [240, 16]);
}

#[test]
fn malformed_texts() {
    let line = "0000000000000000\n";
    let good = format!("4\n{}", line.repeat(16));
    let text = |input: &str| String::from_utf8(text::printed(input.as_bytes())).unwrap();
    assert!(text(&good).starts_with("0 64 0 1\n"));
    for input in [
        "", "4", "7", "\n", "04\n", "4\r\n", "5\n", "8\n", "44\n", " 4\n",
    ] {
        assert_eq!(text(input), "1 0 0 0\n", "{input:?}");
    }
    for input in ["4\n", "6\n", "7\n"] {
        assert_eq!(text(input), "3 0 0 0\n", "{input:?}");
    }
    assert_eq!(text(&format!("{good}\n")), "3 0 0 0\n");
    assert_eq!(text(&good[..good.len() - 1]), "3 0 0 0\n");
    assert_eq!(text(&good.replacen("0\n0", "00\n", 1)), "3 0 0 0\n");
    assert_eq!(text(&good.replacen('0', "2", 1)), "4 0 0 0\n");
    assert_eq!(text(&good.replacen("0\n0", "x\n0", 1)), "4 0 0 0\n");
    assert_eq!(text(&good.replacen("\n0", "\r0", 2)), "1 0 0 0\n");
}

/// A sheet of zeros with the number 0x0102, by hand: block 0 has bytes 0, 6, 1, 2 and then zeros, so that A goes 0, 6, 7, 9 and
/// stays, and B is 0 + 6 + 7 + 9 + 506 * 9 = 4576, which is 241.
#[test]
fn a_sheet_of_zeros_has_known_sums() {
    let file = blocks::written(0x0102, &[0; 4096]);
    for (number, block) in file.chunks(512).enumerate() {
        assert_eq!(block[..4], [number as u8, 6, 1, 2]);
        assert!(block[4..510].iter().all(|&byte| byte == 0));
        assert_eq!(block[510..], [9 + number as u8, 241]);
    }
    assert_eq!(blocks::read(&file), Ok((0x0102, vec![0; 4096])));
}

/// The row, the column and the value of the only cell that is not 0; the byte of the file that is then not 0, and its value.
#[test]
fn a_cell_has_its_place_in_a_file() {
    for (row, column, cell, place, byte) in [
        (0, 0, 1, 4, 1),
        (0, 1, 2, 4, 8),
        (0, 63, 2, 19, 128),
        (30, 63, 1, 499, 64),
        (31, 0, 1, 512 + 4, 1),
        (40, 7, 2, 512 + 149, 128),
        (62, 0, 2, 1024 + 4, 2),
        (63, 63, 1, 1024 + 35, 64),
    ] {
        let mut cells = vec![0; 4096];
        cells[64 * row + column] = cell;
        let file = blocks::written(0, &cells);
        let held = |&place: &usize| (4..510).contains(&(place % 512)) && file[place] != 0;
        assert_eq!((0..1536).filter(held).collect::<Vec<_>>(), [place]);
        assert_eq!(file[place], byte);
        assert_eq!(blocks::read(&file), Ok((0, cells)));
    }
}

#[test]
fn a_file_is_read_as_it_was_written() {
    let mut random = Random::new(10);
    for number in [0, 1, 255, 256, 0x1234, u16::MAX] {
        let cells: Vec<u8> = (0..4096).map(|_| random.below(3) as u8).collect();
        let file = blocks::written(number, &cells);
        assert_eq!(blocks::read(&file), Ok((number, cells)));
    }
}

#[test]
fn the_recording_holds_the_sample() {
    let samples = Path::new(env!("CARGO_MANIFEST_DIR")).join("../samples");
    let recording = fs::read(samples.join("degree6.blocks")).unwrap();
    let (degree, cells) = text::cells_of(&fs::read(samples.join("degree6.txt")).unwrap()).unwrap();
    assert_eq!(degree, Degree::Six);
    assert!(blocks::written(0x1234, &cells) == recording);
    assert!(blocks::read(&recording) == Ok((0x1234, cells)));
}

/// A block, one of its bytes and the value that it takes, and whether the block's sums are then made right.
type Change = (usize, usize, u8, bool);

/// The refusal of a file with these changes.
fn refusal_of(mut file: Vec<u8>, changes: &[Change]) -> u64 {
    for &(number, byte, value, right) in changes {
        let block = &mut file[512 * number..][..512];
        block[byte] = value;
        if right {
            blocks::make_sums(block);
        }
    }
    blocks::read(&file).map_or_else(|refusal| refusal, |_| 0)
}

/// The sums of block 0 are 0 and 6 with the number 0xf900.
#[test]
fn files_are_refused_by_the_first_test_over_all_blocks() {
    let good = blocks::written(0xf900, &[0; 4096]);
    assert_eq!(good[510..512], [0, 6]);
    for length in [0, 512, 1024, 1535, 1537, 2048] {
        let mut other = good.clone();
        other.resize(length, 0);
        assert_eq!(blocks::read(&other), Err(5));
    }
    let table: [(u64, &[Change]); 18] = [
        (5, &[(0, 0, 1, true), (1, 0, 0, true)]),
        (5, &[(2, 0, 3, true)]),
        (5, &[(0, 1, 4, true)]),
        (5, &[(1, 2, 0, true)]),
        (5, &[(2, 3, 1, true)]),
        (6, &[(0, 510, 255, false)]),
        (6, &[(1, 511, 0, false)]),
        (6, &[(1, 77, 1, false), (1, 78, 254, false)]),
        (7, &[(0, 4, 3, true)]),
        (7, &[(2, 35, 192, true)]),
        (7, &[(0, 500, 1, true)]),
        (7, &[(2, 36, 1, true)]),
        (7, &[(2, 509, 128, true)]),
        (7, &[(0, 505, 255, false)]),
        (0, &[(0, 499, 128, true)]),
        (6, &[(0, 4, 3, true), (2, 510, 0, false)]),
        (5, &[(0, 510, 1, false), (2, 1, 5, true)]),
        (5, &[(0, 500, 1, true), (1, 3, 7, true)]),
    ];
    for (refusal, changes) in table {
        assert_eq!(refusal_of(good.clone(), changes), refusal, "{changes:?}");
    }
}

#[test]
fn lengths_of_lent_slices_come_before_the_file() {
    use super::entries::{read_blocks, write_blocks};
    let (mut cells, mut report) = (vec![9; 4096], [5]);
    assert_eq!(read_blocks(&[], &mut cells[1..], &mut report), 3);
    assert_eq!(read_blocks(&[], &mut cells, &mut [5; 2]), 3);
    assert_eq!(read_blocks(&[], &mut cells, &mut report), 5);
    assert!(report == [0] && cells.iter().all(|&cell| cell == 9));
    let mut file = vec![9; 1536];
    assert_eq!(write_blocks(1, &[3; 4096], &mut file[1..]), 3);
    assert_eq!(write_blocks(1, &[3; 4095], &mut file), 3);
    assert_eq!(write_blocks(1, &[3; 4096], &mut file), 4);
    assert!(file.iter().all(|&byte| byte == 9));
    assert_eq!(write_blocks(1, &[2; 4096], &mut file), 0);
    assert_eq!(read_blocks(&file, &mut cells, &mut report), 0);
    assert!(report == [1] && cells == [2; 4096]);
}

/// The first draw of seed 1 by hand: s goes to 0x2001, 0x2041 and 0x40822041, to which w is added. The others are of a program in
/// another language.
#[test]
fn draws_are_known() {
    let first = 0x4082_2041 + 0x9E37_79B9_7F4A_7C15;
    for (seed, drawn, thousandth) in [
        (1, [first, 0x4c6f34790a960c6b], 0xa73e9fbf03e7ea35),
        (
            2,
            [0x9e3779ba004ebc97, 0x5c6f757f169520ad],
            0x975fbc3b5abff29b,
        ),
        (
            1 << 63,
            [0x1f3779b97f4a7c15, 0xbc70f372fe94f82a],
            0xe13568e82219dd53,
        ),
        (
            u64::MAX,
            [0x9e3779b9beca9bd5, 0x4c6eb3710293e829],
            0xe216ffa331346eb9,
        ),
    ] {
        assert_eq!(load::draws(seed).take(2).collect::<Vec<u64>>(), drawn);
        assert_eq!(load::draws(seed).nth(999), Some(thousandth));
    }
}

/// The places in front, the last one, and the sum of each place times where it is, counted from 1; of that program too. The last
/// one is the first draw modulo the number of cells: 0x56 of 256 with seed 1.
#[test]
fn shuffled_places_are_known() {
    let table = [
        (Degree::Four, 1, [227, 105, 232, 37], 0x56, 4152391),
        (Degree::Four, 20, [74, 230, 80, 46], 41, 4217134),
        (Degree::Six, 1, [1083, 281, 48, 476], 3158, 17227484109),
        (Degree::Six, 20, [4082, 636, 1247, 1157], 297, 17273304827),
        (
            Degree::Seven,
            1,
            [16219, 11365, 7238, 7210],
            7254,
            1102695293733,
        ),
        (
            Degree::Seven,
            20,
            [15754, 13740, 671, 11913],
            297,
            1099469289153,
        ),
    ];
    for (degree, seed, front, last, sum) in table {
        let places = load::shuffled(seed, degree.n() * degree.n());
        assert_eq!(places[..4], front);
        assert_eq!(places.last(), Some(&last));
        let times_place = |(at, place): (usize, &usize)| (at + 1) * place;
        assert_eq!(
            places.iter().enumerate().map(times_place).sum::<usize>(),
            sum
        );
    }
}

/// "The shuffle holds each place a single time, so exactly D and E cells are hit."
#[test]
fn exactly_so_many_cells_are_hit() {
    let mut random = Random::new(11);
    for degree in Degree::ALL {
        let all = degree.n() * degree.n();
        let sent = damage::sent(Code::of(degree), &mut random);
        for (wrong, unsure) in [
            (0, 0),
            (1, 0),
            (0, 1),
            (7, 30),
            (all, 0),
            (0, all),
            (100, all - 100),
        ] {
            let seed = random.word();
            let mut places = load::shuffled(seed, all);
            places.sort_unstable();
            assert!(places.into_iter().eq(0..all));
            let cells = load::hit(seed, wrong, unsure, &sent);
            assert_eq!(erasures(&cells), unsure);
            assert_eq!(known_differences(&cells, &sent), wrong);
        }
    }
}

/// Wrong and unsure cells together below the condition for one row: decoding gives what was sent.
#[test]
fn a_light_load_is_mended() {
    let mut random = Random::new(12);
    for degree in Degree::ALL {
        let (code, n) = (Code::of(degree), degree.n());
        for (wrong, unsure) in [(2, 1), (1, 3), (0, 5)] {
            let sent = damage::sent(code, &mut random);
            let received = load::hit(random.word(), wrong, unsure, &sent);
            let (cells, report) = code.decode(1, &received, &vec![0; 4 * n]);
            assert!(report.closed && cells == sent);
        }
    }
}

#[test]
fn the_seed_and_the_sum_are_tested_after_the_cells_in_that_order() {
    let (good, bad) = (vec![1u8; 49], vec![2u8; 49]);
    let mut cells = vec![9u8; 256];
    let mut call = |degree, seed, [wrong, unsure]: [u64; 2], message: &[u8], length: usize| {
        let refusal = entries::load(degree, seed, wrong, unsure, message, &mut cells[..length]);
        (refusal, cells.iter().all(|&cell| cell == 9))
    };
    let many = [200, 57];
    assert_eq!(call(5, 0, many, &bad, 255), (1, true));
    assert_eq!(call(4, 0, many, &bad, 255), (3, true));
    assert_eq!(call(4, 0, many, &bad[1..], 256), (3, true));
    assert_eq!(call(4, 0, many, &bad, 256), (4, true));
    assert_eq!(call(4, 0, many, &good, 256), (8, true));
    for too_many in [
        many,
        [257, 0],
        [0, 257],
        [u64::MAX, 1],
        [1 << 63; 2],
        [u64::MAX; 2],
    ] {
        assert_eq!(call(4, 1, too_many, &good, 256), (9, true));
    }
    assert_eq!(call(4, 1, [200, 56], &good, 256), (0, false));
}
