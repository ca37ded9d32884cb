//! The library through its safe wrapper: the examples of document 01, files of the recorder, loads, and what a refusal leaves.

use pugdrel_bench::plain::entries;
use pugdrel_bench::pugdrel::{self, Refusal};

const UNSURE: u8 = 2;

/// "G has ones at 0, 4, 6, 7, 8, 15."
const G: [usize; 6] = [0, 4, 6, 7, 8, 15];

/// Each degree with n and k.
const DEGREES: [(u64, usize, usize); 3] = [(4, 16, 7), (6, 64, 51), (7, 128, 113)];

/// A line of degree 4: "unnamed cells are 0".
fn line(ones: &[usize], unsure: &[usize]) -> Vec<u8> {
    line_of(16, ones, unsure)
}

fn line_of(n: usize, ones: &[usize], unsure: &[usize]) -> Vec<u8> {
    let mut cells = vec![0; n];
    ones.iter().for_each(|&cell| cells[cell] = 1);
    unsure.iter().for_each(|&cell| cells[cell] = UNSURE);
    cells
}

/// The line decoding of degree 4 with these filling bits.
fn decoded(cells: &[u8], filling: &[usize]) -> Option<Vec<u8>> {
    decoded_with(4, cells, bits(filling))
}

/// The two numbers of a filling word with these bits, low word first.
fn bits(cells: &[usize]) -> [u64; 2] {
    let word = cells.iter().fold(0, |word, cell| word | 1u128 << cell);
    [word as u64, (word >> 64) as u64]
}

/// The line decoding; nothing if it fails, and then the line must be as it came.
fn decoded_with(degree: u64, cells: &[u8], filling: [u64; 2]) -> Option<Vec<u8>> {
    let mut after = cells.to_vec();
    let found = pugdrel::decode_line(degree, &mut after, filling).unwrap();
    assert!(found || after == cells);
    found.then_some(after)
}

#[test]
fn lines_p1_to_p9() {
    let zero = Some(line(&[], &[]));
    let g = Some(line(&G, &[]));
    assert_eq!(decoded(&line(&[], &[]), &[]), zero, "P1");
    assert_eq!(decoded(&line(&[0, 4], &[]), &[]), zero, "P2");
    assert_eq!(decoded(&line(&[0, 4, 6], &[]), &[]), None, "P3");
    assert_eq!(decoded(&line(&[], &[0, 4, 6, 7, 8]), &[]), zero, "P4");
    assert_eq!(decoded(&line(&[15], &[0, 4, 6, 7, 8]), &[]), g, "P5");
    assert_eq!(decoded(&line(&[], &G), &[]), None, "P6");
    assert_eq!(decoded(&line(&[0, 4], &[6, 7]), &[]), zero, "P7");
    assert_eq!(decoded(&line(&[0, 4], &[6, 7]), &[6, 7]), g, "P8");
    assert_eq!(decoded(&line(&[0, 4], &[6, 7]), &[6]), None, "P9");
}

/// As P7 to P9 at every degree: halfway between all zeros and a codeword of six ones, the filling bits of two unsure cells
/// choose. At degree 7 one of the two is the high number's; at the others no cell is.
#[test]
fn filling_bits_choose_between_two_codewords() {
    for ((degree, n, _), [a, b, c, d, e, f]) in
        DEGREES
            .into_iter()
            .zip([G, [0, 57, 3, 22, 1, 63], [0, 80, 2, 69, 1, 127]])
    {
        let zero = line_of(n, &[], &[]);
        let ones = line_of(n, &[a, b, c, d, e, f], &[]);
        let half = line_of(n, &[a, b], &[c, d]);
        let [low, high] = bits(&[c, d]);
        for (filling, expected) in [
            ([0, 0], Some(&zero)),
            ([low, high], Some(&ones)),
            ([!0, !0], Some(&ones)),
            ([high, low], Some(&zero)),
            (bits(&[c]), None),
            (bits(&[d]), None),
        ] {
            let decoded = decoded_with(degree, &half, filling);
            assert_eq!(decoded.as_ref(), expected, "degree {degree}");
            // The channel's line is the incoming one, so that its messages are its own decoding.
            let mut messages = vec![9; n];
            let count = pugdrel::messages(degree, &half, &half, filling, &mut messages);
            assert_eq!(count, Ok(2));
            assert_eq!(&messages, expected.unwrap_or(&half), "degree {degree}");
        }
        if n <= 64 {
            let other = decoded_with(degree, &half, [low, !0]);
            assert_eq!(other.as_ref(), Some(&ones), "degree {degree}");
        }
    }
}

/// The same for the filling words of an array, all of them alike: half of a codeword of six ones in each of its six rows.
#[test]
fn filling_words_of_an_array_have_the_low_number_first() {
    let six = [0, 80, 2, 69, 1, 127];
    let array = |line: &[u8]| -> Vec<u8> {
        let zeros = vec![0; 128];
        let row = |row: usize| if six.contains(&row) { line } else { &zeros };
        (0..128).flat_map(row).copied().collect()
    };
    let received = array(&line_of(128, &six[..2], &six[2..4]));
    let [low, high] = bits(&six[2..4]);
    for (word, expected) in [
        ([low, high], array(&line_of(128, &six, &[]))),
        ([high, low], vec![0; 128 * 128]),
    ] {
        let mut cells = vec![9; 128 * 128];
        let report = pugdrel::decode(7, 1, &received, &word.repeat(256), &mut cells).unwrap();
        assert!(report.closed && report.count == 512);
        assert_eq!(cells, expected);
    }
}

#[test]
fn messages_p10_to_p14() {
    let messages = |incoming: &[u8], at: usize, cell: u8| {
        let mut channel = incoming.to_vec();
        channel[at] = cell;
        let mut messages = vec![9; 16];
        let count = pugdrel::messages(4, incoming, &channel, [0, 0], &mut messages).unwrap();
        (messages, count)
    };
    let p10 = line(&[0, 4], &[]);
    let p3 = line(&[0, 4, 6], &[]);
    let p4 = line(&[], &[0, 4, 6, 7, 8]);
    let p14 = line(&[4, 6, 7, 8, 15], &[0, 1, 2, 3, 5, 9]);
    let p14_after = line(&[0, 4, 6, 7, 8, 15], &[1, 2, 3, 5, 9]);
    assert_eq!(messages(&p10, 6, 1), (line(&[6], &[]), 2), "P10");
    assert_eq!(messages(&p3, 6, 0), (line(&[0, 4], &[]), 2), "P11");
    assert_eq!(messages(&p3, 6, UNSURE), (line(&[0, 4], &[]), 3), "P12");
    assert_eq!(messages(&p4, 15, UNSURE), (line(&[], &[15]), 2), "P13");
    assert_eq!(messages(&p14, 0, 0), (p14_after, 2), "P14");
}

#[test]
fn the_printed_example() {
    let zeros = "0000000000000000\n";
    let input = format!("4\n1000100000000000\n{}", zeros.repeat(15));
    let printed = format!("0 64 0 1\n{}", zeros.repeat(16));
    assert_eq!(
        pugdrel::sheet(input.as_bytes()).unwrap(),
        printed.as_bytes()
    );
    assert_eq!(pugdrel::sheet(b"7\n").unwrap(), b"3 0 0 0\n");
    assert_eq!(pugdrel::sheet(b"8\n").unwrap(), b"1 0 0 0\n");
}

/// The longest texts: all cells unsure, and one bit wrong.
#[test]
fn a_text_of_degree_7() {
    let zeros = "0".repeat(128) + "\n";
    let unsure = "?".repeat(128) + "\n";
    let input = format!("7\n{}", unsure.repeat(128));
    let printed = format!("0 0 16384 0\n{}", unsure.repeat(128));
    assert_eq!(
        pugdrel::sheet(input.as_bytes()).unwrap(),
        printed.as_bytes()
    );
    let first = zeros.replacen('0', "1", 1);
    let input = format!("7\n{first}{}", zeros.repeat(127));
    let printed = format!("0 512 0 1\n{}", zeros.repeat(128));
    assert_eq!(
        pugdrel::sheet(input.as_bytes()).unwrap(),
        printed.as_bytes()
    );
}

#[test]
fn a_message_goes_there_and_back() {
    for (degree, n, k) in DEGREES {
        let message: Vec<u8> = (0..k * k).map(|place| (place % 3 == 1) as u8).collect();
        let mut sent = vec![9; n * n];
        pugdrel::encode(degree, &message, &mut sent).unwrap();
        let mut received = sent.clone();
        received[0] ^= 1;
        received[n + 1] = UNSURE;
        let mut cells = vec![9; n * n];
        let report = pugdrel::decode(degree, 1, &received, &vec![0; 4 * n], &mut cells).unwrap();
        assert_eq!((report.erasures, report.closed), (0, true));
        assert_eq!(cells, sent);
        assert_eq!(pugdrel::row(degree, &cells, 1).unwrap(), &sent[n..2 * n]);
        let mut back = vec![9; k * k];
        pugdrel::extract(degree, &cells, &mut back).unwrap();
        assert_eq!(back, message);
        for wrong in [&[][..], &[3], &[n - 1], &[3, n - 1], &[0, 3]] {
            for &place in wrong {
                cells[place] ^= 1;
            }
            let changed = pugdrel::bounded_distance(degree, &mut cells[..n]).unwrap();
            assert_eq!(changed, Some(wrong.len() as u64));
            assert_eq!(cells, sent);
        }
    }
}

/// Arrays of degree 4 that decoding leaves as they are: with good columns and six rows off, with good rows and six columns off, and
/// with zeros in every known cell and unsure ones.
#[test]
fn closed_asks_for_rows_columns_and_known_cells() {
    let g = [0, 4, 6, 7, 8, 15];
    let off = 0..4;
    let made = |there: &dyn Fn(usize, usize) -> bool, cell: u8| -> Vec<u8> {
        let cells = (0..256).map(|place| (place / 16, place % 16));
        cells
            .map(|(row, column)| if there(row, column) { cell } else { 0 })
            .collect()
    };
    let good_columns = |row: usize, column: usize| g.contains(&row) && off.contains(&column);
    let good_rows = |row: usize, column: usize| good_columns(column, row);
    let square = |row: usize, column: usize| g.contains(&row) && g.contains(&column);
    for (received, left) in [
        (made(&good_columns, 1), (0, false)),
        (made(&good_rows, 1), (0, false)),
        (made(&square, UNSURE), (36, false)),
        (made(&square, 1), (0, true)),
    ] {
        let mut cells = vec![9; 256];
        let report = pugdrel::decode(4, 2, &received, &[0; 128], &mut cells).unwrap();
        assert_eq!(cells, received);
        assert_eq!((report.erasures, report.closed), left);
    }
}

#[test]
fn refusals_have_their_numbers_and_change_nothing() {
    let (good, bad) = (vec![0u8; 256], vec![3u8; 256]);
    let filling = vec![0u64; 64];
    let mut cells = vec![9u8; 256];
    let mut refusal = |degree, iterations, received: &[u8]| {
        let refused = pugdrel::decode(degree, iterations, received, &filling, &mut cells);
        assert!(cells.iter().all(|&cell| cell == 9));
        refused.unwrap_err()
    };
    assert_eq!(refusal(5, 0, &bad[..255]), Refusal::Degree);
    assert_eq!(refusal(4, 21, &bad[..255]), Refusal::Iterations);
    assert_eq!(refusal(4, 1, &bad[..255]), Refusal::Length);
    // Filling words for one iteration of two.
    assert_eq!(refusal(4, 2, &bad), Refusal::Length);
    assert_eq!(refusal(4, 1, &bad), Refusal::Cell);
    assert_eq!(pugdrel::row(4, &bad, 16), Err(Refusal::Length));
    assert_eq!(pugdrel::row(4, &good, 16).unwrap_err().number(), 3);
    assert_eq!(
        pugdrel::encode(4, &[2; 49], &mut [0; 256]),
        Err(Refusal::Cell)
    );
}

/// The recording of the sample: read, mended, written and read again; and what was read is written as the file's own bytes.
#[test]
fn a_recording_is_read_mended_and_written() {
    let recording = include_bytes!("../../samples/degree6.blocks");
    let sent = include_str!("../../samples/degree6-sent.txt");
    let cell = |character| match character {
        '?' => UNSURE,
        digit => digit as u8 - b'0',
    };
    let sent: Vec<u8> = sent
        .lines()
        .skip(1)
        .flat_map(str::chars)
        .map(cell)
        .collect();
    let (mut received, mut mended) = (vec![9; 4096], vec![9; 4096]);
    let number = pugdrel::read_blocks(recording, &mut received).unwrap();
    assert_eq!(number, 0x1234);
    let report = pugdrel::decode(6, 1, &received, &[0; 256], &mut mended).unwrap();
    assert!(report.closed && mended == sent);

    let mut file = vec![9; 1536];
    pugdrel::write_blocks(number, &mended, &mut file).unwrap();
    assert_eq!(pugdrel::read_blocks(&file, &mut mended), Ok(number));
    assert!(mended == sent);
    pugdrel::write_blocks(number, &received, &mut file).unwrap();
    assert!(file == recording);
}

/// A sheet of zeros: 0xf9 and 6 are 255, so that the sums of block 0 are 0 and 6.
#[test]
fn a_sheet_of_zeros_is_written_as_known() {
    let mut file = vec![9; 1536];
    pugdrel::write_blocks(0xf900, &[0; 4096], &mut file).unwrap();
    for (number, block) in file.chunks(512).enumerate() {
        assert_eq!(block[..4], [number as u8, 6, 0xf9, 0]);
        assert!(block[4..510].iter().all(|&byte| byte == 0));
        assert_eq!(block[510], number as u8);
    }
    assert_eq!(file[511], 6);
}

#[test]
fn files_are_refused_and_change_nothing() {
    let mut good = vec![9; 1536];
    pugdrel::write_blocks(0xf900, &[0; 4096], &mut good).unwrap();
    let mut cells = vec![9; 4096];
    let mut refusal = |file: &[u8]| {
        let refused = pugdrel::read_blocks(file, &mut cells);
        assert!(cells.iter().all(|&cell| cell == 9));
        refused.unwrap_err()
    };
    let with = |changes: &[(usize, u8)]| {
        let mut file = good.clone();
        changes.iter().for_each(|&(place, byte)| file[place] = byte);
        file
    };
    assert_eq!(refusal(&[]), Refusal::File);
    assert_eq!(refusal(&good[..1535]), Refusal::File);
    assert_eq!(refusal(&[&good[..], &[0]].concat()), Refusal::File);
    assert_eq!(refusal(&with(&[(1024, 1)])), Refusal::File);
    assert_eq!(refusal(&with(&[(513, 4), (510, 9)])), Refusal::File);
    assert_eq!(refusal(&with(&[(3, 255)])), Refusal::File);
    assert_eq!(refusal(&with(&[(510, 255)])), Refusal::Sum);
    assert_eq!(refusal(&with(&[(100, 255), (1535, 9)])), Refusal::Sum);
    // The sums do not see 255 in place of 0: four cells of 3, and filler.
    assert_eq!(refusal(&with(&[(100, 255)])), Refusal::Content);
    assert_eq!(refusal(&with(&[(1024 + 36, 255)])), Refusal::Content);
    assert_eq!(refusal(&with(&[(1533, 255)])), Refusal::Content);
    assert_eq!(
        pugdrel::read_blocks(&[], &mut [9; 4095]),
        Err(Refusal::Length)
    );
    let other_number = with(&[(3, 255), (515, 255), (1027, 255)]);
    assert_eq!(pugdrel::read_blocks(&other_number, &mut cells), Ok(0xf9ff));
}

#[test]
fn sheets_are_refused_and_change_nothing() {
    let mut file = vec![9; 1537];
    let mut refusal = |cells: &[u8], length: usize| {
        let refused = pugdrel::write_blocks(1, cells, &mut file[..length]);
        assert!(file.iter().all(|&byte| byte == 9));
        refused.unwrap_err()
    };
    assert_eq!(refusal(&[3; 4096], 1535), Refusal::Length);
    assert_eq!(refusal(&[3; 4096], 1537), Refusal::Length);
    assert_eq!(refusal(&[3; 4095], 1536), Refusal::Length);
    assert_eq!(refusal(&[3; 4097], 1536), Refusal::Length);
    for place in [0, 1983, 1984, 4095] {
        let mut cells = [2; 4096];
        cells[place] = 3;
        assert_eq!(refusal(&cells, 1536), Refusal::Cell);
    }
    let numbers = [Refusal::File, Refusal::Sum, Refusal::Content].map(Refusal::number);
    assert_eq!(numbers, [5, 6, 7]);
}

/// Loads of the acceptance run, one for each seed: wrong and unsure cells are seed × n / 16 and twice as many.
const SEEDS: std::ops::RangeInclusive<u64> = 1..=20;

/// The run's load of a seed, by the library and by the plain implementation alike.
fn acceptance_load((degree, n, k): (u64, usize, usize), seed: u64) -> Vec<u8> {
    let message: Vec<u8> = (0..k * k).map(|cell| (cell / 3 % 2) as u8).collect();
    let wrong = seed * n as u64 / 16;
    let (mut cells, mut plain) = (vec![9; n * n], vec![9; n * n]);
    pugdrel::load(degree, seed, wrong, 2 * wrong, &message, &mut cells).unwrap();
    let refusal = entries::load(degree, seed, wrong, 2 * wrong, &message, &mut plain);
    assert!(
        refusal == 0 && cells == plain,
        "degree {degree}, seed {seed}"
    );
    cells
}

/// Of each degree: the sum of each received cell times its place, counted from 1; of the counts; of the cells left unsure; and how
/// many are closed. The agreement program prints the same, and the C example asks for it.
#[test]
fn the_acceptance_run_gives_its_numbers() {
    let expected = [
        [422905, 5210, 0, 20],
        [89216655, 20667, 0, 20],
        [1382416801, 41616, 0, 20],
    ];
    for (code, expected) in DEGREES.into_iter().zip(expected) {
        let (degree, n, _) = code;
        let mut sums = [0; 4];
        for seed in SEEDS {
            let received = acceptance_load(code, seed);
            let mut cells = vec![9; n * n];
            let report =
                pugdrel::decode(degree, 4, &received, &vec![0; 16 * n], &mut cells).unwrap();
            let places = received
                .iter()
                .zip(1..)
                .map(|(&cell, place)| u64::from(cell) * place);
            sums[0] += places.sum::<u64>();
            sums[1] += report.count;
            sums[2] += report.erasures;
            sums[3] += u64::from(report.closed);
        }
        assert_eq!(sums, expected, "degree {degree}");
    }
}

/// The places that a seed hits first, reckoned by a program in another language: some are inverted, the next ones unsure.
#[test]
fn a_load_hits_known_places() {
    for ((degree, n, k), places) in DEGREES.into_iter().zip([
        [74, 230, 80, 46],
        [4082, 636, 1247, 1157],
        [15754, 13740, 671, 11913],
    ]) {
        for wrong in 0..=places.len() {
            let (inverted, unsure) = places.split_at(wrong);
            let expected = line_of(n * n, inverted, unsure);
            let (message, mut cells) = (vec![0; k * k], vec![9; n * n]);
            let [wrong, unsure] = [inverted, unsure].map(|places| places.len() as u64);
            pugdrel::load(degree, 20, wrong, unsure, &message, &mut cells).unwrap();
            assert!(cells == expected, "degree {degree}, {wrong} wrong");
        }
    }
}

#[test]
fn loads_are_refused_and_change_nothing() {
    let (good, bad) = ([1; 49], [2; 49]);
    let mut cells = vec![9; 256];
    let mut refusal = |degree, seed, [wrong, unsure]: [u64; 2], message: &[u8], length: usize| {
        let refused = pugdrel::load(degree, seed, wrong, unsure, message, &mut cells[..length]);
        assert!(cells.iter().all(|&cell| cell == 9));
        refused.unwrap_err()
    };
    let many = [200, 57];
    assert_eq!(refusal(5, 0, many, &bad, 255), Refusal::Degree);
    assert_eq!(refusal(6, 1, [0, 0], &good, 256), Refusal::Length);
    assert_eq!(refusal(4, 0, many, &bad, 255), Refusal::Length);
    assert_eq!(refusal(4, 0, many, &bad[1..], 256), Refusal::Length);
    assert_eq!(refusal(4, 0, many, &bad, 256), Refusal::Cell);
    assert_eq!(refusal(4, 0, many, &good, 256), Refusal::Seed);
    for too_many in [
        many,
        [257, 0],
        [0, 257],
        [u64::MAX, 1],
        [1 << 63; 2],
        [u64::MAX; 2],
    ] {
        assert_eq!(refusal(4, 1, too_many, &good, 256), Refusal::TooMany);
    }
    assert_eq!(
        [Refusal::Seed, Refusal::TooMany].map(Refusal::number),
        [8, 9]
    );
    assert_eq!(pugdrel::load(4, 1, 200, 56, &good, &mut cells), Ok(()));
}

#[test]
fn the_library_is_of_the_headers_version() {
    let header = include_str!("../../include/pugdrel.h");
    let number = header
        .lines()
        .find_map(|line| line.strip_prefix("#define PUGDREL_VERSION "))
        .expect("the header has a version");
    assert_eq!(number.trim().parse(), Ok(pugdrel::version()));
}
