//! "When a call is turned down": the functions of the library, with their tests in number order.
//!
//! Each function has the shape of its namesake in the library: lent slices of any length, a `report` for the numbers
//! that it answers with, and the refusal number as its result, 0 for none. A refused call changes no lent cell, and the
//! numbers of its report are 0; a report of a wrong length is itself refused as 3, and keeps what it held.

use super::{Code, Degree, UNSURE, blocks, load as loads, text};

/// Bytes that `sheet` has room for: four numbers of 21 bytes at most and 128 lines of 129.
pub const SHEET_OUTPUT: usize = 16596;

/// Iterations: 1 to this.
pub const MOST_ITERATIONS: u64 = 20;

/// A refusal number, 1 to 9.
type Refused = u64;

pub fn decode(
    degree: u64,
    iterations: u64,
    received: &[u8],
    filling: &[u64],
    cells: &mut [u8],
    report: &mut [u64],
) -> u64 {
    let tests = || {
        let code = code_of(degree)?;
        if iterations == 0 || iterations > MOST_ITERATIONS {
            return Err(2);
        }
        let n = code.n();
        let numbers = 4 * iterations as usize * n;
        test_lengths(&[
            (received.len(), n * n),
            (filling.len(), numbers),
            (cells.len(), n * n),
            (report.len(), 3),
        ])?;
        test_cells(received, UNSURE)?;
        Ok(code)
    };
    let answer = tests().map(|code| {
        let (left, report) = code.decode(iterations, received, filling);
        cells.copy_from_slice(&left);
        [report.count, report.erasures, u64::from(report.closed)]
    });
    answered(answer, report)
}

pub fn encode(degree: u64, message: &[u8], cells: &mut [u8]) -> u64 {
    let answer = encodable(degree, message, cells).map(|code| {
        cells.copy_from_slice(&code.encode(message));
        []
    });
    answered(answer, &mut [])
}

pub fn extract(degree: u64, cells: &[u8], message: &mut [u8]) -> u64 {
    let tests = || {
        let code = code_of(degree)?;
        let (n, k) = (code.n(), code.degree.k());
        test_lengths(&[(cells.len(), n * n), (message.len(), k * k)])?;
        test_cells(cells, UNSURE)?;
        Ok(code)
    };
    let answer = tests().map(|code| {
        message.copy_from_slice(&code.extract(cells));
        []
    });
    answered(answer, &mut [])
}

/// Reports where row `index` starts in the array, and its length.
pub fn row(degree: u64, cells: &[u8], index: usize, report: &mut [u64]) -> u64 {
    let tests = || {
        let n = degree_of(degree)?.n();
        test_lengths(&[(cells.len(), n * n), (report.len(), 2)])?;
        if index >= n {
            return Err(3);
        }
        test_cells(cells, UNSURE)?;
        Ok(n)
    };
    let answer = tests().map(|n| [(index * n) as u64, n as u64]);
    answered(answer, report)
}

/// Reports whether there is a codeword within 2 and how many cells it changes, and leaves it in the word.
pub fn bounded_distance(degree: u64, word: &mut [u8], report: &mut [u64]) -> u64 {
    let tests = || {
        let code = code_of(degree)?;
        test_lengths(&[(word.len(), code.n()), (report.len(), 2)])?;
        test_cells(word, 1)?;
        Ok(code)
    };
    let answer = tests().map(|code| {
        let before = word.to_vec();
        let [is_found] = found(code.bounded_distance(word), word);
        let changed = before.iter().zip(&*word).filter(|(old, new)| old != new);
        [is_found, changed.count() as u64]
    });
    answered(answer, report)
}

/// Reports whether the line decoding succeeds, and leaves its codeword in the cells.
pub fn decode_line(
    degree: u64,
    cells: &mut [u8],
    filling_low: u64,
    filling_high: u64,
    report: &mut [u64],
) -> u64 {
    let tests = || {
        let code = code_of(degree)?;
        test_lengths(&[(cells.len(), code.n()), (report.len(), 1)])?;
        test_cells(cells, UNSURE)?;
        Ok(code)
    };
    let filling = [filling_low, filling_high];
    let answer = tests().map(|code| found(code.decode_line(cells, filling), cells));
    answered(answer, report)
}

/// Reports the count of the line.
pub fn messages(
    degree: u64,
    incoming: &[u8],
    channel: &[u8],
    filling_low: u64,
    filling_high: u64,
    messages: &mut [u8],
    report: &mut [u64],
) -> u64 {
    let tests = || {
        let code = code_of(degree)?;
        let n = code.n();
        test_lengths(&[
            (incoming.len(), n),
            (channel.len(), n),
            (messages.len(), n),
            (report.len(), 1),
        ])?;
        test_cells(incoming, UNSURE)?;
        test_cells(channel, UNSURE)?;
        Ok(code)
    };
    let filling = [filling_low, filling_high];
    let answer = tests().map(|code| {
        messages.copy_from_slice(&code.messages(incoming, channel, filling));
        [code.line_count(incoming, channel, filling)]
    });
    answered(answer, report)
}

/// Reports the bytes that the program `sheet` prints for this input, and leaves them at the start of the output. An
/// input that the program turns down is no refusal here: what it prints then tells the number.
pub fn sheet(input: &[u8], output: &mut [u8], report: &mut [u64]) -> u64 {
    let tests = || test_lengths(&[(output.len(), SHEET_OUTPUT), (report.len(), 1)]);
    let answer = tests().map(|()| {
        let text = text::printed(input);
        output[..text.len()].copy_from_slice(&text);
        [text.len() as u64]
    });
    answered(answer, report)
}

/// Reports the number of the sheet that the file holds, and leaves its cells. The file's own length is test 5.
pub fn read_blocks(file: &[u8], cells: &mut [u8], report: &mut [u64]) -> u64 {
    let tests = || {
        test_lengths(&[(cells.len(), blocks::CELLS), (report.len(), 1)])?;
        blocks::read(file)
    };
    let answer = tests().map(|(number, of_file)| {
        cells.copy_from_slice(&of_file);
        [u64::from(number)]
    });
    answered(answer, report)
}

pub fn write_blocks(number: u16, cells: &[u8], file: &mut [u8]) -> u64 {
    let tests = || {
        test_lengths(&[(cells.len(), blocks::CELLS), (file.len(), blocks::FILE)])?;
        test_cells(cells, UNSURE)
    };
    let answer = tests().map(|()| {
        file.copy_from_slice(&blocks::written(number, cells));
        []
    });
    answered(answer, &mut [])
}

/// "In the sheet encoded from a lent message." Tests 8 and 9 are "both after 4, in that order".
pub fn load(
    degree: u64,
    seed: u64,
    wrong: u64,
    unsure: u64,
    message: &[u8],
    cells: &mut [u8],
) -> u64 {
    let tests = || {
        let code = encodable(degree, message, cells)?;
        if seed == 0 {
            return Err(8);
        }
        if u128::from(wrong) + u128::from(unsure) > cells.len() as u128 {
            return Err(9);
        }
        Ok(code)
    };
    let answer = tests().map(|code| {
        let sent = code.encode(message);
        cells.copy_from_slice(&loads::hit(seed, wrong as usize, unsure as usize, &sent));
        []
    });
    answered(answer, &mut [])
}

/// The code with which a message is encoded into these cells, after the tests 1, 3 and 4.
fn encodable(degree: u64, message: &[u8], cells: &[u8]) -> Result<&'static Code, Refused> {
    let code = code_of(degree)?;
    let (n, k) = (code.n(), code.degree.k());
    test_lengths(&[(message.len(), k * k), (cells.len(), n * n)])?;
    test_cells(message, 1)?;
    Ok(code)
}

/// Test 1.
fn degree_of(number: u64) -> Result<Degree, Refused> {
    Degree::named(number).ok_or(1)
}

fn code_of(number: u64) -> Result<&'static Code, Refused> {
    degree_of(number).map(Code::of)
}

/// Test 3: each length beside the one that it should be.
fn test_lengths(lengths: &[(usize, usize)]) -> Result<(), Refused> {
    let all_fit = lengths.iter().all(|(length, exact)| length == exact);
    if all_fit { Ok(()) } else { Err(3) }
}

/// Test 4.
fn test_cells(cells: &[u8], highest: u8) -> Result<(), Refused> {
    let all_fit = cells.iter().all(|&cell| cell <= highest);
    if all_fit { Ok(()) } else { Err(4) }
}

/// Puts a codeword, if there is one, in the place of the line.
fn found(codeword: Option<Vec<u8>>, line: &mut [u8]) -> [u64; 1] {
    match codeword {
        Some(codeword) => {
            line.copy_from_slice(&codeword);
            [1]
        }
        None => [0],
    }
}

/// Writes the numbers of the report, zeros if the call is refused, and gives the refusal number.
fn answered<const N: usize>(answer: Result<[u64; N], Refused>, report: &mut [u64]) -> u64 {
    let (refusal, numbers) = match answer {
        Ok(numbers) => (0, numbers),
        Err(refusal) => (refusal, [0; N]),
    };
    if report.len() == N {
        report.copy_from_slice(&numbers);
    }
    refusal
}
