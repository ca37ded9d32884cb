//! The text form: what the program `sheet` prints for the bytes that it reads.

use super::{Code, Degree, UNSURE};

/// What is printed for this input.
pub fn printed(input: &[u8]) -> Vec<u8> {
    match cells_of(input) {
        Ok((degree, received)) => {
            let (cells, report) = Code::of(degree).decode(1, &received, &vec![0; 4 * degree.n()]);
            let closed = u8::from(report.closed);
            let mut text =
                format!("0 {} {} {closed}\n", report.count, report.erasures).into_bytes();
            for row in cells.chunks(degree.n()) {
                text.extend(row.iter().map(|&cell| character(cell)));
                text.push(b'\n');
            }
            text
        }
        Err(refusal) => format!("{refusal} 0 0 0\n").into_bytes(),
    }
}

/// The degree and the cells, or the number of the first test that fails.
pub fn cells_of(input: &[u8]) -> Result<(Degree, Vec<u8>), u64> {
    let (degree, lines) = match input {
        [b'4', b'\n', lines @ ..] => (Degree::Four, lines),
        [b'6', b'\n', lines @ ..] => (Degree::Six, lines),
        [b'7', b'\n', lines @ ..] => (Degree::Seven, lines),
        _ => return Err(1),
    };
    let n = degree.n();
    let is_last = |place: usize| place % (n + 1) == n;
    let newlines_fit = |(place, &byte): (usize, &u8)| (byte == b'\n') == is_last(place);
    if lines.len() != n * (n + 1) || !lines.iter().enumerate().all(newlines_fit) {
        return Err(3);
    }
    let characters = lines.iter().filter(|&&byte| byte != b'\n');
    let cells = characters.map(|&byte| cell(byte)).collect::<Option<_>>();
    Ok((degree, cells.ok_or(4u64)?))
}

/// The cell of a character.
pub fn cell(character: u8) -> Option<u8> {
    match character {
        b'0' => Some(0),
        b'1' => Some(1),
        b'?' => Some(UNSURE),
        _ => None,
    }
}

/// The character of a cell.
pub fn character(cell: u8) -> u8 {
    match cell {
        0 => b'0',
        1 => b'1',
        _ => b'?',
    }
}

/// The text of an array that `sheet` reads.
pub fn sheet_input(degree: Degree, cells: &[u8]) -> Vec<u8> {
    let mut text = format!("{}\n", degree.number()).into_bytes();
    for row in cells.chunks(degree.n()) {
        text.extend(row.iter().map(|&cell| character(cell)));
        text.push(b'\n');
    }
    text
}
