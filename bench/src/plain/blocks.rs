//! "W-201, sheets in 512-byte blocks": the file that the recorder keeps a sheet of degree 6 in.

use super::UNSURE;

/// "Three blocks of 512 bytes."
pub const BLOCKS: usize = 3;
pub const BLOCK: usize = 512;
pub const FILE: usize = BLOCKS * BLOCK;

/// Cells of a row, and of a sheet.
const N: usize = 64;
pub const CELLS: usize = N * N;

/// "Bytes 4 to 499 hold 31 rows of 16 bytes."
const FIRST_ROW: usize = 4;
const ROWS: usize = 31;
const ROW: usize = 16;

/// "Bytes 510 and 511 are the two Fletcher sums": those before them are summed.
pub const SUMS: usize = 510;

/// The sheet number and the cells of a file, or the number of the first test that fails.
pub fn read(file: &[u8]) -> Result<(u16, Vec<u8>), u64> {
    if file.len() != FILE || !has_heads(file) {
        return Err(5);
    }
    if !file.chunks(BLOCK).all(has_its_sums) {
        return Err(6);
    }
    let cells: Vec<u8> = (0..CELLS).map(|place| cell_at(file, place)).collect();
    if cells.iter().any(|&cell| cell > UNSURE) || !filler_of(file).all(|byte| byte == 0) {
        return Err(7);
    }
    Ok((sheet_number(&file[..BLOCK]), cells))
}

/// The file of a sheet.
pub fn written(number: u16, cells: &[u8]) -> Vec<u8> {
    let mut file = vec![0; FILE];
    for (place, &cell) in cells.iter().enumerate() {
        let (byte, shift) = place_of(place);
        file[byte] |= cell << shift;
    }
    for (block, bytes) in file.chunks_mut(BLOCK).enumerate() {
        let [high, low] = number.to_be_bytes();
        bytes[..FIRST_ROW].copy_from_slice(&[block as u8, 6, high, low]);
        make_sums(bytes);
    }
    file
}

/// Gives a block the sums of what it holds.
pub fn make_sums(block: &mut [u8]) {
    let sums = sums(&block[..SUMS]);
    block[SUMS..].copy_from_slice(&sums);
}

/// "The two Fletcher sums A and B modulo 255, both starting at 0; each byte is added to A, then A to B."
pub fn sums(bytes: &[u8]) -> [u8; 2] {
    let (mut a, mut b) = (0, 0);
    for &byte in bytes {
        a = (a + u16::from(byte)) % 255;
        b = (b + a) % 255;
    }
    [a as u8, b as u8]
}

/// Is `byte` of block `block` one that must be zero? "Block 2 holds rows 62 and 63 and then zeros. Bytes 500 to 509 are zero."
pub fn is_filler(block: usize, byte: usize) -> bool {
    let rows = if block == 2 { 2 } else { ROWS };
    (FIRST_ROW + ROW * rows..SUMS).contains(&byte)
}

/// "Byte 0 is the block's number, 0 to 2; byte 1 is 6; bytes 2 and 3 are the sheet number."
fn has_heads(file: &[u8]) -> bool {
    let number = sheet_number(&file[..BLOCK]);
    file.chunks(BLOCK).enumerate().all(|(block, bytes)| {
        usize::from(bytes[0]) == block && bytes[1] == 6 && sheet_number(bytes) == number
    })
}

/// "High byte first."
fn sheet_number(block: &[u8]) -> u16 {
    u16::from_be_bytes([block[2], block[3]])
}

fn has_its_sums(block: &[u8]) -> bool {
    block[SUMS..] == sums(&block[..SUMS])
}

/// The byte of the file that a cell of the sheet is in, and how many bits are below it: "two bits a cell, cell 0 lowest".
fn place_of(cell: usize) -> (usize, usize) {
    let (row, column) = (cell / N, cell % N);
    let (block, row) = (row / ROWS, row % ROWS);
    (
        BLOCK * block + FIRST_ROW + ROW * row + column / 4,
        2 * (column % 4),
    )
}

fn cell_at(file: &[u8], cell: usize) -> u8 {
    let (byte, shift) = place_of(cell);
    file[byte] >> shift & 3
}

fn filler_of(file: &[u8]) -> impl Iterator<Item = u8> {
    let bytes = file.iter().enumerate();
    bytes
        .filter(|&(place, _)| is_filler(place / BLOCK, place % BLOCK))
        .map(|(_, &byte)| byte)
}
