//! The static library of the proved decoder, for safe Rust.
//!
//! [`entries`] has the functions of the library as they are: any slices, a report to write to, and the refusal number as
//! the result. The functions of this module are the same in the manner of Rust: a [`Result`] with what the call answers
//! with, or with the [`Refusal`].
//!
//! The library asks nothing of its caller: slices may have any length and cells any value. So every function here is
//! safe. Only this module of the bench and `in_c` have `unsafe` in them.

use std::fmt;

use crate::plain::Filling;
pub use crate::plain::array::Report;
use crate::plain::entries::SHEET_OUTPUT;

/// Why a call was turned down; nothing that was lent has changed then.
#[derive(Clone, Copy, Debug, PartialEq, Eq)]
pub enum Refusal {
    /// 1: the degree is not 4, 6 or 7.
    Degree,
    /// 2: iterations 0 or above 20.
    Iterations,
    /// 3: a lent slice is not of the exact length, or there is no such row.
    Length,
    /// 4: a cell above 2, or above 1 where a cell cannot be unsure.
    Cell,
    /// 5: a file that is not three blocks of one sheet: its length, a byte 0 or 1, or sheet numbers that differ.
    File,
    /// 6: a sum of a block that fails.
    Sum,
    /// 7: a cell of 3 in a file, or a filler byte that is not zero.
    Content,
    /// 8: a seed of 0.
    Seed,
    /// 9: more wrong and unsure cells together than the array has.
    TooMany,
    /// A number that is not in documents 01 and 02.
    Unknown(u64),
}

impl Refusal {
    /// The number of documents 01 and 02.
    pub fn number(self) -> u64 {
        match self {
            Refusal::Degree => 1,
            Refusal::Iterations => 2,
            Refusal::Length => 3,
            Refusal::Cell => 4,
            Refusal::File => 5,
            Refusal::Sum => 6,
            Refusal::Content => 7,
            Refusal::Seed => 8,
            Refusal::TooMany => 9,
            Refusal::Unknown(number) => number,
        }
    }

    /// Nothing for 0: the call was taken.
    fn test(number: u64) -> Result<(), Refusal> {
        match number {
            0 => Ok(()),
            1 => Err(Refusal::Degree),
            2 => Err(Refusal::Iterations),
            3 => Err(Refusal::Length),
            4 => Err(Refusal::Cell),
            5 => Err(Refusal::File),
            6 => Err(Refusal::Sum),
            7 => Err(Refusal::Content),
            8 => Err(Refusal::Seed),
            9 => Err(Refusal::TooMany),
            number => Err(Refusal::Unknown(number)),
        }
    }
}

impl fmt::Display for Refusal {
    fn fmt(&self, f: &mut fmt::Formatter) -> fmt::Result {
        write!(f, "refused: {}", self.number())
    }
}

impl std::error::Error for Refusal {}

/// The version of the library: 1000000 times the first number, 1000 times the second, and the third.
pub fn version() -> u64 {
    entries::version()
}

/// Decodes a received array of n by n cells (0, 1, or 2 for unsure) into `cells`, with 2 × iterations × n filling words
/// of two numbers each, the low one first.
pub fn decode(
    degree: u64,
    iterations: u64,
    received: &[u8],
    filling: &[u64],
    cells: &mut [u8],
) -> Result<Report, Refusal> {
    let mut report = [0; 3];
    Refusal::test(entries::decode(
        degree,
        iterations,
        received,
        filling,
        cells,
        &mut report,
    ))?;
    let [count, erasures, closed] = report;
    Ok(Report {
        count,
        erasures,
        closed: closed != 0,
    })
}

/// Writes the array of a message of k by k bits.
pub fn encode(degree: u64, message: &[u8], cells: &mut [u8]) -> Result<(), Refusal> {
    Refusal::test(entries::encode(degree, message, cells))
}

/// Copies the message cells of an array out, unsure ones too.
pub fn extract(degree: u64, cells: &[u8], message: &mut [u8]) -> Result<(), Refusal> {
    Refusal::test(entries::extract(degree, cells, message))
}

/// One row of the lent array itself.
pub fn row(degree: u64, cells: &[u8], index: usize) -> Result<&[u8], Refusal> {
    let mut report = [0; 2];
    Refusal::test(entries::row(degree, cells, index, &mut report))?;
    let [start, length] = report.map(|number| number as usize);
    Ok(&cells[start..start + length])
}

/// Replaces a full word by the codeword within 2 of it, and tells how many cells that changed; none, and the word as it came,
/// if there is no such codeword.
pub fn bounded_distance(degree: u64, word: &mut [u8]) -> Result<Option<u64>, Refusal> {
    let mut report = [0; 2];
    Refusal::test(entries::bounded_distance(degree, word, &mut report))?;
    let [found, changed] = report;
    Ok((found != 0).then_some(changed))
}

/// Decodes one line with unsure cells in place; false, and the line as it came, if that fails.
pub fn decode_line(degree: u64, cells: &mut [u8], [low, high]: Filling) -> Result<bool, Refusal> {
    let mut report = [0; 1];
    Refusal::test(entries::decode_line(degree, cells, low, high, &mut report))?;
    Ok(report != [0])
}

/// Writes the extrinsic message of every cell of a line, and gives the count of the line.
pub fn messages(
    degree: u64,
    incoming: &[u8],
    channel: &[u8],
    [low, high]: Filling,
    messages: &mut [u8],
) -> Result<u64, Refusal> {
    let mut report = [0; 1];
    Refusal::test(entries::messages(
        degree,
        incoming,
        channel,
        low,
        high,
        messages,
        &mut report,
    ))?;
    Ok(report[0])
}

/// What the program `sheet` prints for this input.
pub fn sheet(input: &[u8]) -> Result<Vec<u8>, Refusal> {
    let mut output = vec![0; SHEET_OUTPUT];
    let mut report = [0; 1];
    Refusal::test(entries::sheet(input, &mut output, &mut report))?;
    output.truncate(report[0] as usize);
    Ok(output)
}

/// Reads the cells of a sheet of degree 6 from its file, three blocks of 512 bytes, and gives the sheet's number.
pub fn read_blocks(file: &[u8], cells: &mut [u8]) -> Result<u16, Refusal> {
    let mut report = [0; 1];
    Refusal::test(entries::read_blocks(file, cells, &mut report))?;
    Ok(report[0] as u16)
}

/// Writes the file of a sheet of degree 6.
pub fn write_blocks(number: u16, cells: &[u8], file: &mut [u8]) -> Result<(), Refusal> {
    Refusal::test(entries::write_blocks(number, cells, file))
}

/// Writes the array of a message of k by k bits with this many cells inverted and this many others unsure, at the places that the
/// seed chooses.
pub fn load(
    degree: u64,
    seed: u64,
    wrong: u64,
    unsure: u64,
    message: &[u8],
    cells: &mut [u8],
) -> Result<(), Refusal> {
    Refusal::test(entries::load(degree, seed, wrong, unsure, message, cells))
}

/// The functions of the library as they are. Each returns the refusal number, 0 for none; the numbers that it answers
/// with go to `report`, which must have exactly their length.
pub mod entries {
    use super::library;

    pub fn version() -> u64 {
        // SAFETY: the function takes nothing and touches no memory.
        unsafe { library::pugdrel_version() }
    }

    /// Reports the count, the unsure cells, and 1 for closed.
    pub fn decode(
        degree: u64,
        iterations: u64,
        received: &[u8],
        filling: &[u64],
        cells: &mut [u8],
        report: &mut [u64],
    ) -> u64 {
        // SAFETY: each pointer goes with the length of its slice; the writable slices are borrowed mutably, so that
        // none of them overlaps another; the library keeps no pointer. So it is for all calls below.
        unsafe {
            library::pugdrel_decode(
                degree,
                iterations,
                received.as_ptr(),
                received.len(),
                filling.as_ptr(),
                filling.len(),
                cells.as_mut_ptr(),
                cells.len(),
                report.as_mut_ptr(),
                report.len(),
            )
        }
    }

    /// Reports nothing.
    pub fn encode(degree: u64, message: &[u8], cells: &mut [u8]) -> u64 {
        // SAFETY: as in `decode`.
        unsafe {
            library::pugdrel_encode(
                degree,
                message.as_ptr(),
                message.len(),
                cells.as_mut_ptr(),
                cells.len(),
            )
        }
    }

    /// Reports nothing.
    pub fn extract(degree: u64, cells: &[u8], message: &mut [u8]) -> u64 {
        // SAFETY: as in `decode`.
        unsafe {
            library::pugdrel_extract(
                degree,
                cells.as_ptr(),
                cells.len(),
                message.as_mut_ptr(),
                message.len(),
            )
        }
    }

    /// Reports the place where the row starts, and its length.
    pub fn row(degree: u64, cells: &[u8], index: usize, report: &mut [u64]) -> u64 {
        // SAFETY: as in `decode`.
        unsafe {
            library::pugdrel_row(
                degree,
                cells.as_ptr(),
                cells.len(),
                index,
                report.as_mut_ptr(),
                report.len(),
            )
        }
    }

    /// Reports 1 if there is a codeword, and the number of cells changed.
    pub fn bounded_distance(degree: u64, word: &mut [u8], report: &mut [u64]) -> u64 {
        // SAFETY: as in `decode`.
        unsafe {
            library::pugdrel_bounded_distance(
                degree,
                word.as_mut_ptr(),
                word.len(),
                report.as_mut_ptr(),
                report.len(),
            )
        }
    }

    /// Reports 1 if the line was decoded.
    pub fn decode_line(
        degree: u64,
        cells: &mut [u8],
        filling_low: u64,
        filling_high: u64,
        report: &mut [u64],
    ) -> u64 {
        // SAFETY: as in `decode`.
        unsafe {
            library::pugdrel_decode_line(
                degree,
                cells.as_mut_ptr(),
                cells.len(),
                filling_low,
                filling_high,
                report.as_mut_ptr(),
                report.len(),
            )
        }
    }

    /// Reports the count.
    pub fn messages(
        degree: u64,
        incoming: &[u8],
        channel: &[u8],
        filling_low: u64,
        filling_high: u64,
        messages: &mut [u8],
        report: &mut [u64],
    ) -> u64 {
        // SAFETY: as in `decode`.
        unsafe {
            library::pugdrel_messages(
                degree,
                incoming.as_ptr(),
                incoming.len(),
                channel.as_ptr(),
                channel.len(),
                filling_low,
                filling_high,
                messages.as_mut_ptr(),
                messages.len(),
                report.as_mut_ptr(),
                report.len(),
            )
        }
    }

    /// Reports the bytes written to `output`, whose length is 16596.
    pub fn sheet(input: &[u8], output: &mut [u8], report: &mut [u64]) -> u64 {
        // SAFETY: as in `decode`.
        unsafe {
            library::pugdrel_sheet(
                input.as_ptr(),
                input.len(),
                output.as_mut_ptr(),
                output.len(),
                report.as_mut_ptr(),
                report.len(),
            )
        }
    }

    /// Reports the sheet's number.
    pub fn read_blocks(file: &[u8], cells: &mut [u8], report: &mut [u64]) -> u64 {
        // SAFETY: as in `decode`.
        unsafe {
            library::pugdrel_read_blocks(
                file.as_ptr(),
                file.len(),
                cells.as_mut_ptr(),
                cells.len(),
                report.as_mut_ptr(),
                report.len(),
            )
        }
    }

    /// Reports nothing.
    pub fn write_blocks(number: u16, cells: &[u8], file: &mut [u8]) -> u64 {
        // SAFETY: as in `decode`.
        unsafe {
            library::pugdrel_write_blocks(
                number,
                cells.as_ptr(),
                cells.len(),
                file.as_mut_ptr(),
                file.len(),
            )
        }
    }

    /// Reports nothing.
    pub fn load(
        degree: u64,
        seed: u64,
        wrong: u64,
        unsure: u64,
        message: &[u8],
        cells: &mut [u8],
    ) -> u64 {
        // SAFETY: as in `decode`.
        unsafe {
            library::pugdrel_load(
                degree,
                seed,
                wrong,
                unsure,
                message.as_ptr(),
                message.len(),
                cells.as_mut_ptr(),
                cells.len(),
            )
        }
    }
}

/// The C interface, as `include/pugdrel.h` declares it.
mod library {
    unsafe extern "C" {
        pub fn pugdrel_version() -> u64;

        pub fn pugdrel_decode(
            degree: u64,
            iterations: u64,
            received: *const u8,
            received_len: usize,
            filling: *const u64,
            filling_len: usize,
            cells: *mut u8,
            cells_len: usize,
            report: *mut u64,
            report_len: usize,
        ) -> u64;

        pub fn pugdrel_encode(
            degree: u64,
            message: *const u8,
            message_len: usize,
            cells: *mut u8,
            cells_len: usize,
        ) -> u64;

        pub fn pugdrel_extract(
            degree: u64,
            cells: *const u8,
            cells_len: usize,
            message: *mut u8,
            message_len: usize,
        ) -> u64;

        pub fn pugdrel_row(
            degree: u64,
            cells: *const u8,
            cells_len: usize,
            index: usize,
            report: *mut u64,
            report_len: usize,
        ) -> u64;

        pub fn pugdrel_bounded_distance(
            degree: u64,
            word: *mut u8,
            word_len: usize,
            report: *mut u64,
            report_len: usize,
        ) -> u64;

        pub fn pugdrel_decode_line(
            degree: u64,
            cells: *mut u8,
            cells_len: usize,
            filling_low: u64,
            filling_high: u64,
            report: *mut u64,
            report_len: usize,
        ) -> u64;

        pub fn pugdrel_messages(
            degree: u64,
            incoming: *const u8,
            incoming_len: usize,
            channel: *const u8,
            channel_len: usize,
            filling_low: u64,
            filling_high: u64,
            messages: *mut u8,
            messages_len: usize,
            report: *mut u64,
            report_len: usize,
        ) -> u64;

        pub fn pugdrel_sheet(
            input: *const u8,
            input_len: usize,
            output: *mut u8,
            output_len: usize,
            report: *mut u64,
            report_len: usize,
        ) -> u64;

        pub fn pugdrel_read_blocks(
            file: *const u8,
            file_len: usize,
            cells: *mut u8,
            cells_len: usize,
            report: *mut u64,
            report_len: usize,
        ) -> u64;

        pub fn pugdrel_write_blocks(
            number: u16,
            cells: *const u8,
            cells_len: usize,
            file: *mut u8,
            file_len: usize,
        ) -> u64;

        pub fn pugdrel_load(
            degree: u64,
            seed: u64,
            wrong: u64,
            unsure: u64,
            message: *const u8,
            message_len: usize,
            cells: *mut u8,
            cells_len: usize,
        ) -> u64;
    }
}
