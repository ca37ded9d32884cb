//! What the library is timed beside, for safe Rust: the reader and the writer of the recorder's files in `c/blocks.c`, and the
//! damage of a load in `c/load.c`.
//!
//! The first two have the shape of the library's entries. All ask as little of their caller.

/// Reports the sheet's number.
pub fn read_blocks(file: &[u8], cells: &mut [u8], report: &mut [u64]) -> u64 {
    // SAFETY: each pointer goes with the length of its slice, which the function tests before it reads or writes there, and
    // no pointer is kept. So it is below.
    unsafe {
        in_c_read_blocks(
            file.as_ptr(),
            file.len(),
            cells.as_mut_ptr(),
            cells.len(),
            report.as_mut_ptr(),
            report.len(),
        )
    }
}

/// Reports nothing.
pub fn write_blocks(number: u16, cells: &[u8], file: &mut [u8]) -> u64 {
    // SAFETY: as in `read_blocks`.
    unsafe {
        in_c_write_blocks(
            number,
            cells.as_ptr(),
            cells.len(),
            file.as_mut_ptr(),
            file.len(),
        )
    }
}

/// Inverts `wrong` cells of an array that was encoded and makes `unsure` others unsure.
pub fn damage(seed: u64, wrong: u64, unsure: u64, cells: &mut [u8]) -> u64 {
    // SAFETY: as in `read_blocks`; the function writes to places below the length alone.
    unsafe { in_c_damage(seed, wrong, unsure, cells.as_mut_ptr(), cells.len()) }
}

unsafe extern "C" {
    fn in_c_read_blocks(
        file: *const u8,
        file_len: usize,
        cells: *mut u8,
        cells_len: usize,
        report: *mut u64,
        report_len: usize,
    ) -> u64;

    fn in_c_write_blocks(
        number: u16,
        cells: *const u8,
        cells_len: usize,
        file: *mut u8,
        file_len: usize,
    ) -> u64;

    fn in_c_damage(seed: u64, wrong: u64, unsure: u64, cells: *mut u8, cells_len: usize) -> u64;
}

#[cfg(test)]
mod tests {
    use super::*;
    use crate::call::{Call, Entry, Side};
    use crate::calls::{Mix, random_call};
    use crate::random::Random;

    /// Runs a call by the functions in C: the refusal, and what is left of the output and the report.
    fn run(call: &Call) -> (u64, Vec<u8>, Vec<u64>) {
        let (mut output, mut report) = (call.output.clone(), call.report.clone());
        let refusal = match call.entry {
            Entry::ReadBlocks => read_blocks(&call.input, &mut output, &mut report),
            _ => write_blocks(call.number, &call.input, &mut output),
        };
        (refusal, output, report)
    }

    #[test]
    fn files_are_read_and_written_as_by_the_plain_implementation() {
        let mut random = Random::new(1);
        let mut mixes = Mix::ALL.into_iter();
        let mix = mixes.find(|mix| mix.has(Entry::ReadBlocks)).unwrap();
        let mut refusals = [0; 8];
        for _ in 0..3000 {
            let call = random_call(&mix, &mut random);
            let plain = call.run(Side::Plain);
            let left = (plain.refusal, plain.after.output, plain.after.report);
            assert!(run(&call) == left, "{call}");
            refusals[plain.refusal as usize] += 1;
        }
        assert!(refusals[3..].iter().all(|&count| count > 20));
    }
}
