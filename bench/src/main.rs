//! The program `bench`. Its commands are functions of the library beside it.

#![forbid(unsafe_code)]

use std::process::ExitCode;

use pugdrel_bench::arguments::{Arguments, Failure};
use pugdrel_bench::{blocks, conformance, load, malformed, picture, simulate, times, timing};

const USAGE: &str = "\
bench COMMAND

  conformance [--seed S] [--count N]   random calls of the library beside the plain implementation
  replay FILE                          one call, as 'conformance' prints it where the two disagree
  malformed PATH [--seed S]            the program 'sheet' at PATH on good and broken inputs
  timing [--rounds R] [--seed S] [--plots DIR]
                                       the library beside the implementations in Rust
  times [--arrays N] [--rounds R] [--seed S]
                                       microseconds of one decoding on this machine
  blocks [--rounds R] [--seed S]       the reader and the writer of the recorder's files beside those in C and in Rust
  load [--rounds R] [--seed S]         the load of a sheet from a seed beside those in C and in Rust
  simulate [--degree D] [--arrays N] [--failures F] [--seed S] [--from DB] [--to DB] [--step DB] [--probe DB] [--plots DIR]
                                       a receiver behind Gaussian noise: bit error rates and decodings
  picture RECEIVED SENT OUT            an SVG of the array in the file RECEIVED and of what the library makes of it
";

fn main() -> ExitCode {
    match run() {
        Ok(()) => ExitCode::SUCCESS,
        Err(why) => {
            eprintln!("bench: {why}");
            ExitCode::FAILURE
        }
    }
}

fn run() -> Result<(), Failure> {
    let mut arguments = Arguments::new(std::env::args().skip(1))?;
    match arguments.word("a command").unwrap_or_default().as_str() {
        "conformance" => conformance::conformance(arguments),
        "replay" => conformance::replay(arguments),
        "malformed" => malformed::malformed(arguments),
        "timing" => timing::timing(arguments),
        "times" => times::times(arguments),
        "blocks" => blocks::blocks(arguments),
        "load" => load::load(arguments),
        "simulate" => simulate::simulate(arguments),
        "picture" => picture::picture(arguments),
        _ => Err(USAGE.into()),
    }
}
