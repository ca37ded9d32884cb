//! The commands `conformance` and `replay`: the library beside the plain implementation, call by call.

use std::fs;
use std::io::{IsTerminal, Write};
use std::time::{Duration, Instant};

use crate::arguments::{Arguments, Failure};
use crate::call::{Call, Entry, Outcome, Side};
use crate::calls::{Mix, load_call, random_call, read_call, write_call};
use crate::damage;
use crate::fast::{Decoder, Effort};
use crate::plain::line::known_differences;
use crate::plain::{Code, Degree, Half, UNSURE, erasures};
use crate::random::Random;
use crate::recorder;

/// Makes random calls on both sides until one differs, and says at the end how many were made of each kind.
pub fn conformance(mut arguments: Arguments) -> Result<(), Failure> {
    let seed: u64 = arguments.option("seed", 1)?;
    let count: u64 = arguments.option("count", 2000)?;
    arguments.end()?;
    for mix in Mix::ALL {
        let count = mix.calls(count);
        let run = format!("of seed {seed}, {}", mix.name);
        let tally = agreeing_calls(&mix, count, &mut Random::new(seed))
            .map_err(|why| format!("{why}, {run}"))?;
        tally.print(&mix);
        println!("{count} calls {run}: all agree");
        println!();
    }
    Ok(())
}

/// Makes so many calls on both sides; an error at the first one that differs.
fn agreeing_calls(mix: &Mix, count: u64, random: &mut Random) -> Result<Tally, Failure> {
    let mut tally = Tally::default();
    let mut progress = Progress::new(count);
    let fast = Degree::ALL.map(Decoder::new);
    for done in 0..count {
        progress.show(done);
        let call = if random.one_in(20) {
            known_call(mix, random)?
        } else {
            random_call(mix, random)
        };
        if let Some(outcomes) = call.disagreement() {
            progress.clear();
            println!("{}", disagreement_text(&call, &outcomes));
            return Err(format!("a disagreement at call {done}").into());
        }
        let outcome = call.run(Side::Library);
        compare_with_fast(&fast, &call, &outcome)?;
        tally.add(&call, &outcome);
    }
    progress.clear();
    Ok(tally)
}

/// Makes one call, from its text in a file, on both sides.
pub fn replay(mut arguments: Arguments) -> Result<(), Failure> {
    let file = arguments.word("a file with a call")?;
    arguments.end()?;
    let call: Call = fs::read_to_string(&file)?.parse()?;
    match call.disagreement() {
        Some(outcomes) => {
            println!("{}", disagreement_text(&call, &outcomes));
            Err(format!("{file}: a disagreement").into())
        }
        None => {
            println!(
                "{file}: both sides agree, with refusal {}",
                call.run(Side::Library).refusal
            );
            Ok(())
        }
    }
}

/// A call whose outcome a demand tells, which the library alone is held to. It is handed on, to be compared with the plain one as well.
fn known_call(mix: &Mix, random: &mut Random) -> Result<Call, Failure> {
    if mix.has(Entry::ReadBlocks) {
        there_and_back(random)
    } else if mix.has(Entry::Load) {
        as_many_as_told(random.pick(mix.degrees), random)
    } else {
        within_condition(random.pick(mix.degrees), random)
    }
}

/// Demand 3's last sentence, by the library alone: an array that it encodes, damaged within the row condition, must come
/// out as sent, closed, and with its message. The decoding is handed on.
fn within_condition(degree: Degree, random: &mut Random) -> Result<Call, Failure> {
    let (n, k) = (degree.n(), degree.k());
    let mut encode = Call::new(Entry::Encode, degree.number());
    encode.input = random.bits(k * k);
    encode.output = random.bytes(n * n);
    let sent = encode.run(Side::Library).after.output;

    let mut decode = Call::new(Entry::Decode, degree.number());
    decode.iterations = random.between(1, 2) as u64;
    decode.input = damage::within_condition(&sent, n, random);
    decode.filling = damage::filling(degree, degree.lines(decode.iterations), random);
    decode.output = random.bytes(n * n);
    decode.report = random.words(3);
    let decoded = decode.run(Side::Library).after;

    let mut extract = Call::new(Entry::Extract, degree.number());
    extract.input.clone_from(&decoded.output);
    extract.output = random.bytes(k * k);
    let message = extract.run(Side::Library).after.output;

    let closed = decoded.report[1..] == [0, 1];
    if decoded.output != sent || !closed || message != encode.input {
        println!("{encode}\n{decode}\n{extract}");
        return Err("an array within the row condition did not come out as sent".into());
    }
    Ok(decode)
}

/// W-201 by the library alone: "writing what was read yields the file's own bytes, and reading what was written yields the
/// sheet". The reading is handed on.
fn there_and_back(random: &mut Random) -> Result<Call, Failure> {
    let number = recorder::number(random);
    let write = write_call(number, recorder::sheet(random), random);
    let file = write.run(Side::Library).after.output;
    let read = read_call(file.clone(), random);
    let sheet = read.run(Side::Library).after;
    let again = write_call(sheet.report[0] as u16, sheet.output.clone(), random);
    let own_bytes = again.run(Side::Library).after.output == file;
    if !own_bytes || sheet.output != write.input || sheet.report != [u64::from(number)] {
        println!("{write}\n{read}\n{again}");
        return Err("a sheet was not read as it was written, or not written as it was read".into());
    }
    Ok(read)
}

/// W-204 by the library alone: "the shuffle holds each place a single time, so exactly D and E cells are hit". The load is handed on.
fn as_many_as_told(degree: Degree, random: &mut Random) -> Result<Call, Failure> {
    let load = load_call(degree, random);
    let mut encode = Call::new(Entry::Encode, load.degree);
    encode.input.clone_from(&load.input);
    encode.output.clone_from(&load.output);
    let sent = encode.run(Side::Library).after.output;
    let received = load.run(Side::Library).after.output;
    let unsure = erasures(&received) as u64;
    let wrong = known_differences(&received, &sent) as u64;
    if (wrong, unsure) != (load.wrong, load.unsure) {
        println!("{encode}\n{load}");
        return Err(format!("a load with {wrong} cells wrong and {unsure} unsure").into());
    }
    Ok(load)
}

/// The fast decoder is a third opinion on a decoding that is taken.
fn compare_with_fast(fast: &[Decoder], call: &Call, outcome: &Outcome) -> Result<(), Failure> {
    let degree = match Degree::named(call.degree) {
        Some(degree) if call.entry == Entry::Decode && outcome.refusal == 0 => degree,
        _ => return Ok(()),
    };
    let decoder = &fast[degree.place()];
    for effort in [Effort::Counted, Effort::Needed] {
        let mut cells = vec![0; call.output.len()];
        let report = decoder.decode(
            effort,
            call.iterations,
            &call.input,
            &call.filling,
            &mut cells,
        );
        let numbers = [report.count, report.erasures, u64::from(report.closed)];
        if cells != outcome.after.output || numbers[..] != outcome.after.report {
            println!("{call}");
            return Err(format!("the fast decoder ({effort:?}) differs").into());
        }
    }
    Ok(())
}

/// The call as `replay` takes it, and what each side made of it.
fn disagreement_text(call: &Call, outcomes: &[Outcome; 2]) -> String {
    let [library, plain] = outcomes;
    let mut text = format!("{call}\n# Each line above is input for 'replay'.\n");
    text += &format!(
        "# refusal: library {}, plain {}\n",
        library.refusal, plain.refusal
    );
    if library.strayed {
        text += "# the library wrote beside what it was lent\n";
    }
    text += &differences("output", &library.after.output, &plain.after.output);
    text += &differences("report", &library.after.report, &plain.after.report);
    text
}

fn differences<T: PartialEq + std::fmt::Debug>(name: &str, library: &[T], plain: &[T]) -> String {
    let pairs = || library.iter().zip(plain).enumerate();
    let apart = pairs().filter(|(_, (library, plain))| library != plain);
    let lines = apart.map(|(place, (library, plain))| {
        format!("# {name}[{place}]: library {library:?}, plain {plain:?}\n")
    });
    lines.collect()
}

/// Refusals are numbered from 1 to this.
const REFUSALS: usize = 9;

/// What a run went through, so that a reader sees what it did not.
#[derive(Default)]
struct Tally {
    /// Calls of each entry by refusal number.
    calls: [[u64; REFUSALS + 1]; Entry::ALL.len()],
    /// Of the decodings that were taken: those that ended closed, the sum of their counts, and what that would be if no
    /// line had more or less than the two decodings that it starts with.
    closed: u64,
    count: u64,
    two_a_line: u64,
    /// Those that ended with one test of closed failed alone: rows, columns, unsure cells.
    almost_closed: [u64; 3],
}

impl Tally {
    fn add(&mut self, call: &Call, outcome: &Outcome) {
        let refusal = (outcome.refusal as usize).min(REFUSALS);
        self.calls[call.entry.place()][refusal] += 1;
        if call.entry == Entry::Decode && refusal == 0 {
            let lines = call.filling.len() as u64 / 2;
            self.closed += outcome.after.report[2];
            self.count += outcome.after.report[0];
            self.two_a_line += 2 * lines;
            if let Some(test) = failed_alone(call.degree, &outcome.after.output) {
                self.almost_closed[test] += 1;
            }
        }
    }

    /// Prints what was counted of the entries that the mix has.
    fn print(&self, mix: &Mix) {
        let refused: String = (1..=REFUSALS)
            .map(|number| format!(" refused {number} |"))
            .collect();
        println!("| entry | taken |{refused}");
        println!("|{}", "---|".repeat(2 + REFUSALS));
        for entry in Entry::ALL.into_iter().filter(|&entry| mix.has(entry)) {
            let numbers = self.calls[entry.place()].map(|number| number.to_string());
            println!("| {} | {} |", entry.name(), numbers.join(" | "));
        }
        if mix.has(Entry::Decode) {
            self.print_decodings();
        }
    }

    fn print_decodings(&self) {
        let [taken, ..] = self.calls[Entry::Decode.place()];
        println!(
            "Of {taken} decodings, {} closed; counts sum to {}, where 2 a line would be {}.",
            self.closed, self.count, self.two_a_line
        );
        let [rows, columns, unsure] = self.almost_closed;
        println!(
            "Of the others, {rows} with good columns and rows off, {columns} with good rows and columns off, \
             {unsure} with good lines and unsure cells."
        );
    }
}

/// Which of the three tests of closed is the only one that an array fails, if one is: 0 for rows, 1 for columns, 2 for unsure cells,
/// which are read as 0 in the lines.
fn failed_alone(degree: u64, cells: &[u8]) -> Option<usize> {
    let code = Code::of(Degree::named(degree)?);
    let ones: Vec<u8> = cells.iter().map(|&cell| cell % UNSURE).collect();
    let failed = [
        !code.has_codewords(&ones, Half::Rows),
        !code.has_codewords(&ones, Half::Columns),
        erasures(cells) > 0,
    ];
    match failed {
        [true, false, false] => Some(0),
        [false, true, false] => Some(1),
        [false, false, true] => Some(2),
        _ => None,
    }
}

/// How far a run has come, on standard error: now and then a line, or on a terminal a line that is overwritten.
struct Progress {
    all: u64,
    start: Instant,
    next: Duration,
    on_terminal: bool,
}

impl Progress {
    fn new(all: u64) -> Progress {
        Progress {
            all,
            start: Instant::now(),
            next: Duration::from_secs(1),
            on_terminal: std::io::stderr().is_terminal(),
        }
    }

    fn show(&mut self, done: u64) {
        let passed = self.start.elapsed();
        if passed < self.next {
            return;
        }
        let (pause, end) = if self.on_terminal {
            (1, '\r')
        } else {
            (10, '\n')
        };
        self.next = passed + Duration::from_secs(pause);
        eprint!("{done} of {} calls agree{end}", self.all);
        let _ = std::io::stderr().flush();
    }

    fn clear(&self) {
        if self.on_terminal {
            eprint!("\r\x1b[K");
        }
    }
}
