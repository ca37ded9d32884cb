//! A call of the library with all that is lent to it, as a value that can be run, compared, printed and read back.

use std::fmt;
use std::str::FromStr;

use crate::arguments::Failure;
use crate::{plain, pugdrel};

/// The functions of the library.
#[derive(Clone, Copy, Debug, PartialEq, Eq)]
pub enum Entry {
    Decode,
    Encode,
    Extract,
    Row,
    BoundedDistance,
    DecodeLine,
    Messages,
    Sheet,
    ReadBlocks,
    WriteBlocks,
    Load,
}

impl Entry {
    pub const ALL: [Entry; 11] = [
        Entry::Decode,
        Entry::Encode,
        Entry::Extract,
        Entry::Row,
        Entry::BoundedDistance,
        Entry::DecodeLine,
        Entry::Messages,
        Entry::Sheet,
        Entry::ReadBlocks,
        Entry::WriteBlocks,
        Entry::Load,
    ];

    /// Where it stands among all.
    pub fn place(self) -> usize {
        self as usize
    }

    pub fn name(self) -> &'static str {
        match self {
            Entry::Decode => "decode",
            Entry::Encode => "encode",
            Entry::Extract => "extract",
            Entry::Row => "row",
            Entry::BoundedDistance => "bounded_distance",
            Entry::DecodeLine => "decode_line",
            Entry::Messages => "messages",
            Entry::Sheet => "sheet",
            Entry::ReadBlocks => "read_blocks",
            Entry::WriteBlocks => "write_blocks",
            Entry::Load => "load",
        }
    }
}

/// A call. No entry uses all of the fields; what it does not use is 0 or empty.
#[derive(Clone, Debug, PartialEq, Eq)]
pub struct Call {
    pub entry: Entry,
    pub degree: u64,
    pub iterations: u64,
    /// The row to look up.
    pub index: usize,
    /// The sheet number to write.
    pub number: u16,
    /// Of a load, and the cells that it inverts and makes unsure.
    pub seed: u64,
    pub wrong: u64,
    pub unsure: u64,
    /// What is read: the received array, the message, the cells, the incoming line, the text, or the file.
    pub input: Vec<u8>,
    /// The channel line.
    pub channel: Vec<u8>,
    /// The filling words, two numbers each; a line has one.
    pub filling: Vec<u64>,
    /// What is written, or worked on in place.
    pub output: Vec<u8>,
    pub report: Vec<u64>,
}

/// Both sides of what a comparison is between: the functions of the library, and those of the plain implementation.
#[derive(Clone, Copy, Debug, PartialEq, Eq)]
pub enum Side {
    Library,
    Plain,
}

/// What a call left: the refusal number, every lent slice, and whether something beside them was written.
#[derive(Clone, Debug, PartialEq, Eq)]
pub struct Outcome {
    pub refusal: u64,
    pub after: Call,
    pub strayed: bool,
}

impl Call {
    pub fn new(entry: Entry, degree: u64) -> Call {
        Call {
            entry,
            degree,
            iterations: 0,
            index: 0,
            number: 0,
            seed: 0,
            wrong: 0,
            unsure: 0,
            input: Vec::new(),
            channel: Vec::new(),
            filling: Vec::new(),
            output: Vec::new(),
            report: Vec::new(),
        }
    }

    /// Makes the call, on copies of what is lent.
    pub fn run(&self, side: Side) -> Outcome {
        let mut after = self.clone();
        let mut output = Guarded::new(&self.output, 0xA5);
        let mut report = Guarded::new(&self.report, 0xA5A5_A5A5_A5A5_A5A5);
        let refusal = after.run_on(side, output.lent(), report.lent());
        let strayed = output.strayed() || report.strayed();
        after.output = output.lent().to_vec();
        after.report = report.lent().to_vec();
        Outcome {
            refusal,
            after,
            strayed,
        }
    }

    fn run_on(&self, side: Side, output: &mut [u8], report: &mut [u64]) -> u64 {
        match side {
            Side::Library => self.by_library(output, report),
            Side::Plain => self.by_plain(output, report),
        }
    }

    fn by_library(&self, output: &mut [u8], report: &mut [u64]) -> u64 {
        use pugdrel::entries::*;
        let (degree, [low, high]) = (self.degree, self.filling_word());
        let (input, channel) = (&self.input, &self.channel);
        match self.entry {
            Entry::Decode => {
                let (iterations, filling) = (self.iterations, &self.filling);
                decode(degree, iterations, input, filling, output, report)
            }
            Entry::Encode => encode(degree, input, output),
            Entry::Extract => extract(degree, input, output),
            Entry::Row => row(degree, input, self.index, report),
            Entry::BoundedDistance => bounded_distance(degree, output, report),
            Entry::DecodeLine => decode_line(degree, output, low, high, report),
            Entry::Messages => messages(degree, input, channel, low, high, output, report),
            Entry::Sheet => sheet(input, output, report),
            Entry::ReadBlocks => read_blocks(input, output, report),
            Entry::WriteBlocks => write_blocks(self.number, input, output),
            Entry::Load => load(degree, self.seed, self.wrong, self.unsure, input, output),
        }
    }

    /// The same, of the other module's functions.
    fn by_plain(&self, output: &mut [u8], report: &mut [u64]) -> u64 {
        use plain::entries::*;
        let (degree, [low, high]) = (self.degree, self.filling_word());
        let (input, channel) = (&self.input, &self.channel);
        match self.entry {
            Entry::Decode => {
                let (iterations, filling) = (self.iterations, &self.filling);
                decode(degree, iterations, input, filling, output, report)
            }
            Entry::Encode => encode(degree, input, output),
            Entry::Extract => extract(degree, input, output),
            Entry::Row => row(degree, input, self.index, report),
            Entry::BoundedDistance => bounded_distance(degree, output, report),
            Entry::DecodeLine => decode_line(degree, output, low, high, report),
            Entry::Messages => messages(degree, input, channel, low, high, output, report),
            Entry::Sheet => sheet(input, output, report),
            Entry::ReadBlocks => read_blocks(input, output, report),
            Entry::WriteBlocks => write_blocks(self.number, input, output),
            Entry::Load => load(degree, self.seed, self.wrong, self.unsure, input, output),
        }
    }

    /// The filling word of a line.
    fn filling_word(&self) -> plain::Filling {
        [0, 1].map(|at| self.filling.get(at).copied().unwrap_or(0))
    }

    /// Runs the call on both sides; what they left, if it is not the same.
    pub fn disagreement(&self) -> Option<[Outcome; 2]> {
        let outcomes = [Side::Library, Side::Plain].map(|side| self.run(side));
        (outcomes[0] != outcomes[1]).then_some(outcomes)
    }
}

/// A copy of lent cells between two fences that a call must not touch.
struct Guarded<T> {
    room: Vec<T>,
    fence: T,
}

const FENCE: usize = 64;

impl<T: Copy + PartialEq> Guarded<T> {
    fn new(cells: &[T], fence: T) -> Guarded<T> {
        let posts = [fence; FENCE];
        let room = [&posts, cells, &posts].concat();
        Guarded { room, fence }
    }

    fn lent(&mut self) -> &mut [T] {
        let end = self.room.len() - FENCE;
        &mut self.room[FENCE..end]
    }

    fn strayed(&self) -> bool {
        let (before, rest) = self.room.split_at(FENCE);
        let (_, after) = rest.split_at(rest.len() - FENCE);
        before.iter().chain(after).any(|&post| post != self.fence)
    }
}

/// The text form: a line for each field, its name and its value. Cells are `0`, `1` and `?`, and any other byte stands in
/// brackets as two hexadecimal digits.
impl fmt::Display for Call {
    fn fmt(&self, f: &mut fmt::Formatter) -> fmt::Result {
        writeln!(f, "entry {}", self.entry.name())?;
        writeln!(f, "degree {}", self.degree)?;
        writeln!(f, "iterations {}", self.iterations)?;
        writeln!(f, "index {}", self.index)?;
        writeln!(f, "number {}", self.number)?;
        writeln!(f, "seed {}", self.seed)?;
        writeln!(f, "wrong {}", self.wrong)?;
        writeln!(f, "unsure {}", self.unsure)?;
        writeln!(f, "input {}", cells_text(&self.input))?;
        writeln!(f, "channel {}", cells_text(&self.channel))?;
        writeln!(f, "filling {}", words_text(&self.filling))?;
        writeln!(f, "output {}", cells_text(&self.output))?;
        writeln!(f, "report {}", words_text(&self.report))
    }
}

impl FromStr for Call {
    type Err = Failure;

    fn from_str(text: &str) -> Result<Call, Failure> {
        let field = |name: &str| {
            let named = |line: &str| match line.split_once(' ') {
                Some((given, value)) => (given == name).then(|| value.trim().to_string()),
                None => (line == name).then(String::new),
            };
            let value = text.lines().find_map(named);
            value.ok_or_else(|| format!("there is no line '{name}'"))
        };
        let name = field("entry")?;
        let entry = Entry::ALL.into_iter().find(|entry| entry.name() == name);
        Ok(Call {
            entry: entry.ok_or_else(|| format!("there is no entry {name}"))?,
            degree: field("degree")?.parse()?,
            iterations: field("iterations")?.parse()?,
            index: field("index")?.parse()?,
            number: field("number")?.parse()?,
            seed: field("seed")?.parse()?,
            wrong: field("wrong")?.parse()?,
            unsure: field("unsure")?.parse()?,
            input: cells_from(&field("input")?)?,
            channel: cells_from(&field("channel")?)?,
            filling: words_from(&field("filling")?)?,
            output: cells_from(&field("output")?)?,
            report: words_from(&field("report")?)?,
        })
    }
}

fn cells_text(cells: &[u8]) -> String {
    let text = |&cell: &u8| match cell {
        0 => "0".to_string(),
        1 => "1".to_string(),
        2 => "?".to_string(),
        other => format!("[{other:02x}]"),
    };
    cells.iter().map(text).collect()
}

fn cells_from(text: &str) -> Result<Vec<u8>, Failure> {
    let mut cells = Vec::new();
    let mut left = text;
    while let Some(first) = left.chars().next() {
        left = &left[first.len_utf8()..];
        cells.push(match first {
            '0' => 0,
            '1' => 1,
            '?' => 2,
            '[' => {
                let (digits, rest) = left.split_once(']').ok_or("a bracket is not closed")?;
                left = rest;
                u8::from_str_radix(digits, 16)?
            }
            other => return Err(format!("{other:?} is not a cell").into()),
        });
    }
    Ok(cells)
}

fn words_text(words: &[u64]) -> String {
    let words: Vec<String> = words.iter().map(|word| format!("{word:016x}")).collect();
    words.join(" ")
}

fn words_from(text: &str) -> Result<Vec<u64>, Failure> {
    let word = |word| u64::from_str_radix(word, 16);
    Ok(text
        .split_whitespace()
        .map(word)
        .collect::<Result<_, _>>()?)
}

#[cfg(test)]
mod tests {
    use super::*;
    use crate::calls::{Mix, random_call};
    use crate::random::Random;

    #[test]
    fn a_call_is_read_back_as_it_was_printed() {
        let mut random = Random::new(1);
        for mix in Mix::ALL {
            for _ in 0..300 {
                let call = random_call(&mix, &mut random);
                assert_eq!(call.to_string().parse::<Call>().unwrap(), call);
            }
        }
    }

    #[test]
    fn a_broken_text_is_an_error() {
        let good = random_call(&Mix::ALL[0], &mut Random::new(2)).to_string();
        for (from, to) in [
            ("entry", "entrance"),
            ("degree ", "degree x"),
            ("output ", "output z"),
            ("report ", "report g"),
            ("input ", "input [0"),
        ] {
            assert!(good.replacen(from, to, 1).parse::<Call>().is_err());
        }
    }

    #[test]
    fn fences_see_what_is_written_beside_the_cells() {
        let mut guarded = Guarded::new(&[1u8, 2, 3], 9);
        guarded.lent().fill(0);
        assert!(!guarded.strayed());
        guarded.room[FENCE - 1] = 0;
        assert!(guarded.strayed());
    }
}
