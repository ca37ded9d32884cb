//! The command `malformed`: the program `sheet` on good and broken inputs, beside what document 01 says it prints.

use std::io::{ErrorKind, Write};
use std::process::{Command, Stdio};
use std::thread;
use std::time::Duration;

use crate::arguments::{Arguments, Failure};
use crate::damage;
use crate::plain::{Code, Degree, UNSURE, text};
use crate::random::Random;

/// An input and what it is called in the table.
#[derive(Clone)]
struct Case {
    name: String,
    input: Vec<u8>,
}

pub fn malformed(mut arguments: Arguments) -> Result<(), Failure> {
    let program = arguments.word("the path of the program 'sheet'")?;
    let seed: u64 = arguments.option("seed", 1)?;
    arguments.end()?;
    let cases = cases(&mut Random::new(seed));
    println!("| input | bytes | first line printed |");
    println!("|---|---|---|");
    for case in &cases {
        let expected = text::printed(&case.input);
        // Once in one piece, once in pieces with a pause between: a pipe may give less than was asked for.
        for pieces in [1, 3] {
            let printed = run(&program, &case.input, pieces)?;
            if printed != expected {
                return Err(disagreement(case, &printed, &expected).into());
            }
        }
        let first = expected.split(|&byte| byte == b'\n').next();
        let first = String::from_utf8_lossy(first.unwrap_or_default());
        println!("| {} | {} | `{first}` |", case.name, case.input.len());
    }
    println!("{} inputs: {program} prints what it should", cases.len());
    Ok(())
}

/// What the program prints for an input that comes in so many pieces.
fn run(program: &str, input: &[u8], pieces: usize) -> Result<Vec<u8>, Failure> {
    let mut child = Command::new(program)
        .stdin(Stdio::piped())
        .stdout(Stdio::piped())
        .spawn()
        .map_err(|why| format!("{program}: {why}"))?;
    let mut pipe = child.stdin.take().ok_or("no pipe to the program")?;
    let input = input.to_vec();
    // In a thread of its own, so that neither side waits for the other to empty its pipe.
    let writer = thread::spawn(move || {
        for piece in input.chunks(input.len().div_ceil(pieces).max(1)) {
            match pipe.write_all(piece) {
                // The program may end before it has read all of a long input.
                Err(why) if why.kind() == ErrorKind::BrokenPipe => return Ok(()),
                other => other?,
            }
            if pieces > 1 {
                thread::sleep(Duration::from_millis(2));
            }
        }
        Ok::<(), std::io::Error>(())
    });
    let output = child.wait_with_output()?;
    writer.join().map_err(|_| "the writing thread failed")??;
    if !output.status.success() {
        return Err(format!("{program} ended with {}", output.status).into());
    }
    Ok(output.stdout)
}

fn disagreement(case: &Case, printed: &[u8], expected: &[u8]) -> String {
    let shown = |bytes: &[u8]| String::from_utf8_lossy(bytes).into_owned();
    format!(
        "{}: it prints\n{}and should print\n{}for the input {:?}",
        case.name,
        shown(printed),
        shown(expected),
        shown(&case.input)
    )
}

fn cases(random: &mut Random) -> Vec<Case> {
    let mut cases = first_lines();
    for degree in Degree::ALL {
        let zeros = text::sheet_input(degree, &vec![0; degree.n() * degree.n()]);
        let named = |case: Case| Case {
            name: format!("degree {}: {}", degree.number(), case.name),
            input: case.input,
        };
        let of_degree = [
            good(degree, &zeros, random),
            wrong_lengths(degree.n(), &zeros),
            other_degrees(degree, &zeros),
            wrong_newlines(degree.n(), &zeros),
            other_characters(degree.n(), &zeros),
        ];
        cases.extend(of_degree.into_iter().flatten().map(named));
    }
    cases.push(case("a megabyte of NUL", &[0; MEGABYTE]));
    cases.push(case("a megabyte of newlines", &[b'\n'; MEGABYTE]));
    cases.extend((1..=40).map(|number| {
        let length = random.below(300);
        case(&format!("random bytes {number}"), &random.bytes(length))
    }));
    cases
}

const MEGABYTE: usize = 1 << 20;

fn case(name: &str, input: &[u8]) -> Case {
    Case {
        name: name.to_string(),
        input: input.to_vec(),
    }
}

/// The text with one byte replaced.
fn with(text: &[u8], place: usize, byte: u8) -> Vec<u8> {
    let mut text = text.to_vec();
    text[place] = byte;
    text
}

/// Inputs that are, or end in, a first line; all but three of them are refused as 1.
fn first_lines() -> Vec<Case> {
    let lines: [(&str, &[u8]); 21] = [
        ("nothing", b""),
        ("`4` without a newline", b"4"),
        ("`6` without a newline", b"6"),
        ("`7` without a newline", b"7"),
        ("a newline", b"\n"),
        ("`4` and a newline alone", b"4\n"),
        ("`6` and a newline alone", b"6\n"),
        ("`7` and a newline alone", b"7\n"),
        ("`04`", b"04\n"),
        ("`4` and CR LF", b"4\r\n"),
        ("`4` and CR", b"4\r"),
        ("a space before `4`", b" 4\n"),
        ("a space after `4`", b"4 \n"),
        ("`+4`", b"+4\n"),
        ("`46`", b"46\n"),
        ("`5`", b"5\n"),
        ("`8`", b"8\n"),
        ("`67`", b"67\n"),
        ("`16`", b"16\n"),
        ("NUL", b"\0"),
        ("`4` and NUL", b"4\0\n"),
    ];
    lines.map(|(name, input)| case(name, input)).to_vec()
}

fn good(degree: Degree, zeros: &[u8], random: &mut Random) -> Vec<Case> {
    let unsure = text::sheet_input(degree, &vec![UNSURE; degree.n() * degree.n()]);
    let mut cases = vec![case("zeros", zeros), case("all unsure", &unsure)];
    cases.extend((1..=12).map(|number| {
        let received = damage::received(Code::of(degree), random);
        let input = text::sheet_input(degree, &received);
        case(&format!("damaged array {number}"), &input)
    }));
    cases
}

fn wrong_lengths(n: usize, zeros: &[u8]) -> Vec<Case> {
    let length = zeros.len();
    let (first_line, rows) = zeros.split_at(2);
    let many_rows = rows.repeat(1 + MEGABYTE / length);
    vec![
        case("one byte short", &zeros[..length - 1]),
        case("one line short", &zeros[..length - n - 1]),
        case("cut in the first row", &zeros[..2 + n / 2]),
        case("one byte long", &[zeros, b"0"].concat()),
        case("one newline more", &[zeros, b"\n"].concat()),
        case("rows twice", &[zeros, rows].concat()),
        case("a megabyte more", &[zeros, &[b'0'; MEGABYTE]].concat()),
        case("a megabyte of rows", &[first_line, &many_rows].concat()),
    ]
}

/// The rows of one degree under the first line of another.
fn other_degrees(degree: Degree, zeros: &[u8]) -> Vec<Case> {
    let others = Degree::ALL.into_iter().filter(|&other| other != degree);
    let cases = others.map(|other| {
        let name = format!("the first line of degree {}", other.number());
        let first_line = format!("{}\n", other.number());
        case(&name, &[first_line.as_bytes(), &zeros[2..]].concat())
    });
    cases.collect()
}

fn wrong_newlines(n: usize, zeros: &[u8]) -> Vec<Case> {
    let (first_newline, last) = (2 + n, zeros.len() - 1);
    let mut late = zeros.to_vec();
    late.swap(first_newline, first_newline + 1);
    let and_another = with(&with(zeros, first_newline, b'0'), 3, b'x');
    let crlf = String::from_utf8_lossy(&zeros[2..]).replace('\n', "\r\n");
    vec![
        case("a newline for the first cell", &with(zeros, 2, b'\n')),
        case("a newline for a cell", &with(zeros, 2 + n / 2, b'\n')),
        case("a cell for a newline", &with(zeros, first_newline, b'0')),
        case("a cell for the last newline", &with(zeros, last, b'0')),
        case("CR for a newline", &with(zeros, first_newline, b'\r')),
        case("NUL for a newline", &with(zeros, first_newline, 0)),
        case("a newline one cell late", &late),
        case("a newline missing, and another character", &and_another),
        case(
            "CR LF after every row",
            &[&zeros[..2], crlf.as_bytes()].concat(),
        ),
    ]
}

fn other_characters(n: usize, zeros: &[u8]) -> Vec<Case> {
    let characters = [
        ("`2`", b'2'),
        ("a space", b' '),
        ("`x`", b'x'),
        ("NUL", 0),
        ("CR", b'\r'),
        ("TAB", b'\t'),
        ("`/`", b'/'),
        ("`@`", b'@'),
        ("byte 255", 255),
    ];
    let (a_cell, last_cell) = (3 + n, zeros.len() - 2);
    let cases = characters.into_iter().flat_map(|(name, byte)| {
        [
            case(&format!("{name} for a cell"), &with(zeros, a_cell, byte)),
            case(
                &format!("{name} for the last cell"),
                &with(zeros, last_cell, byte),
            ),
        ]
    });
    cases.collect()
}
