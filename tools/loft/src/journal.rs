//! The journal's lines: a line in to a call, an answer to its line, and files of lines that may still grow.

use crate::library::{Literal, LARGEST_PREDICATE};
use crate::model::step::{Deed, Origin, Place, Step};
use crate::model::Call;
use std::fs::File;
use std::io::{self, BufRead, BufReader, Write};
use std::path::Path;
use std::thread;
use std::time::Duration;

/// The most bytes of a line that are kept: every line that says something is shorter.
pub const LONGEST_KEPT: usize = 4_096;
/// How much of a file is read at once.
const BUFFER: usize = 1 << 16;
/// How often a file that is followed is looked at.
const LOOK_AGAIN: Duration = Duration::from_millis(200);

// ---- A line in

/// The call of a line (document 01, "Journal").
pub fn call(line: &[u8]) -> Call {
    read_call(line).unwrap_or(Call::Unreadable)
}

fn read_call(line: &[u8]) -> Option<Call> {
    let mut words = line.split(|byte| *byte == b' ');
    let call = match words.next()? {
        b"P" => Call::Report(number(words.next()?)?, literal(&mut words)?),
        b"C" => Call::Cycle,
        b"O" => Call::Outcome(id(words.next()?)?, flag(words.next()?)?),
        _ => return None,
    };
    words.next().is_none().then_some(call)
}

/// One to five digits, at most 65,535.
fn number(word: &[u8]) -> Option<u16> {
    digits(word, 5)?.try_into().ok()
}

/// One to ten digits, at most 4,294,967,295.
fn id(word: &[u8]) -> Option<u32> {
    digits(word, 10)?.try_into().ok()
}

/// What one to `most` digits say.
fn digits(word: &[u8], most: usize) -> Option<u64> {
    if !(1..=most).contains(&word.len()) {
        return None;
    }
    let digit = |value: u64, byte: &u8| byte.is_ascii_digit().then(|| value * 10 + u64::from(byte - b'0'));
    word.iter().try_fold(0, digit)
}

fn flag(word: &[u8]) -> Option<bool> {
    match word {
        b"1" => Some(true),
        b"0" => Some(false),
        _ => None,
    }
}

fn literal<'a>(words: &mut impl Iterator<Item = &'a [u8]>) -> Option<Literal> {
    let (sign, digits) = words.next()?.split_first()?;
    let negative = match sign {
        b'+' => false,
        b'-' => true,
        _ => return None,
    };
    let predicate = number(digits).filter(|predicate| *predicate <= LARGEST_PREDICATE)?;
    let terms = [number(words.next()?)?, number(words.next()?)?, number(words.next()?)?];
    Some(Literal { negative, predicate, terms })
}

/// Why a line cannot be read.
pub fn why_unreadable(line: &[u8]) -> String {
    if line.is_empty() {
        return "it is empty".into();
    }
    if line.ends_with(b"\r") {
        return "it ends in a carriage return; lines end in a newline alone".into();
    }
    if line.iter().any(|byte| !(b' '..=b'~').contains(byte)) {
        return "it has a byte that is no plain character".into();
    }
    if line.starts_with(b" ") || line.ends_with(b" ") || line.windows(2).any(|pair| pair == b"  ") {
        return "fields have one space between and none at either end".into();
    }
    let words: Vec<&[u8]> = line.split(|byte| *byte == b' ').collect();
    match (words[0], words.len()) {
        (b"P", 6) => "a report is 'P kind literal': numbers to 65535, a sign before the predicate, the predicate to 32767".into(),
        (b"P", count) => format!("a report has 6 fields, 'P kind sign-and-predicate term term term', and this one {count}"),
        (b"C", _) => "a cycle is 'C' alone".into(),
        (b"O", _) => "an outcome is 'O id 1' (worked) or 'O id 0'".into(),
        _ => "a line is 'P ..', 'C' or 'O ..'".into(),
    }
}

// ---- An answer's line

/// Prints an answer as the program does, without a newline.
pub fn print(step: &Step, line: &mut Vec<u8>) {
    // writing to a list of bytes does not fail
    let _ = print_deed(&step.deed, line);
    for change in &step.changes {
        line.extend(if change.removes { b" r " } else { b" a " });
        let _ = print_literal(&change.literal, line);
    }
}

fn print_deed(deed: &Deed, line: &mut Vec<u8>) -> io::Result<()> {
    match deed {
        Deed::Taken(number) => write!(line, "T {number}"),
        Deed::Idle => write!(line, "I"),
        Deed::Dropped { event, failed } => write!(line, "N {event} {failed}"),
        Deed::Unmet { at, failed } => {
            print_place("U", at, line)?;
            write!(line, " {failed}")
        }
        Deed::Made { id, plan, origin: Origin::External(number) } => write!(line, "M {id} {plan} e {number}"),
        Deed::Made { id, plan, origin: Origin::Goal(at) } => write!(line, "M {id} {plan} g {}", at.instance),
        Deed::Stepped { at, next } => {
            print_place("S", at, line)?;
            write!(line, " {next}")
        }
        Deed::Missed(at) => print_place("B", at, line),
        Deed::Done { at, literal } => {
            print_place("D", at, line)?;
            line.push(b' ');
            print_literal(literal, line)
        }
        Deed::Posted(at) => print_place("G", at, line),
        Deed::Succeeded(id) => write!(line, "E {id}"),
        Deed::Failed(id) => write!(line, "F {id}"),
        Deed::Refused(number) => write!(line, "X {number}"),
    }
}

fn print_place(letter: &str, at: &Place, line: &mut Vec<u8>) -> io::Result<()> {
    write!(line, "{letter} {} {} {}", at.instance, at.state, at.branch)
}

fn print_literal(literal: &Literal, line: &mut Vec<u8>) -> io::Result<()> {
    let sign = if literal.negative { '-' } else { '+' };
    let [first, second, third] = literal.terms;
    write!(line, "{sign}{} {first} {second} {third}", literal.predicate)
}

// ---- Files of lines

/// What was read: a line with its newline, one without at the file's end, or nothing more.
#[derive(Clone, Copy, Debug, PartialEq, Eq)]
pub enum Read {
    Line,
    Torn,
    End,
}

/// The lines of a file or a pipe, one after another, in bounded memory.
pub struct Lines<R = File> {
    file: BufReader<R>,
    follow: bool,
}

impl Lines {
    pub fn open(path: &Path, follow: bool) -> Result<Self, String> {
        let said = |error: io::Error| format!("{}: {error}", path.display());
        let file = File::open(path).map_err(said)?;
        if file.metadata().map_err(said)?.is_dir() {
            return Err(format!("{}: a folder, and a file is wanted", path.display()));
        }
        Ok(Lines { file: BufReader::with_capacity(BUFFER, file), follow })
    }
}

impl<R: io::Read> Lines<R> {
    pub fn from_pipe(pipe: R) -> Self {
        Lines { file: BufReader::with_capacity(BUFFER, pipe), follow: false }
    }

    /// Reads the next line, without its newline, into `line`; waits for it where the file is followed.
    pub fn next(&mut self, line: &mut Vec<u8>) -> io::Result<Read> {
        line.clear();
        let mut begun = false;
        loop {
            let buffer = self.file.fill_buf()?;
            if buffer.is_empty() {
                if self.follow {
                    thread::sleep(LOOK_AGAIN);
                    continue;
                }
                return Ok(if begun { Read::Torn } else { Read::End });
            }
            begun = true;
            let newline = buffer.iter().position(|byte| *byte == b'\n');
            let part = &buffer[..newline.unwrap_or(buffer.len())];
            line.extend(&part[..part.len().min(LONGEST_KEPT - line.len())]);
            let used = newline.map_or(buffer.len(), |place| place + 1);
            self.file.consume(used);
            if newline.is_some() {
                return Ok(Read::Line);
            }
        }
    }
}
