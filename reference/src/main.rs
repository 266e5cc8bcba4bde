//! Not proved: the program, on the file "library". Without words behind its name it is the journal: standard input in, a line out
//! for each line. `shift` is the same from the file "image", where there is one, and saves the agent to it when the input ends.
//! `board` writes a line for each live instance of that agent. `endings PLAN N` tells how many lists of N answers end the body of
//! a plan: succeeded, failed.

use reference::agent::Agent;
use reference::board;
use reference::endings::Endings;
use reference::image;
use reference::journal::{Journal, write_line};
use reference::library::Library;
use reference::refusal::Refusal;
use std::ffi::OsString;
use std::fs::{self, File};
use std::io::{self, ErrorKind, Read, Write};
use std::process::ExitCode;

/// The most bytes that a library's file may have.
const LARGEST_FILE: u64 = 65_535;
const PIECE: usize = 1 << 16;
const IMAGE: &str = "image";
/// What an image is written to before it takes the place of the old one.
const NEW_IMAGE: &str = "image.new";
const USAGE: &str = "usage: reference [shift | board | endings PLAN N]";
const STATUS_OF_USAGE: u8 = 2;

/// What the words behind the program's name ask for.
enum Mode {
    Journal,
    Shift,
    Board,
    Endings { plan: u16, length: u16 },
}

fn main() -> ExitCode {
    let words: Vec<OsString> = std::env::args_os().skip(1).collect();
    let Some(mode) = mode(&words) else {
        eprintln!("{USAGE}");
        return ExitCode::from(STATUS_OF_USAGE);
    };
    let done = match mode {
        Mode::Journal => run_journal(),
        Mode::Shift => run_shift(),
        Mode::Board => write_board(),
        Mode::Endings { plan, length } => write_endings(plan, length),
    };
    match done {
        Ok(()) => ExitCode::SUCCESS,
        Err(error) => {
            eprintln!("{error}");
            ExitCode::FAILURE
        }
    }
}

fn mode(words: &[OsString]) -> Option<Mode> {
    let words: Vec<&str> = words.iter().map(|word| word.to_str()).collect::<Option<_>>()?;
    match words[..] {
        [] => Some(Mode::Journal),
        ["shift"] => Some(Mode::Shift),
        ["board"] => Some(Mode::Board),
        ["endings", plan, length] => Some(Mode::Endings { plan: number(plan)?, length: number(length)? }),
        _ => None,
    }
}

/// A number in base ten of 1 to 5 digits, at most 65,535.
fn number(word: &str) -> Option<u16> {
    let digits = word.len() <= 5 && word.bytes().all(|byte| byte.is_ascii_digit());
    if digits { word.parse().ok() } else { None }
}

fn write_endings(plan: u16, length: u16) -> io::Result<()> {
    let counted = read("library").and_then(|library| Endings::of(&library, plan, length));
    let mut output = io::stdout().lock();
    match counted {
        Ok(endings) => writeln!(output, "{} {}", endings.succeeded, endings.failed),
        Err(refusal) => writeln!(output, "X {}", refusal.number()),
    }
}

fn run_journal() -> io::Result<()> {
    run(from_library()).map(drop)
}

fn run_shift() -> io::Result<()> {
    match run(carried_over()?)? {
        Some(agent) => save(&agent),
        None => Ok(()),
    }
}

fn write_board() -> io::Result<()> {
    let mut output = io::stdout().lock();
    match carried_over()? {
        Ok(agent) => output.write_all(board::page(&agent).as_bytes()),
        Err(refusal) => writeln!(output, "X {}", refusal.number()),
    }
}

/// The agent of the image where there is one, else of the library.
fn carried_over() -> io::Result<Result<Agent, Refusal>> {
    match fs::read(IMAGE) {
        Err(error) if error.kind() == ErrorKind::NotFound => Ok(from_library()),
        read => Ok(image::restore(&read?)),
    }
}

fn from_library() -> Result<Agent, Refusal> {
    read("library").and_then(|library| Library::decode(&library)).map(Agent::new)
}

/// Answers the lines of the input; the agent after them, if there was one.
fn run(agent: Result<Agent, Refusal>) -> io::Result<Option<Agent>> {
    let mut output = io::stdout().lock();
    let mut answers = Vec::with_capacity(PIECE);
    let agent = match agent {
        Ok(agent) => agent,
        Err(refusal) => {
            write_line(&mut answers, &Err(refusal));
            return output.write_all(&answers).map(|()| None);
        }
    };
    let mut journal = Journal::new(agent);
    let mut input = io::stdin().lock();
    let mut piece = vec![0; PIECE];
    loop {
        match input.read(&mut piece) {
            Ok(0) => break,
            Ok(length) => journal.feed(&piece[..length], &mut answers),
            Err(error) if error.kind() == ErrorKind::Interrupted => continue,
            Err(error) => return Err(error),
        }
        output.write_all(&answers)?;
        output.flush()?;
        answers.clear();
    }
    journal.finish(&mut answers);
    output.write_all(&answers)?;
    output.flush()?;
    Ok(Some(journal.into_agent()))
}

/// Puts the agent's image in place of the old one, so that a power cut leaves one of the two.
fn save(agent: &Agent) -> io::Result<()> {
    let mut file = File::create(NEW_IMAGE)?;
    file.write_all(&image::image(agent))?;
    file.sync_all()?;
    fs::rename(NEW_IMAGE, IMAGE)?;
    File::open(".")?.sync_all()
}

/// The bytes of a library's file; one that is missing or cannot be read counts as empty.
fn read(path: &str) -> Result<Vec<u8>, Refusal> {
    let mut bytes = Vec::new();
    let read = File::open(path).and_then(|file| file.take(LARGEST_FILE + 1).read_to_end(&mut bytes));
    if read.is_err() {
        bytes.clear();
    }
    if bytes.len() as u64 > LARGEST_FILE {
        return Err(Refusal::Packing);
    }
    Ok(bytes)
}
