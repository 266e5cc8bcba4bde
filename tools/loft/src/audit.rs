//! `loft audit`: the program run again on a stored input, its answers compared, and demand 3 checked on the stored lines.

use crate::arguments::Arguments;
use crate::journal::{Lines, Read, LONGEST_KEPT};
use crate::library;
use crate::program::Program;
use crate::replay::shown;
use crate::stored::{bad, paths, read_file};
use crate::words::plural;
use crate::{FAULTS, FINE};
use differential::ledger::{parse, Ledger};
use std::path::Path;

const HELP: &str = "\
loft audit LIBRARY INPUT OUTPUT

Is this the program's journal? Runs the proved program on the library and the stored input and compares its answers with
the stored output: the same to the last byte, or the first line that differs; a torn last line and missing answers are
told apart. Then checks demand 3 on the stored lines by themselves: every instance and event accounted for once.

  --program FILE   the program; else canarystand beside loft, else as the repository builds it, else on the PATH

Exit status: 0 the same and demand 3 kept, 1 not, 2 bad usage.
";

pub fn run(words: &[String]) -> i32 {
    audit(words).unwrap_or_else(|status| status)
}

fn audit(words: &[String]) -> Result<i32, i32> {
    let arguments = Arguments::read(words, HELP, &["--program"], &[])?;
    let paths = paths(&arguments, HELP)?;
    let bytes = read_file(paths.library)?;
    let program = Program::find(arguments.option("--program")).map_err(bad)?;
    let compared = compare(&program, &bytes, paths.input, paths.output).map_err(bad)?;
    println!("{}", compared.told());
    let kept = match library::read(&bytes) {
        Ok(_) => demand_3(&bytes, paths.input, paths.output).map_err(bad)?,
        Err(refusal) => {
            println!("demand 3 on the lines: the library is refused with {}, so there are no calls", refusal.number);
            true
        }
    };
    Ok(if kept && matches!(compared, Compared::Same(_)) { FINE } else { FAULTS })
}

// ---- The program's answers beside the stored ones

/// What the comparison found; each with the number of lines that are the same.
enum Compared {
    Same(u64),
    Differs { same: u64, call: Vec<u8>, stored: Vec<u8>, program: Vec<u8> },
    Torn { same: u64, stored: Vec<u8>, program: Vec<u8>, missing: u64 },
    Missing { same: u64, missing: u64 },
    Beyond { same: u64, stored: Vec<u8> },
}

impl Compared {
    fn told(&self) -> String {
        match self {
            Compared::Same(lines) => format!("the program on the input: same to the last byte, {}", count(*lines)),
            Compared::Differs { same, call, stored, program } => format!(
                "the program on the input: line {} DIFFERS\n  in      {}\n  journal {}\n  program {}",
                same + 1,
                shown(call),
                shown(stored),
                shown(program)
            ),
            Compared::Torn { same, stored, program, missing } => format!(
                "the program on the input: line {} is TORN: the journal ends in {} of {}\n  {} before it the same, {} after it missing",
                same + 1,
                shown(stored),
                shown(program),
                count(*same),
                count(*missing)
            ),
            Compared::Missing { same, missing } => {
                format!("the program on the input: {} MISSING after line {same}; those there are the same", count(*missing))
            }
            Compared::Beyond { same, stored } => format!(
                "the program on the input: line {} IS TOO MUCH: {}; the program has no more answers",
                same + 1,
                shown(stored)
            ),
        }
    }
}

fn count(lines: u64) -> String {
    format!("{lines} {}", plural(lines as usize, "line"))
}

fn compare(program: &Program, library: &[u8], input: &Path, output: &Path) -> Result<Compared, String> {
    let mut running = program.start(library, input)?;
    let mut answers = Lines::from_pipe(running.stdout()?);
    let mut calls = Lines::open(input, false)?;
    let mut stored = Lines::open(output, false)?;
    let said = |error: std::io::Error| error.to_string();
    let (mut call, mut answer, mut line) = (vec![], vec![], vec![]);
    let mut same = 0;
    let found = loop {
        let answered = answers.next(&mut answer).map_err(said)?;
        let was_stored = stored.next(&mut line).map_err(said)?;
        calls.next(&mut call).map_err(said)?;
        if answer.len() == LONGEST_KEPT {
            return Err("the program's answer is longer than any of the agent's: is it canarystand?".into());
        }
        match (answered, was_stored) {
            (Read::Line, Read::Line) if answer == line => same += 1,
            (Read::End, Read::End) => break Compared::Same(same),
            (Read::End, _) => break Compared::Beyond { same, stored: line },
            (_, Read::End) => break Compared::Missing { same, missing: 1 + rest(&mut answers).map_err(said)? },
            (_, Read::Torn) if answer.starts_with(&line) => {
                let missing = rest(&mut answers).map_err(said)?;
                break Compared::Torn { same, stored: line, program: answer, missing };
            }
            _ => break Compared::Differs { same, call, stored: line, program: answer },
        }
    };
    running.finish(!matches!(found, Compared::Differs { .. }))?;
    Ok(found)
}

/// How many lines are left.
fn rest<R: std::io::Read>(lines: &mut Lines<R>) -> std::io::Result<u64> {
    let (mut line, mut left) = (vec![], 0);
    while lines.next(&mut line)? != Read::End {
        left += 1;
    }
    Ok(left)
}

// ---- Demand 3

/// Checks the whole stored lines by the checker of tests/differential, says what it found; whether demand 3 is kept.
fn demand_3(library: &[u8], input: &Path, output: &Path) -> Result<bool, String> {
    let (mut calls, mut answers) = (Lines::open(input, false)?, Lines::open(output, false)?);
    let said = |error: std::io::Error| error.to_string();
    let mut ledger = Ledger::new(parse::beliefs(library));
    let (mut call, mut answer) = (vec![], vec![]);
    let mut number = 0;
    loop {
        let whole = answers.next(&mut answer).map_err(said)? == Read::Line;
        if !whole || calls.next(&mut call).map_err(said)? == Read::End {
            break;
        }
        number += 1;
        let rule = match parse::answer(&answer) {
            Some(read) => ledger.line(parse::call(&call), &read).err(),
            None => Some("this is no answer".into()),
        };
        if let Some(rule) = rule {
            println!("demand 3 on the lines: BROKEN at line {number}: {rule}");
            println!("  in      {}\n  journal {}", shown(&call), shown(&answer));
            return Ok(false);
        }
    }
    println!("demand 3 on the lines: kept, {}", count(number));
    Ok(true)
}
