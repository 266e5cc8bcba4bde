//! Times the proved program and the reference on the same journals, turn about, and prints tables for docs/BENCHMARKS.md.
//!
//! `bench [lines] PROVED REFERENCE [RUNS]`; a program that does not exist is left out. Times are the least of RUNS runs.
//! With `lines` it prints what a line costs that comes by itself, and nothing else.

use bench::cases::{self, Case};
use bench::measure::{Folder, Measured};
use std::collections::BTreeSet;
use std::path::{Path, PathBuf};
use std::process::ExitCode;

/// How many lines of a journal callgrind sees.
const COUNTED_LINES: usize = 20_000;

/// The words that make a program start from an image.
const MODES: [&str; 2] = ["shift", "board"];

/// What one program took for one journal.
#[derive(Clone, Copy)]
struct Cost {
    nanoseconds: u64,
    instructions: u64,
}

struct Bench {
    folder: Folder,
    programs: [Option<PathBuf>; 2],
    runs: usize,
}

fn main() -> ExitCode {
    let mut words: Vec<String> = std::env::args().skip(1).collect();
    let by_line = words.first().is_some_and(|word| word == "lines");
    words.drain(..usize::from(by_line));
    let runs = words.get(2).map_or(Some(5), |runs| runs.parse().ok());
    let ([proved, reference, ..], Some(runs)) = (&words[..], runs) else {
        eprintln!("usage: bench [lines] PROVED REFERENCE [RUNS]");
        return ExitCode::from(2);
    };
    let program = |path: &String| std::fs::canonicalize(path).ok();
    let bench = Folder::new().map(|folder| Bench { folder, programs: [program(proved), program(reference)], runs });
    match bench.and_then(|bench| if by_line { bench.lines() } else { bench.tables() }) {
        Ok(()) => ExitCode::SUCCESS,
        Err(error) => {
            eprintln!("{error}");
            ExitCode::FAILURE
        }
    }
}

impl Bench {
    fn tables(&self) -> Measured<()> {
        println!("### Whole runs\n");
        println!("| Journal | Lines | Letters | Reference ms | Proved ms | Ratio | Reference Minstr | Proved Minstr | Ratio |");
        println!("|---|---:|---|---:|---:|---:|---:|---:|---:|");
        for case in cases::runs() {
            let letters = self.letters(&case)?;
            let costs = self.costs(&case.library, &case.input, &case.first_lines(COUNTED_LINES))?;
            let times = compared(costs, |cost| cost.nanoseconds, 1e6);
            let instructions = compared(costs, |cost| cost.instructions, 1e6);
            println!("| {} | {} | {letters} | {times} | {instructions} |", case.name, case.lines());
        }
        println!("\n### How the cost of a line grows\n");
        println!("| Size | Letters | Reference ns | Proved ns | Ratio | Reference instr | Proved instr | Ratio |");
        println!("|---:|---|---:|---:|---:|---:|---:|---:|");
        for (dimension, cases) in cases::growths() {
            println!("| **{dimension}** | | | | | | | |");
            for case in cases {
                self.growth(&case)?;
            }
        }
        self.images()
    }

    /// What the modes cost that start from an image: a shift without lines restores an agent and saves it again, the board shows it.
    fn images(&self) -> Measured<()> {
        println!("\n### A shift without lines, and the board\n");
        println!("| Mode | Image | Bytes | Reference ms | Proved ms | Ratio | Reference Minstr | Proved Minstr | Ratio |");
        println!("|---|---|---:|---:|---:|---:|---:|---:|---:|");
        for mode in MODES {
            for (name, image) in cases::images() {
                self.folder.set_image(&image)?;
                self.same_answers(name, &[mode])?;
                if self.folder.image()? != image {
                    return Err(format!("{mode}, {name}: another image is left").into());
                }
                let costs = self.costs_in_folder(&[mode], || Ok(()))?;
                let times = compared(costs, |cost| cost.nanoseconds, 1e6);
                let instructions = compared(costs, |cost| cost.instructions, 1e6);
                println!("| {mode} | {name} | {} | {times} | {instructions} |", image.len());
            }
        }
        Ok(())
    }

    /// The cost of a line that comes by itself, without that of starting and loading.
    fn lines(&self) -> Measured<()> {
        println!("| Journal, a line at a time | Lines | Letters | Reference µs | Proved µs | Ratio |");
        println!("|---|---:|---|---:|---:|---:|");
        for case in cases::lines() {
            let letters = self.letters(&case)?;
            let whole = self.least(|program| self.folder.time_of_lines(program, &case.input))?;
            let start = self.least(|program| self.folder.time_of_lines(program, b""))?;
            let cost = |place: usize| {
                let nanoseconds = whole[place]?.saturating_sub(start[place]?) / case.lines() as u64;
                Some(Cost { nanoseconds, instructions: 0 })
            };
            let times = compared([cost(0), cost(1)], |cost| cost.nanoseconds, 1e3);
            println!("| {} | {} | {letters} | {times} |", case.name, case.lines());
        }
        Ok(())
    }

    /// The least of some runs of each program, turn about.
    fn least(&self, time: impl Fn(&Path) -> Measured<u64>) -> Measured<[Option<u64>; 2]> {
        let mut least = [None; 2];
        for _ in 0..self.runs {
            for (least, program) in least.iter_mut().zip(&self.programs) {
                if let Some(program) = program {
                    let taken = time(program)?;
                    *least = Some(least.map_or(taken, |least: u64| least.min(taken)));
                }
            }
        }
        Ok(least)
    }

    /// The cost of a line, without that of starting and loading.
    fn growth(&self, case: &Case) -> Measured<()> {
        let letters = self.letters(case)?;
        let counted = case.first_lines(COUNTED_LINES);
        let whole = self.costs(&case.library, &case.input, &counted)?;
        let start = self.costs(&case.library, b"", b"")?;
        let counted = COUNTED_LINES.min(case.lines()) as u64;
        let line = |whole: Option<Cost>, start: Option<Cost>| {
            let (whole, start) = (whole?, start?);
            Some(Cost {
                nanoseconds: whole.nanoseconds.saturating_sub(start.nanoseconds) * 10 / case.lines() as u64,
                instructions: whole.instructions.saturating_sub(start.instructions) * 10 / counted,
            })
        };
        let costs = [line(whole[0], start[0]), line(whole[1], start[1])];
        let times = compared(costs, |cost| cost.nanoseconds, 10.0);
        let instructions = compared(costs, |cost| cost.instructions, 10.0);
        println!("| {} | {letters} | {times} | {instructions} |", case.name);
        Ok(())
    }

    /// The least time of some runs, the programs turn about, and the instructions of a shorter journal.
    fn costs(&self, library: &[u8], input: &[u8], counted: &[u8]) -> Measured<[Option<Cost>; 2]> {
        self.folder.set(library, input)?;
        self.costs_in_folder(&[], || self.folder.set(library, counted))
    }

    /// The same on what the folder holds, with words behind the programs' names; `shorten` comes before instructions are counted.
    fn costs_in_folder(&self, words: &[&str], shorten: impl FnOnce() -> Measured<()>) -> Measured<[Option<Cost>; 2]> {
        let least = self.least(|program| self.folder.time(program, words))?;
        shorten()?;
        let cost = |place: usize| -> Measured<Option<Cost>> {
            let (Some(program), Some(nanoseconds)) = (&self.programs[place], least[place]) else { return Ok(None) };
            Ok(Some(Cost { nanoseconds, instructions: self.folder.instructions(program, words)? }))
        };
        Ok([cost(0)?, cost(1)?])
    }

    /// The letters of the answers, on which the programs must agree.
    fn letters(&self, case: &Case) -> Measured<String> {
        self.folder.set(&case.library, &case.input)?;
        let answers = self.same_answers(&case.name, &[])?;
        let lines = answers.split(|byte| *byte == b'\n');
        let letters: BTreeSet<&u8> = lines.filter_map(|line| line.first()).collect();
        Ok(letters.into_iter().map(|letter| char::from(*letter)).collect())
    }

    /// What the programs answer on what the folder holds, if they agree.
    fn same_answers(&self, name: &str, words: &[&str]) -> Measured<Vec<u8>> {
        let programs = self.programs.iter().flatten();
        let mut answers: Vec<Vec<u8>> = programs.map(|program| self.folder.answers(program, words)).collect::<Measured<_>>()?;
        if answers.windows(2).any(|pair| pair[0] != pair[1]) {
            return Err(format!("{name}: the programs differ").into());
        }
        Ok(answers.pop().unwrap_or_default())
    }
}

/// Reference, proved and the proved program's share of the reference, in units.
fn compared([proved, reference]: [Option<Cost>; 2], part: fn(Cost) -> u64, unit: f64) -> String {
    let value = |cost: Option<Cost>| cost.map(|cost| part(cost) as f64 / unit);
    let show = |value: Option<f64>| value.map_or("-".to_string(), |value| format!("{value:.2}"));
    let ratio = value(proved).zip(value(reference)).map(|(proved, reference)| proved / reference);
    format!("{} | {} | {}", show(value(reference)), show(value(proved)), show(ratio))
}
