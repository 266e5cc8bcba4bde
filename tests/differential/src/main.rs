//! Runs the proved program and the reference on the same libraries and journals and compares every byte.
//!
//! Each seed gives a valid library with a deep journal and a damaged library. Every journal is also checked by itself
//! (`ledger`). The first difference ends the run, with the seed and the line.

use differential::coverage::{Coverage, LETTERS, REFUSALS};
use differential::ledger::{self, parse};
use differential::programs::{Feed, Program};
use differential::scenario::{self, Scenario};
use std::process::ExitCode;
use std::time::Instant;

const USAGE: &str = "usage: differential [--seeds N] [--first N] [--long N] [--counts] [--strict] [PROVED [REFERENCE]]
  --seeds N   so many seeds (default 300), each a valid and a damaged library
  --first N   the first seed (default 0)
  --long N    so many journals whose numbers pass 65,535 (default 0)
  --counts    print how often each thing came up
  --strict    fail where something never came up
  PROVED      default: $PROVED, or crates/canarystand/out/canarystand
  REFERENCE   default: $REFERENCE, or target/cargo/release/reference";

struct Options {
    seeds: u64,
    first: u64,
    long: u64,
    counts: bool,
    strict: bool,
    programs: Vec<String>,
}

fn options() -> Option<Options> {
    let mut options = Options { seeds: 300, first: 0, long: 0, counts: false, strict: false, programs: vec![] };
    let mut words = std::env::args().skip(1);
    while let Some(word) = words.next() {
        match word.as_str() {
            "--seeds" => options.seeds = words.next()?.parse().ok()?,
            "--first" => options.first = words.next()?.parse().ok()?,
            "--long" => options.long = words.next()?.parse().ok()?,
            "--counts" => options.counts = true,
            "--strict" => options.strict = true,
            _ if word.starts_with('-') || options.programs.len() == 2 => return None,
            _ => options.programs.push(word),
        }
    }
    Some(options)
}

fn main() -> ExitCode {
    let Some(options) = options() else {
        eprintln!("{USAGE}");
        return ExitCode::from(2);
    };
    match run(&options) {
        Ok(()) => ExitCode::SUCCESS,
        Err(difference) => {
            println!("{difference}");
            ExitCode::FAILURE
        }
    }
}

fn run(options: &Options) -> Result<(), String> {
    let start = Instant::now();
    let named = |place: usize, variable: &str, default: &str| {
        let given = options.programs.get(place).cloned().or_else(|| std::env::var(variable).ok());
        Program::new(&given.unwrap_or_else(|| default.to_string()))
    };
    let proved = named(0, "PROVED", "crates/canarystand/out/canarystand")?;
    let reference = named(1, "REFERENCE", "target/cargo/release/reference")?;
    let mut coverage = Coverage::default();
    for seed in options.first..options.first + options.seeds {
        compare(&scenario::valid(seed, &mut coverage), &proved, &reference, Feed::of(seed))?;
        compare(&scenario::damaged(seed, &mut coverage), &proved, &reference, Feed::Whole)?;
    }
    for seed in 0..options.long {
        compare(&scenario::long(seed, &mut coverage), &proved, &reference, Feed::Whole)?;
    }
    if options.counts {
        print_counts(&coverage);
    }
    summary(options, &coverage, start);
    let missing = coverage.missing();
    let blind = if missing.is_empty() { Ok(()) } else { Err(format!("never came up: {}", missing.join(", "))) };
    if options.strict { blind } else { Ok(()) }
}

fn compare(scenario: &Scenario, proved: &Program, reference: &Program, feed: Feed) -> Result<(), String> {
    let name = &scenario.name;
    let expected = reference.run(scenario, Feed::Whole).map_err(|error| format!("{name}: reference: {error}"))?;
    if expected != scenario.output {
        return Err(format!("{name}: the reference as a program and as a library: {}", first_difference(scenario, &expected)));
    }
    let output = proved.run(scenario, feed).map_err(|error| format!("{name}: proved: {error}"))?;
    if output != scenario.output {
        return Err(format!("{name}: {}", first_difference(scenario, &output)));
    }
    let accepted = scenario.library.as_deref().filter(|library| reference::library::Library::decode(library).is_ok());
    let Some(library) = accepted else { return Ok(()) };
    let replayed = ledger::check(parse::beliefs(library), &scenario.input, &output);
    let replayed = replayed.map_err(|rule| format!("{name}: the journal by itself: {rule}"))?;
    let held: Vec<_> = scenario.beliefs.iter().map(|fact| fact.stored()).collect();
    if replayed == held { Ok(()) } else { Err(format!("{name}: the replayed beliefs are not those held at the end")) }
}

/// The first line that differs, with the line that it answers.
fn first_difference(scenario: &Scenario, output: &[u8]) -> String {
    let (ours, theirs) = (parse::lines(&scenario.output), parse::lines(output));
    let calls = parse::lines(&scenario.input);
    let differs = |place: &usize| ours.get(*place) != theirs.get(*place);
    let Some(place) = (0..ours.len().max(theirs.len())).find(differs) else {
        return "the last newline differs".to_string();
    };
    let show = |lines: &[&[u8]]| {
        let line = lines.get(place).map(|line| String::from_utf8_lossy(&line[..line.len().min(200)]).into_owned());
        line.map_or("no line".to_string(), |line| format!("{line:?}"))
    };
    format!("line {} in {}: reference {}, other {}", place + 1, show(&calls), show(&ours), show(&theirs))
}

fn print_counts(coverage: &Coverage) {
    for (group, names) in Coverage::groups() {
        println!("{group}");
        for name in names {
            println!("{:>10}  {name}", coverage.count(name));
        }
    }
}

fn summary(options: &Options, coverage: &Coverage, start: Instant) {
    let counts = |names: &[&str]| {
        let count = |name: &&str| format!("{name}: {}", coverage.count(name));
        names.iter().map(count).collect::<Vec<_>>().join(", ")
    };
    println!(
        "differential: {} seeds, {} lines agree in {:.1} s; {}; {}",
        options.seeds,
        coverage.lines,
        start.elapsed().as_secs_f64(),
        counts(LETTERS),
        counts(REFUSALS)
    );
}
