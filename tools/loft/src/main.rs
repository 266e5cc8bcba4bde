//! loft: plans that a loft can write, check and read.

#[macro_use]
mod printing;

mod accounts;
mod arguments;
mod audit;
mod body;
mod build;
mod decompile;
mod draw;
mod explain;
mod journal;
mod language;
mod library;
mod library_reader;
mod model;
mod names;
mod plan_source;
mod program;
#[cfg(test)]
mod refusals;
mod replay;
#[cfg(test)]
mod round_trip;
mod show;
mod stored;
mod words;

use language::source::nearest;
use std::process::ExitCode;

/// Exit statuses.
pub const FINE: i32 = 0;
pub const FAULTS: i32 = 1;
pub const BAD_USAGE: i32 = 2;

type Command = fn(&[String]) -> i32;

/// Each command, and what it does in a line.
const COMMANDS: &[(&str, &str, Command)] = &[
    ("build", "compiles plans to a library and its names", build::run),
    ("check", "says what build would, and writes nothing", build::run_check),
    ("decompile", "prints a library as plans", decompile::run),
    ("show", "prints plans with their bodies as trees", show::run),
    ("draw", "draws a card for each plan, and a map (SVG)", draw::run),
    ("explain", "tells a journal in words, with the reasons", explain::run),
    ("audit", "runs the program again on a journal's input and compares; checks demand 3", audit::run),
    ("accounts", "prints a row for each reported event of a journal", accounts::run),
];

fn main() -> ExitCode {
    let words: Vec<String> = std::env::args_os().skip(1).map(|word| word.to_string_lossy().into_owned()).collect();
    ExitCode::from(run(&words) as u8)
}

fn run(words: &[String]) -> i32 {
    let Some(word) = words.first() else {
        eprint!("{}", help());
        return BAD_USAGE;
    };
    let is_help = ["help", "--help", "-h"].contains(&word.as_str());
    match words.get(1) {
        Some(of) if is_help => command(of, &["--help".into()]),
        None if is_help => {
            print!("{}", help());
            FINE
        }
        _ => command(word, &words[1..]),
    }
}

fn command(name: &str, words: &[String]) -> i32 {
    if let Some((_, _, command)) = COMMANDS.iter().find(|(known, _, _)| *known == name) {
        return command(words);
    }
    eprintln!("loft: there is no command '{name}'");
    nearest(name, COMMANDS.iter().map(|(known, _, _)| *known)).iter().for_each(|hint| eprintln!("  = {hint}"));
    eprint!("\n{}", help());
    BAD_USAGE
}

fn help() -> String {
    let mut text = String::from("loft: plans that a loft can write, check and read\n\n");
    for (name, what, _) in COMMANDS {
        text.push_str(&format!("  loft {name:10} {what}\n"));
    }
    text.push_str("\n  loft COMMAND --help says more. Exit status: 0 fine, 1 faults found, 2 bad usage.\n");
    text
}
