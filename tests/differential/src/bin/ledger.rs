//! Checks a journal by itself: `ledger LIBRARY INPUT OUTPUT`.

use differential::ledger::{check, parse};
use std::process::ExitCode;

fn main() -> ExitCode {
    let words: Vec<String> = std::env::args().skip(1).collect();
    let [library, input, output] = &words[..] else {
        eprintln!("usage: ledger LIBRARY INPUT OUTPUT");
        return ExitCode::from(2);
    };
    let read = |path: &String| std::fs::read(path).map_err(|error| format!("{path}: {error}"));
    let checked = || {
        let library = read(library)?;
        if let Err(refusal) = reference::library::Library::decode(&library) {
            return Err(format!("the library is refused with {}", refusal.number()));
        }
        check(parse::beliefs(&library), &read(input)?, &read(output)?)
    };
    match checked() {
        Ok(beliefs) => {
            println!("the journal keeps demand 3; {} beliefs at its end", beliefs.len());
            ExitCode::SUCCESS
        }
        Err(rule) => {
            println!("{rule}");
            ExitCode::FAILURE
        }
    }
}
