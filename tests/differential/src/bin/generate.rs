//! Writes the library and the journal of a seed into a folder: `generate valid|damaged|long SEED FOLDER`.

use differential::coverage::Coverage;
use differential::scenario;
use std::path::Path;
use std::process::ExitCode;

fn main() -> ExitCode {
    let words: Vec<String> = std::env::args().skip(1).collect();
    let [kind, seed, folder] = &words[..] else {
        eprintln!("usage: generate valid|damaged|long SEED FOLDER");
        return ExitCode::from(2);
    };
    let make = match kind.as_str() {
        "valid" => scenario::valid,
        "damaged" => scenario::damaged,
        _ => scenario::long,
    };
    let Ok(seed) = seed.parse() else {
        eprintln!("{seed}: no seed");
        return ExitCode::from(2);
    };
    let scenario = make(seed, &mut Coverage::default());
    let folder = Path::new(folder);
    let files = [("library", scenario.library), ("input", Some(scenario.input)), ("output", Some(scenario.output))];
    for (name, bytes) in files.into_iter().filter_map(|(name, bytes)| Some((name, bytes?))) {
        if let Err(error) = std::fs::create_dir_all(folder).and_then(|()| std::fs::write(folder.join(name), bytes)) {
            eprintln!("{}: {error}", folder.display());
            return ExitCode::FAILURE;
        }
    }
    ExitCode::SUCCESS
}
