//! `loft build` and `loft check`: a source becomes a library and its names, or its faults are told.

use crate::arguments::{bad_file, bad_usage, Arguments};
use crate::language::source::counted;
use crate::language::{compile, Compiled};
use crate::library::{self, MOST_BELIEFS, MOST_PLANS, MOST_STATES};
use crate::{BAD_USAGE, FAULTS, FINE};
use std::path::Path;

const HELP: &str = "loft build CELL.plan [-o DIR]

Compiles the plans of CELL.plan and writes DIR/library, which the agent reads, and DIR/library.names, which the
other commands read. Without -o they go beside CELL.plan. With faults nothing is written.
";

const CHECK_HELP: &str = "loft check CELL.plan

Says what loft build would, and writes nothing.
";

pub fn run(words: &[String]) -> i32 {
    let arguments = match Arguments::read(words, HELP, &["-o"], &[]) {
        Ok(arguments) => arguments,
        Err(status) => return status,
    };
    let [path] = &arguments.plain[..] else { return bad_usage("build takes one file of plans", HELP) };
    let compiled = match compiled(path) {
        Ok(compiled) => compiled,
        Err(status) => return status,
    };
    let beside = Path::new(path).parent().map_or("".into(), |folder| folder.display().to_string());
    let folder = arguments.option("-o").unwrap_or(if beside.is_empty() { "." } else { &beside });
    match write(&compiled, Path::new(folder)) {
        Ok(()) => {
            let shown = Path::new(folder).join("library").display().to_string();
            println!("{}: {}", shown.strip_prefix("./").unwrap_or(&shown), summary(&compiled));
            FINE
        }
        Err(status) => status,
    }
}

pub fn run_check(words: &[String]) -> i32 {
    let arguments = match Arguments::read(words, CHECK_HELP, &[], &[]) {
        Ok(arguments) => arguments,
        Err(status) => return status,
    };
    let [path] = &arguments.plain[..] else { return bad_usage("check takes one file of plans", CHECK_HELP) };
    match compiled(path) {
        Ok(compiled) => {
            println!("{path}: {}", summary(&compiled));
            FINE
        }
        Err(status) => status,
    }
}

/// Compiles a file and tells its faults; an exit status where it cannot be read or has errors.
pub fn compiled(path: &str) -> Result<Compiled, i32> {
    let (compiled, text) = read(path)?;
    eprint!("{}", compiled.faults.shown(path, &text));
    Ok(compiled)
}

/// Compiles a file and tells its faults if there are errors; warnings alone are left to build and check.
pub fn read(path: &str) -> Result<(Compiled, String), i32> {
    let bytes = std::fs::read(path).map_err(|error| bad_file(path, &error))?;
    if bytes.contains(&0) {
        eprintln!("loft: {path}: this is no text; 'loft decompile' reads libraries");
        return Err(BAD_USAGE);
    }
    let text = String::from_utf8_lossy(&bytes);
    let file = Path::new(path).file_name().map_or(path.into(), |name| name.to_string_lossy().into_owned());
    let compiled = compile(&file, &text);
    let (errors, warnings) = (compiled.faults.errors(), compiled.faults.warnings());
    if errors > 0 {
        eprint!("{}", compiled.faults.shown(path, &text));
        eprintln!("{path}: {}, {}; nothing is built", counted(errors, "error"), counted(warnings, "warning"));
        return Err(FAULTS);
    }
    Ok((compiled, text.into_owned()))
}

fn write(compiled: &Compiled, folder: &Path) -> Result<(), i32> {
    let bytes = library::write(&compiled.library);
    let names = compiled.names.write(&bytes).into_bytes();
    std::fs::create_dir_all(folder).map_err(|error| bad_file(&folder.display().to_string(), &error))?;
    for (name, bytes) in [("library", bytes), ("library.names", names)] {
        let path = folder.join(name);
        std::fs::write(&path, bytes).map_err(|error| bad_file(&path.display().to_string(), &error))?;
    }
    Ok(())
}

/// What was built, in counts, and what copies cost.
fn summary(compiled: &Compiled) -> String {
    let (plans, beliefs) = (&compiled.library.plans, &compiled.library.beliefs);
    let bytes = library::write(&compiled.library).len();
    let mut text =
        format!("{bytes} bytes; {} of {MOST_PLANS} plans, {} of {MOST_BELIEFS} initial beliefs", plans.len(), beliefs.len());
    if let Some((place, plan)) =
        plans.iter().enumerate().max_by_key(|(place, plan)| (plan.states.len(), std::cmp::Reverse(*place)))
    {
        text.push_str(&format!("; largest body {} of {MOST_STATES} states ({})", plan.states.len(), compiled.names.plan(place)));
    }
    text.push_str(&format!("; {}", counted(compiled.faults.warnings(), "warning")));
    for (place, copies) in compiled.copies.iter().enumerate().filter(|(_, copies)| !copies.is_empty()) {
        for copy in copies {
            text.push_str(&format!("\n  {}, {}", compiled.names.plan(place), copy));
        }
    }
    text
}
