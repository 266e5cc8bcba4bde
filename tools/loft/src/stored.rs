//! The files that a journal's commands work on: a library with its names, an input and an output.

use crate::arguments::{bad_file, bad_usage, Arguments};
use crate::decompile::names_beside;
use crate::library::{self, Library};
use crate::names::Names;
use crate::replay::Replay;
use crate::{BAD_USAGE, FAULTS};
use std::path::Path;

/// The paths of a stored journal.
pub struct Paths<'a> {
    pub library: &'a Path,
    pub input: &'a Path,
    pub output: &'a Path,
}

/// The three files that a command was given.
pub fn paths<'a>(arguments: &'a Arguments, help: &str) -> Result<Paths<'a>, i32> {
    match &arguments.plain[..] {
        [source, ..] if is_source(source) => {
            Err(bad(format!("{source} is a source; its library is wanted here, which 'loft build {source}' writes")))
        }
        [library, input, output] => Ok(Paths { library: Path::new(library), input: Path::new(input), output: Path::new(output) }),
        other => {
            let count = other.len();
            Err(bad_usage(&format!("a library, an input and an output are wanted, and here are {count} file names"), help))
        }
    }
}

/// Whether a file is one of plans, by its name.
pub fn is_source(path: &str) -> bool {
    Path::new(path).extension().is_some_and(|extension| extension == "plan")
}

/// A library with its names.
pub struct Stored {
    pub library: Library,
    pub names: Names,
}

impl Stored {
    /// Reads a library, and its names from a file that is given, else from the one beside it, else none.
    pub fn read(path: &Path, names: Option<&str>) -> Result<Self, i32> {
        let bytes = read_file(path)?;
        let library = library::read(&bytes).map_err(|refusal| {
            eprintln!("{}: {refusal}", path.display());
            FAULTS
        })?;
        let names = names_beside(&path.display().to_string(), names, &bytes)?;
        Ok(Stored { library, names })
    }

    pub fn replay(&self, paths: &Paths, follow: bool) -> Result<Replay<'_>, i32> {
        Replay::open(&self.library, paths.input, paths.output, follow).map_err(bad)
    }
}

pub fn read_file(path: &Path) -> Result<Vec<u8>, i32> {
    std::fs::read(path).map_err(|error| bad_file(&path.display().to_string(), &error))
}

/// Says that something outside went wrong; answers the exit status.
pub fn bad(error: impl std::fmt::Display) -> i32 {
    eprintln!("loft: {error}");
    BAD_USAGE
}
