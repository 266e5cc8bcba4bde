//! The proved program, run in a folder of its own.

use std::fs::{self, File};
use std::path::{Path, PathBuf};
use std::process::{Child, ChildStdout, Command, Stdio};
use std::time::{SystemTime, UNIX_EPOCH};

const NAME: &str = "canarystand";
/// From the folder of loft to the program, where the repository has built both.
const BESIDE_LOFT: [&str; 2] = ["canarystand", "../../../crates/canarystand/out/canarystand"];

pub struct Program(PathBuf);

/// The program at work; its folder goes with it.
pub struct Running {
    child: Child,
    folder: PathBuf,
}

impl Program {
    /// The program that is named, or the first of the places where it may be.
    pub fn find(named: Option<&str>) -> Result<Self, String> {
        if let Some(path) = named {
            return fs::canonicalize(path).map(Program).map_err(|error| format!("{path}: {error}"));
        }
        let loft = std::env::current_exe().ok();
        let folder = loft.as_deref().and_then(Path::parent);
        let beside = folder.into_iter().flat_map(|folder| BESIDE_LOFT.map(|place| folder.join(place)));
        let paths = std::env::var_os("PATH").unwrap_or_default();
        let on_path = std::env::split_paths(&paths).map(|folder| folder.join(NAME)).collect::<Vec<_>>();
        let found = beside.chain(on_path).find(|path| path.is_file()).and_then(|path| fs::canonicalize(path).ok());
        found.map(Program).ok_or_else(|| format!("{NAME} is not beside loft nor on the PATH: --program FILE says where it is"))
    }

    /// Starts the program on a library's bytes and the lines of a file.
    pub fn start(&self, library: &[u8], input: &Path) -> Result<Running, String> {
        let said = |error: std::io::Error| error.to_string();
        let lines = File::open(input).map_err(|error| format!("{}: {error}", input.display()))?;
        let now = SystemTime::now().duration_since(UNIX_EPOCH).map_or(0, |since| since.subsec_nanos());
        let folder = std::env::temp_dir().join(format!("loft-{}-{now}", std::process::id()));
        fs::create_dir_all(&folder).map_err(said)?;
        fs::write(folder.join("library"), library).map_err(said)?;
        let mut command = Command::new(&self.0);
        command.current_dir(&folder).stdin(lines).stdout(Stdio::piped());
        match command.spawn() {
            Ok(child) => Ok(Running { child, folder }),
            Err(error) => {
                let _ = fs::remove_dir_all(&folder);
                Err(format!("{}: {error}", self.0.display()))
            }
        }
    }
}

impl Running {
    pub fn stdout(&mut self) -> Result<ChildStdout, String> {
        self.child.stdout.take().ok_or_else(|| "the program has no standard output".into())
    }

    /// Waits for the end; an error where the program should have ended by itself and was ended by a signal. One whose answers are not
    /// read to their end is ended here, while its pipe is open: else it would say on standard error that nobody reads.
    pub fn finish(mut self, by_itself: bool) -> Result<(), String> {
        if !by_itself {
            let _ = self.child.kill();
        }
        let status = self.child.wait().map_err(|error| error.to_string())?;
        match (by_itself, status.code()) {
            (true, None) => Err(format!("the program was ended by a signal: {status}")),
            _ => Ok(()),
        }
    }
}

impl Drop for Running {
    fn drop(&mut self) {
        let _ = fs::remove_dir_all(&self.folder);
    }
}
