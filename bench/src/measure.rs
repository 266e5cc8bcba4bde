//! Processor time and instructions of a program.

use std::fs::{self, File};
use std::io::{BufRead, BufReader, Read, Write};
use std::path::{Path, PathBuf};
use std::process::{Child, Command, Stdio};

pub type Measured<T> = Result<T, Box<dyn std::error::Error>>;

/// A folder in which programs run, with the files "library", "image" and "input".
pub struct Folder(PathBuf);

impl Folder {
    pub fn new() -> Measured<Self> {
        let folder = std::env::temp_dir().join(format!("bench-{}", std::process::id()));
        fs::create_dir_all(&folder)?;
        Ok(Folder(folder))
    }

    pub fn set(&self, library: &[u8], input: &[u8]) -> Measured<()> {
        fs::write(self.0.join("library"), library)?;
        Ok(fs::write(self.0.join("input"), input)?)
    }

    /// Holds an image and an input without lines.
    pub fn set_image(&self, image: &[u8]) -> Measured<()> {
        fs::write(self.0.join("image"), image)?;
        Ok(fs::write(self.0.join("input"), b"")?)
    }

    /// The image that the folder holds.
    pub fn image(&self) -> Measured<Vec<u8>> {
        Ok(fs::read(self.0.join("image"))?)
    }

    fn command(&self, program: &Path, words: &[&str]) -> Measured<Command> {
        let mut command = Command::new(program);
        command.args(words).current_dir(&self.0).stdin(File::open(self.0.join("input"))?);
        command.stdout(Stdio::null()).stderr(Stdio::piped());
        Ok(command)
    }

    /// Nanoseconds on a processor, user and system, as the kernel counts them for the ended process.
    pub fn time(&self, program: &Path, words: &[&str]) -> Measured<u64> {
        let mut child = self.command(program, words)?.spawn()?;
        let mut errors = String::new();
        if let Some(mut stderr) = child.stderr.take() {
            stderr.read_to_string(&mut errors)?;
        }
        counted(child, program, &errors)
    }

    /// The same where each line is written into a pipe once the line before it is answered.
    pub fn time_of_lines(&self, program: &Path, input: &[u8]) -> Measured<u64> {
        let mut command = Command::new(program);
        command.current_dir(&self.0).stdin(Stdio::piped()).stdout(Stdio::piped());
        let mut child = command.spawn()?;
        let (Some(mut stdin), Some(stdout)) = (child.stdin.take(), child.stdout.take()) else { return Err("no pipes".into()) };
        let mut answers = BufReader::new(stdout);
        let mut answer = Vec::new();
        for line in input.split_inclusive(|byte| *byte == b'\n') {
            stdin.write_all(line)?;
            answers.read_until(b'\n', &mut answer)?;
        }
        drop(stdin);
        answers.read_to_end(&mut answer)?;
        counted(child, program, "")
    }

    /// Instructions, by callgrind.
    pub fn instructions(&self, program: &Path, words: &[&str]) -> Measured<u64> {
        let mut command = self.command(Path::new("valgrind"), &["--tool=callgrind", "--callgrind-out-file=/dev/null"])?;
        command.arg(program).args(words);
        let output = command.output()?;
        let errors = String::from_utf8_lossy(&output.stderr);
        let collected = errors.lines().find_map(|line| line.split_once("Collected : "));
        let (_, count) = collected.ok_or_else(|| format!("callgrind says no count: {errors}"))?;
        Ok(count.trim().parse()?)
    }

    /// The answers of a program.
    pub fn answers(&self, program: &Path, words: &[&str]) -> Measured<Vec<u8>> {
        Ok(self.command(program, words)?.stdout(Stdio::piped()).output()?.stdout)
    }
}

/// The nanoseconds of a process whose output has ended.
fn counted(mut child: Child, program: &Path, errors: &str) -> Measured<u64> {
    let counted = fs::read_to_string(format!("/proc/{}/schedstat", child.id()))?;
    let status = child.wait()?;
    if !status.success() {
        return Err(format!("{}: {status} {errors}", program.display()).into());
    }
    Ok(counted.split(' ').next().unwrap_or_default().parse()?)
}

impl Drop for Folder {
    fn drop(&mut self) {
        let _ = fs::remove_dir_all(&self.0);
    }
}
