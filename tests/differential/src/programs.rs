//! Running a program, on a journal or with words behind its name.

use crate::random::Random;
use crate::scenario::Scenario;
use std::fs::{self, File};
use std::io::{self, BufRead, BufReader, Read, Write};
use std::path::PathBuf;
use std::process::{Child, Command, Stdio};
use std::sync::mpsc;
use std::thread;
use std::time::Duration;

/// How long a program may take for a journal, or for one answer in a dialogue.
const PATIENCE: Duration = Duration::from_secs(60);

/// How the input reaches a program.
pub enum Feed {
    /// From a file.
    Whole,
    /// Through a pipe, in pieces that end anywhere.
    Pieces(Random),
    /// Line by line, each answer waited for before the next line, and some lines in two parts.
    Dialogue(Random),
}

/// What a shift starts from: the image where there is one, else the library.
#[derive(Clone, Copy)]
pub struct Files<'a> {
    pub library: Option<&'a [u8]>,
    pub image: Option<&'a [u8]>,
}

/// What comes of a shift.
#[derive(PartialEq, Eq)]
pub struct Shift {
    pub output: Vec<u8>,
    /// The image that the folder holds after it; none where there is none.
    pub image: Option<Vec<u8>>,
}

impl Feed {
    /// Most journals are fed whole, some in pieces of any size, some line by line with each answer waited for.
    pub fn of(seed: u64) -> Feed {
        match seed % 8 {
            0 => Feed::Pieces(Random::new(seed)),
            1 => Feed::Dialogue(Random::new(seed)),
            _ => Feed::Whole,
        }
    }
}

/// A program, and the folder that it runs in.
pub struct Program {
    path: PathBuf,
    folder: PathBuf,
}

impl Program {
    pub fn new(path: &str) -> Result<Self, String> {
        let path = fs::canonicalize(path).map_err(|error| format!("{path}: {error}"))?;
        let folder = std::env::temp_dir().join(format!("differential-{}", std::process::id()));
        fs::create_dir_all(&folder).map_err(|error| format!("{}: {error}", folder.display()))?;
        Ok(Program { path, folder })
    }

    /// What the program writes.
    pub fn run(&self, scenario: &Scenario, feed: Feed) -> Result<Vec<u8>, String> {
        self.prepare(scenario).map_err(|error| error.to_string())?;
        self.fed(&[], &scenario.input, feed)
    }

    /// What the program writes with words behind its name, on an input that is also the folder's file.
    fn fed(&self, words: &[&str], input: &[u8], feed: Feed) -> Result<Vec<u8>, String> {
        match feed {
            Feed::Whole => self.whole(words),
            Feed::Pieces(random) => self.pieces(words, input, random),
            Feed::Dialogue(random) => self.dialogue(words, input, random),
        }
    }

    /// Puts the library into the folder, or takes it out.
    pub fn hold(&self, library: Option<&[u8]>) -> io::Result<()> {
        self.put("library", library)
    }

    fn put(&self, name: &str, bytes: Option<&[u8]>) -> io::Result<()> {
        let file = self.folder.join(name);
        match bytes {
            Some(bytes) => fs::write(file, bytes),
            None => fs::remove_file(file).or_else(|error| match error.kind() {
                io::ErrorKind::NotFound => Ok(()),
                _ => Err(error),
            }),
        }
    }

    /// What the program writes on the library held, with words behind its name and no input.
    pub fn ask(&self, words: &[&str]) -> Result<Vec<u8>, String> {
        collect(self.start(words, Stdio::null())?)
    }

    /// One shift, or what other words make of the same files: what the program writes, and the image that it leaves.
    pub fn shift(&self, words: &[&str], files: &Files, input: &[u8], feed: Feed) -> Result<Shift, String> {
        self.hold(files.library)
            .and_then(|()| self.put("image", files.image))
            .and_then(|()| self.put("input", Some(input)))
            .map_err(|error| error.to_string())?;
        let output = self.fed(words, input, feed)?;
        let left = fs::read_dir(&self.folder).map_err(|error| error.to_string())?;
        for file in left.flatten().map(|file| file.file_name()) {
            if file != "library" && file != "image" && file != "input" {
                return Err(format!("it leaves {}", file.display()));
            }
        }
        let image = fs::read(self.folder.join("image")).ok();
        self.put("image", None).map_err(|error| error.to_string())?;
        Ok(Shift { output, image })
    }

    fn prepare(&self, scenario: &Scenario) -> io::Result<()> {
        self.hold(scenario.library.as_deref())?;
        fs::write(self.folder.join("input"), &scenario.input)
    }

    fn start(&self, words: &[&str], input: Stdio) -> Result<Child, String> {
        let mut command = Command::new(&self.path);
        command.args(words).current_dir(&self.folder).stdin(input).stdout(Stdio::piped());
        command.spawn().map_err(|error| format!("{}: {error}", self.path.display()))
    }

    fn whole(&self, words: &[&str]) -> Result<Vec<u8>, String> {
        let input = File::open(self.folder.join("input")).map_err(|error| error.to_string())?;
        collect(self.start(words, input.into())?)
    }

    fn pieces(&self, words: &[&str], input: &[u8], mut random: Random) -> Result<Vec<u8>, String> {
        let mut child = self.start(words, Stdio::piped())?;
        let stdin = child.stdin.take();
        let input = input.to_vec();
        let most = *random.pick(&[3, 50, 5_000]);
        let writer = thread::spawn(move || {
            let Some(mut stdin) = stdin else { return };
            let mut left = &input[..];
            while !left.is_empty() {
                let (piece, rest) = left.split_at(random.between(1, most).min(left.len()));
                // a program that refused its library no longer reads
                if stdin.write_all(piece).and_then(|()| stdin.flush()).is_err() {
                    return;
                }
                left = rest;
            }
        });
        let output = collect(child);
        writer.join().map_err(|_| "the writer of the input failed".to_string())?;
        output
    }

    fn dialogue(&self, words: &[&str], input: &[u8], mut random: Random) -> Result<Vec<u8>, String> {
        let mut child = self.start(words, Stdio::piped())?;
        let mut stdin = child.stdin.take().ok_or("no standard input")?;
        let stdout = child.stdout.take().ok_or("no standard output")?;
        let (sender, answers) = mpsc::channel();
        thread::spawn(move || {
            let mut stdout = BufReader::new(stdout);
            loop {
                let mut answer = vec![];
                match stdout.read_until(b'\n', &mut answer) {
                    Ok(1..) if sender.send(answer).is_ok() => {}
                    _ => return,
                }
            }
        });
        let mut output = vec![];
        for line in input.split_inclusive(|byte| *byte == b'\n') {
            write_split(&mut stdin, line, &mut random).map_err(|error| error.to_string())?;
            if line.ends_with(b"\n") {
                match answers.recv_timeout(PATIENCE) {
                    Ok(answer) => output.extend(answer),
                    Err(_) => return Err(stop(child, "a line is not answered before more input")),
                }
            }
        }
        drop(stdin);
        while let Ok(answer) = answers.recv_timeout(PATIENCE) {
            output.extend(answer);
        }
        finished(child)?;
        Ok(output)
    }
}

/// Writes a line to a program that waits for it; in two parts, which it reads one by one, if it is long or by chance.
fn write_split(stdin: &mut impl Write, line: &[u8], random: &mut Random) -> io::Result<()> {
    let (begun, rest) = line.split_at(random.below(line.len()));
    if line.len() > 30 || random.percent(10) {
        stdin.write_all(begun)?;
        stdin.flush()?;
        thread::sleep(Duration::from_micros(300));
        return stdin.write_all(rest);
    }
    stdin.write_all(line)
}

/// All that the program writes until it ends.
fn collect(mut child: Child) -> Result<Vec<u8>, String> {
    let mut stdout = child.stdout.take().ok_or("no standard output")?;
    let (sender, outputs) = mpsc::channel();
    thread::spawn(move || {
        let mut output = vec![];
        let read = stdout.read_to_end(&mut output);
        let _ = sender.send(read.map(|_| output));
    });
    match outputs.recv_timeout(PATIENCE) {
        Ok(output) => finished(child).and(output.map_err(|error| error.to_string())),
        Err(_) => Err(stop(child, "it does not end")),
    }
}

fn finished(mut child: Child) -> Result<(), String> {
    let status = child.wait().map_err(|error| error.to_string())?;
    if status.code().is_some() { Ok(()) } else { Err(format!("it was ended by a signal: {status}")) }
}

fn stop(mut child: Child, what: &str) -> String {
    let _ = child.kill();
    let _ = child.wait();
    what.to_string()
}

impl Drop for Program {
    fn drop(&mut self) {
        let _ = fs::remove_dir_all(&self.folder);
    }
}
