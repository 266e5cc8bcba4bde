//! Carries generated journals over several shifts, by the proved program and by the reference, and compares what they write and the
//! images that they leave: `shifts PROVED REFERENCE [SEEDS]`. Then the images are damaged, and the answers are compared.
//! Some journals start from an image close to the last number; some images are handed on in the oldest form. The board of each
//! image is compared too.

use differential::coverage::{Coverage, SPENT};
use differential::images::kinds::{Kind, kinds};
use differential::images::{Form, Image};
use differential::programs::{Feed, Files, Program, Shift};
use differential::random::Random;
use differential::scenario;
use reference::agent::{Agent, MOST_EXTERNAL, MOST_INSTANCES, MOST_STACKS};
use reference::belief::MOST_BELIEFS;
use reference::board::page;
use reference::image::{image, restore};
use reference::refusal::Refusal;
use reference::state::Status;
use std::collections::BTreeMap;
use std::fs;
use std::process::ExitCode;
use std::time::Instant;

const DEFAULT_SEEDS: u64 = 200;
/// Damaged images made of each image.
const DAMAGED: usize = 10;
/// The lines that an accepted image is carried on with.
const CARRIED_ON: usize = 60;
const SHIFT: &[&str] = &["shift"];
const BOARD: &[&str] = &["board"];
/// The first byte of an image of the oldest form.
const OLDEST: u8 = 20;
/// One in so many shifts is also run by the reference as a program.
const SAMPLE: u64 = 16;
/// The share of images that are handed on, or damaged, in the oldest form, and of journals that start close to the last number.
const OLD: usize = 35;
const SEASONS: usize = 25;
/// What else is to come up, beside the kinds of damage and what the images hold.
const WANTED: &[&str] =
    &["old image carried over", "old image, accepted", "old image, X 12", "old image, X 10", "T over 65,535", "M over 65,535"];
/// What the boards are to show.
const BOARDS: &[&str] =
    &["pages", "lines", "empty pages", "pages of 8 stacks", "lines of height 8", "board, X 12", "board, X 10"];
/// One in so many damaged images has its board compared.
const BOARD_SAMPLE: u64 = 3;
/// How often each answer to a damaged image is to come, for each seed.
const FLOORS: [(&str, u64); 3] = [("X 12", 6), ("X 10", 6), ("accepted", 6)];
type Test = fn(&Agent) -> bool;
/// What the images are to hold when a shift ends.
const DEPTHS: &[(&str, Test)] = &[
    ("nothing to carry", |agent| agent.queue().is_empty() && agent.stacks().is_empty()),
    ("active", |agent| has(agent, Status::Active)),
    ("waiting", |agent| has(agent, Status::Waiting)),
    ("suspended", |agent| has(agent, Status::Suspended)),
    ("pending event", |agent| agent.queue().iter().any(|event| !event.served)),
    ("pending goal", |agent| agent.queue().iter().any(|event| !event.served && event.kind.is_goal())),
    ("failed plan", |agent| agent.queue().iter().any(|event| !event.failed.is_empty())),
    ("8 stacks", |agent| agent.stacks().len() == MOST_STACKS),
    ("stack of 8", |agent| agent.stacks().iter().any(|stack| stack.len() == MOST_INSTANCES)),
    ("64 beliefs", |agent| agent.beliefs().facts().len() == MOST_BELIEFS),
    ("queue over 32", |agent| agent.queue().len() > MOST_EXTERNAL),
];

fn main() -> ExitCode {
    let words: Vec<String> = std::env::args().skip(1).collect();
    let asked = match &words[..] {
        [proved, reference] => Some((proved, reference, DEFAULT_SEEDS)),
        [proved, reference, seeds] => seeds.parse().ok().map(|seeds| (proved, reference, seeds)),
        _ => None,
    };
    let Some((proved, reference, seeds)) = asked else {
        eprintln!("usage: shifts PROVED REFERENCE [SEEDS]");
        return ExitCode::from(2);
    };
    match run(proved, reference, seeds) {
        Ok(()) => ExitCode::SUCCESS,
        Err(difference) => {
            println!("{difference}");
            ExitCode::FAILURE
        }
    }
}

fn run(proved: &str, reference: &str, seeds: u64) -> Result<(), String> {
    let start = Instant::now();
    let mut survey = Survey {
        proved: Program::new(proved)?,
        reference: Program::new(reference)?,
        counts: BTreeMap::new(),
        coverage: Coverage::default(),
        kinds: kinds(),
        next_kind: 0,
    };
    for seed in 0..seeds {
        survey.journal(seed).map_err(|difference| format!("shifts, seed {seed}: {difference}"))?;
        survey.refused_library(seed).map_err(|difference| format!("shifts, damaged {seed}: {difference}"))?;
    }
    let answers = FLOORS.map(|(name, _)| format!("{name}: {}", survey.count(name))).join(", ");
    let (shifts, images, seconds) = (survey.count("shifts"), survey.count("damaged images"), start.elapsed().as_secs_f64());
    println!("shifts: {shifts} shifts of {seeds} journals and {images} damaged images agree in {seconds:.1} s; {answers}");
    let boards = BOARDS.iter().map(|name| format!("{name}: {}", survey.count(name))).collect::<Vec<_>>().join(", ");
    println!("boards: {boards}");
    let depths = DEPTHS.iter().map(|(name, _)| *name).chain(WANTED.iter().copied()).chain(SPENT.iter().chain(BOARDS).copied());
    let names = survey.kinds.iter().map(|kind| kind.name).chain(depths);
    let rarest: Vec<(u64, &str)> = names.map(|name| (survey.count(name), name)).collect();
    if let Some((count, name)) = rarest.iter().min() {
        println!("shifts: the least often, {count} times: {name}");
    }
    let few = FLOORS.iter().filter(|(name, floor)| survey.count(name) < floor * seeds).map(|(name, _)| *name);
    let missing: Vec<&str> = rarest.iter().filter(|(count, _)| *count == 0).map(|(_, name)| *name).chain(few).collect();
    if missing.is_empty() { Ok(()) } else { Err(format!("too few: {}", missing.join(", "))) }
}

fn has(agent: &Agent, status: Status) -> bool {
    agent.stacks().iter().flatten().any(|instance| instance.status == status)
}

/// The two programs, and what came up.
struct Survey {
    proved: Program,
    reference: Program,
    counts: BTreeMap<String, u64>,
    /// What came up in the journals that start close to the last number.
    coverage: Coverage,
    kinds: Vec<Kind>,
    next_kind: usize,
}

impl Survey {
    fn count(&self, name: &str) -> u64 {
        self.counts.get(name).copied().unwrap_or(0) + self.coverage.count(name)
    }

    fn note_if(&mut self, holds: bool, name: &str) {
        if holds {
            self.note(name);
        }
    }

    fn note(&mut self, name: &str) {
        *self.counts.entry(name.to_string()).or_default() += 1;
    }

    /// A journal cut at some lines: the answers of all shifts are those without a cut.
    fn journal(&mut self, seed: u64) -> Result<(), String> {
        let mut random = Random::new(seed ^ 0x5417);
        let scenario = scenario::valid(seed, &mut Coverage::default());
        if self.carried(scenario.library.as_deref(), None, &scenario.input, &mut random)? != scenario.output {
            return Err("the answers are not those without a cut".to_string());
        }
        if !random.percent(SEASONS) {
            return Ok(());
        }
        let season = scenario::season(seed, &mut self.coverage);
        let whole = expected(&image_alone(&season.image), &season.input).output;
        if self.carried(None, Some(season.image), &season.input, &mut random)? != whole {
            return Err("close to the last number, the answers are not those without a cut".to_string());
        }
        Ok(())
    }

    /// The answers to the lines in several shifts, from a library or an image. The images in between are also damaged.
    fn carried(
        &mut self,
        library: Option<&[u8]>,
        mut held: Option<Vec<u8>>,
        input: &[u8],
        random: &mut Random,
    ) -> Result<Vec<u8>, String> {
        let mut output = vec![];
        let parts = parts(input, random);
        for (place, part) in parts.iter().enumerate() {
            // where there is an image, no library is read
            let library = if held.is_none() || random.percent(50) { library } else { None };
            let feed = Feed::of(self.count("shifts"));
            let shift = self.shift(&Files { library, image: held.as_deref() }, &part.concat(), feed)?;
            output.extend(shift.output);
            let image = shift.image.ok_or("no image is saved")?;
            self.look(&image)?;
            self.board(&image_alone(&image))?;
            let next = parts.get(place + 1).unwrap_or(part);
            for _ in 0..DAMAGED {
                self.damaged(&image, &next[..next.len().min(CARRIED_ON)].concat(), random)?;
            }
            let old = if random.percent(OLD) { apart(&image)?.narrowed() } else { None };
            self.note_if(old.is_some(), "old image carried over");
            held = Some(old.map_or(image, |old| old.encode()));
        }
        Ok(output)
    }

    /// Counts what an image holds.
    fn look(&mut self, image: &[u8]) -> Result<(), String> {
        let agent = saved(image)?;
        for (name, _) in DEPTHS.iter().filter(|(_, holds)| holds(&agent)) {
            self.note(name);
        }
        Ok(())
    }

    /// A damaged library leaves no image, unless it is accepted.
    fn refused_library(&mut self, seed: u64) -> Result<(), String> {
        let scenario = scenario::damaged(seed, &mut Coverage::default());
        let files = Files { library: scenario.library.as_deref(), image: None };
        self.board(&files)?;
        self.shift(&files, &scenario.input, Feed::Whole).map(drop)
    }

    /// What both programs do; the reference mostly as a library.
    fn shift(&mut self, files: &Files, input: &[u8], feed: Feed) -> Result<Shift, String> {
        self.note("shifts");
        let expected = expected(files, input);
        let shift = self.proved.shift(SHIFT, files, input, feed)?;
        if let Some(difference) = difference(&expected, &shift) {
            return Err(format!("{difference}{}", left(files, input)));
        }
        let sampled = self.count("shifts").is_multiple_of(SAMPLE);
        if sampled && self.reference.shift(SHIFT, files, input, Feed::Whole)? != expected {
            return Err("the reference as a program and as a library".to_string());
        }
        Ok(shift)
    }

    /// The boards of both programs, which leave the image as it was.
    fn board(&mut self, files: &Files) -> Result<(), String> {
        let (agent, kept) = (agent(files), files.image.map(<[u8]>::to_vec));
        let page = match &agent {
            Ok(agent) => page(agent),
            Err(refusal) => said(*refusal),
        };
        let expected = Shift { output: page.into_bytes(), image: kept };
        self.note("boards");
        let program = if self.count("boards").is_multiple_of(SAMPLE) { &self.reference } else { &self.proved };
        if let Some(difference) = difference(&expected, &program.shift(BOARD, files, b"C\n", Feed::Whole)?) {
            return Err(format!("board, {difference}{}", left(files, b"")));
        }
        match agent {
            Ok(agent) => self.shown(&agent),
            Err(refusal) => self.note(&format!("board, X {}", refusal.number())),
        }
        Ok(())
    }

    /// Counts what a board shows.
    fn shown(&mut self, agent: &Agent) {
        self.note("pages");
        agent.stacks().iter().flatten().for_each(|_| self.note("lines"));
        self.note_if(agent.stacks().is_empty(), "empty pages");
        self.note_if(agent.stacks().len() == MOST_STACKS, "pages of 8 stacks");
        self.note_if(agent.stacks().iter().any(|stack| stack.len() == MOST_INSTANCES), "lines of height 8");
    }

    /// The image in the newest or the oldest form, damaged in the next way that can be.
    fn next_damage(&mut self, image: &[u8], random: &mut Random) -> Result<(Kind, Form, Vec<u8>), String> {
        let mut whole = apart(image)?;
        if random.percent(OLD) {
            whole = whole.clone().narrowed().unwrap_or(whole);
        }
        loop {
            let kind = self.kinds[self.next_kind % self.kinds.len()];
            self.next_kind += 1;
            if let Some(bytes) = kind.damage(&whole, random) {
                return Ok((kind, whole.form, bytes));
            }
        }
    }

    /// Damages the image and compares the answers: a refusal, or an agent with that image.
    fn damaged(&mut self, image: &[u8], input: &[u8], random: &mut Random) -> Result<(), String> {
        let (kind, form, bytes) = self.next_damage(image, random)?;
        let name = kind.name;
        self.note(name);
        self.note("damaged images");
        let answer = restore(&bytes).err().map(Refusal::number);
        if kind.known.is_some_and(|known| known != answer) {
            return Err(format!("{name}: the reference answers {answer:?}"));
        }
        let said = answer.map_or("accepted".to_string(), |number| format!("X {number}"));
        self.note(&said);
        self.note_if(form == Form::Narrow, &format!("old image, {said}"));
        let files = image_alone(&bytes);
        let shift = self.shift(&files, b"", Feed::Whole).map_err(|difference| format!("{name}: {difference}"))?;
        // an accepted image of the oldest form is saved in the newest
        let kept = answer.is_some() || bytes[0] != OLDEST;
        if kept && shift.image.as_deref() != Some(&bytes[..]) {
            return Err(format!("{name}: the image is not left as it was"));
        }
        if self.count("damaged images").is_multiple_of(BOARD_SAMPLE) {
            self.board(&files).map_err(|difference| format!("{name}: {difference}"))?;
        }
        match answer {
            None => {
                self.shift(&files, input, Feed::Whole).map(drop).map_err(|difference| format!("{name}, carried on: {difference}"))
            }
            Some(_) => Ok(()),
        }
    }
}

fn saved(image: &[u8]) -> Result<Agent, String> {
    restore(image).map_err(|refusal| format!("X {} of a saved image", refusal.number()))
}

/// A saved image taken apart.
fn apart(bytes: &[u8]) -> Result<Image, String> {
    let apart = Image::of(&saved(bytes)?);
    if apart.encode() == bytes { Ok(apart) } else { Err("the bytes are not those of the image's fields".to_string()) }
}

/// The journal's lines, cut into two to five shifts, some of them empty.
fn parts(input: &[u8], random: &mut Random) -> Vec<Vec<Vec<u8>>> {
    let lines: Vec<Vec<u8>> = input.split_inclusive(|byte| *byte == b'\n').map(<[u8]>::to_vec).collect();
    let mut cuts: Vec<usize> = (0..random.between(1, 4)).map(|_| random.between(0, lines.len())).collect();
    cuts.sort_unstable();
    let ends = cuts.iter().copied().chain([lines.len()]);
    let starts = [0].into_iter().chain(cuts.iter().copied());
    starts.zip(ends).map(|(start, end)| lines[start..end].to_vec()).collect()
}

fn image_alone(image: &[u8]) -> Files<'_> {
    Files { library: None, image: Some(image) }
}

/// The reference's agent of an image where there is one, else of a library.
fn agent(files: &Files) -> Result<Agent, Refusal> {
    files.image.map_or_else(|| scenario::loaded(files.library.unwrap_or_default()), restore)
}

/// A refusal's line.
fn said(refusal: Refusal) -> String {
    format!("X {}\n", refusal.number())
}

/// What the reference makes of a shift.
fn expected(files: &Files, input: &[u8]) -> Shift {
    match agent(files) {
        Err(refusal) => Shift { output: said(refusal).into_bytes(), image: files.image.map(<[u8]>::to_vec) },
        Ok(agent) => {
            let (output, agent) = scenario::fed(agent, input);
            Shift { output, image: Some(image(&agent)) }
        }
    }
}

/// Leaves the files of a shift that differs, and says where.
fn left(files: &Files, input: &[u8]) -> String {
    let folder = std::env::temp_dir().join("shift-that-differs");
    let files = [("library", files.library), ("image", files.image), ("input", Some(input))];
    // what cannot be left is not worth another error
    let _ = fs::remove_dir_all(&folder).or(Ok(())).and_then(|()| fs::create_dir_all(&folder));
    for (name, bytes) in files.into_iter().filter_map(|(name, bytes)| Some((name, bytes?))) {
        let _ = fs::write(folder.join(name), bytes);
    }
    format!("; its files are in {}", folder.display())
}

/// How two shifts differ, if they do.
fn difference(expected: &Shift, shift: &Shift) -> Option<String> {
    if expected.output != shift.output {
        let lines = |shift: &Shift| String::from_utf8_lossy(&shift.output).lines().map(str::to_string).collect::<Vec<_>>();
        let (ours, theirs) = (lines(expected), lines(shift));
        let place = (0..=ours.len()).find(|place| ours.get(*place) != theirs.get(*place))?;
        return Some(format!("line {}: reference {:?}, other {:?}", place + 1, ours.get(place), theirs.get(place)));
    }
    if expected.image == shift.image {
        return None;
    }
    let (Some(ours), Some(theirs)) = (&expected.image, &shift.image) else {
        return Some("one of the two leaves no image".to_string());
    };
    let place = (0..ours.len().max(theirs.len())).find(|place| ours.get(*place) != theirs.get(*place))?;
    Some(format!("byte {place} of the image: reference {:?}, other {:?}", ours.get(place), theirs.get(place)))
}
