//! Asks the proved program how the plans of generated libraries may end, and compares its answers with the reference's:
//! `endings PROVED REFERENCE [SEEDS]`.
//!
//! Each seed gives an accepted library, asked about every plan with every length from 0 to 15, and three damaged ones. Over
//! all lengths a body has as many lists that succeed as ends, and as many that fail as other states.

use differential::coverage::Coverage;
use differential::draft::{Branch, Library, V0};
use differential::plans::{Theme, library};
use differential::programs::Program;
use differential::random::Random;
use differential::scenario::{self, LARGEST_FILE};
use reference::endings::{Endings, LONGEST_LIST};
use reference::refusal::Refusal;
use std::collections::BTreeMap;
use std::process::ExitCode;
use std::time::Instant;

const DEFAULT_SEEDS: u64 = 20;
/// Damaged libraries for each accepted one, so that every kind of damage comes up.
const DAMAGED: u64 = 3;
const MOST_STATES: usize = 16;
const MOST_BRANCHES: usize = 4;
/// What the run is to reach.
const WANTED: &[&str] = &[
    "X 1",
    "X 2",
    "X 3",
    "X 4",
    "X 11",
    "X 11 of a length over 15",
    "X 15",
    "bodies of one state",
    "bodies of 16 states",
    "states of four branches",
    "successes after 15 answers",
    "failures after 15 answers",
];

fn main() -> ExitCode {
    let words: Vec<String> = std::env::args().skip(1).collect();
    let asked = match &words[..] {
        [proved, reference] => Some((proved, reference, DEFAULT_SEEDS)),
        [proved, reference, seeds] => seeds.parse().ok().map(|seeds| (proved, reference, seeds)),
        _ => None,
    };
    let Some((proved, reference, seeds)) = asked else {
        eprintln!("usage: endings PROVED REFERENCE [SEEDS]");
        return ExitCode::from(2);
    };
    match run(proved, reference, seeds) {
        Ok(()) => ExitCode::SUCCESS,
        Err(difference) => {
            println!("{difference}");
            ExitCode::FAILURE
        }
    }
}

fn run(proved: &str, reference: &str, seeds: u64) -> Result<(), String> {
    let start = Instant::now();
    let mut survey = Survey {
        proved: Program::new(proved)?,
        reference: Program::new(reference)?,
        counts: BTreeMap::new(),
        plans: 0,
        questions: 0,
    };
    for seed in 0..seeds {
        survey.accepted(seed).map_err(|difference| format!("endings, seed {seed}: {difference}"))?;
    }
    for seed in 0..DAMAGED * seeds {
        survey.damaged(seed).map_err(|difference| format!("endings, damaged {seed}: {difference}"))?;
    }
    let counts: Vec<String> = WANTED.iter().map(|name| format!("{name}: {}", survey.count(name))).collect();
    let (plans, questions, seconds) = (survey.plans, survey.questions, start.elapsed().as_secs_f64());
    println!("endings: {questions} questions on {plans} plans agree in {seconds:.1} s; {}", counts.join(", "));
    let missing: Vec<&str> = WANTED.iter().copied().filter(|name| survey.count(name) == 0).collect();
    if missing.is_empty() { Ok(()) } else { Err(format!("never came up: {}", missing.join(", "))) }
}

/// The two programs, and what came up.
struct Survey {
    proved: Program,
    reference: Program,
    counts: BTreeMap<String, u64>,
    plans: usize,
    questions: usize,
}

impl Survey {
    fn count(&self, name: &str) -> u64 {
        self.counts.get(name).copied().unwrap_or(0)
    }

    fn note(&mut self, name: &str, count: usize) {
        *self.counts.entry(name.to_string()).or_default() += count as u64;
    }

    /// Every plan of an accepted library with every length, a plan past the last and a length over 15.
    fn accepted(&mut self, seed: u64) -> Result<(), String> {
        let mut random = Random::new(seed.wrapping_mul(2));
        let draft = draft(&mut random);
        let bytes = draft.encode();
        self.proved.hold(Some(&bytes)).map_err(|error| error.to_string())?;
        for (number, plan) in draft.plans.iter().enumerate() {
            self.plan(&bytes, number as u16, &plan.states)?;
        }
        let past = draft.plans.len() as u16;
        let over = random.between(16, 65_535) as u16;
        for (plan, length) in [(past, 0), (past, over), (u16::MAX, 15), (past - 1, 16), (0, over)] {
            self.question(Some(&bytes), plan, length)?;
        }
        self.same_program(Some(&bytes), past - 1, random.below(6) as u16)
    }

    /// Every length for one plan, and what the counts sum to.
    fn plan(&mut self, bytes: &[u8], number: u16, states: &[Vec<Branch>]) -> Result<(), String> {
        self.plans += 1;
        let mut sum = Endings::default();
        for length in 0..=LONGEST_LIST {
            let endings = self.question(Some(bytes), number, length)?.ok_or("a drafted library is accepted")?;
            sum.succeeded += endings.succeeded;
            sum.failed += endings.failed;
            if length == LONGEST_LIST {
                self.note("successes after 15 answers", endings.succeeded as usize);
                self.note("failures after 15 answers", endings.failed as usize);
            }
        }
        let ends = states.iter().filter(|branches| branches.is_empty()).count();
        if sum != (Endings { succeeded: ends as u32, failed: (states.len() - ends) as u32 }) {
            return Err(format!("plan {number} has {ends} ends of {} states, its counts sum to {sum:?}", states.len()));
        }
        self.note("bodies of one state", usize::from(states.len() == 1));
        self.note("bodies of 16 states", usize::from(states.len() == MOST_STATES));
        self.note("states of four branches", states.iter().filter(|branches| branches.len() == MOST_BRANCHES).count());
        Ok(())
    }

    fn damaged(&mut self, seed: u64) -> Result<(), String> {
        let mut random = Random::new(seed.wrapping_mul(2).wrapping_add(1));
        let bytes = scenario::damaged(seed, &mut Coverage::default()).library;
        self.proved.hold(bytes.as_deref()).map_err(|error| error.to_string())?;
        for (plan, length) in [(0, 1), (random.below(40) as u16, random.below(20) as u16)] {
            self.question(bytes.as_deref(), plan, length)?;
        }
        self.same_program(bytes.as_deref(), 0, 1)
    }

    /// The counts that both give; none where both refuse, by the same number.
    fn question(&mut self, library: Option<&[u8]>, plan: u16, length: u16) -> Result<Option<Endings>, String> {
        self.questions += 1;
        let answer = answer(library.unwrap_or_default(), plan, length);
        if let Err(refusal) = answer {
            self.note(&format!("X {}", refusal.number()), 1);
            self.note("X 11 of a length over 15", usize::from(refusal == Refusal::NoSuchPlan && length > LONGEST_LIST));
        }
        said(&self.proved, plan, length, &answer)?;
        Ok(answer.ok())
    }

    /// The reference as a program says what it says as a library.
    fn same_program(&self, library: Option<&[u8]>, plan: u16, length: u16) -> Result<(), String> {
        said(&self.reference, plan, length, &answer(library.unwrap_or_default(), plan, length))
    }
}

fn answer(library: &[u8], plan: u16, length: u16) -> Result<Endings, Refusal> {
    if library.len() > LARGEST_FILE { Err(Refusal::Packing) } else { Endings::of(library, plan, length) }
}

/// Whether the program says the answer, on the library that its folder holds.
fn said(program: &Program, plan: u16, length: u16, answer: &Result<Endings, Refusal>) -> Result<(), String> {
    let line = match answer {
        Ok(endings) => format!("{} {}\n", endings.succeeded, endings.failed),
        Err(refusal) => format!("X {}\n", refusal.number()),
    };
    let output = program.ask(&["endings", &plan.to_string(), &length.to_string()])?;
    let shown = String::from_utf8_lossy(&output);
    if shown == line { Ok(()) } else { Err(format!("plan {plan}, length {length}: reference {line:?}, other {shown:?}")) }
}

/// A library of generated plans, most of them with a body of any shape.
fn draft(random: &mut Random) -> Library {
    let (mut draft, _) = library(random, Theme::Mixed);
    let most = if random.percent(10) { 32 } else { 4 };
    draft.plans.truncate(most);
    for plan in &mut draft.plans {
        if random.percent(80) {
            plan.states = body(random);
        }
    }
    draft
}

/// A tree of up to 16 states: one below the other, in rows, or anyhow.
fn body(random: &mut Random) -> Vec<Vec<Branch>> {
    let count = if random.percent(30) { MOST_STATES } else { random.between(1, MOST_STATES) };
    let lean = random.below(4);
    let mut states: Vec<Vec<Branch>> = vec![vec![]];
    for next in 1..count {
        let room: Vec<usize> = (0..next).filter(|state| states[*state].len() < MOST_BRANCHES).collect();
        let parent = match lean {
            0 => next - 1,
            1 => room[0],
            2 if random.percent(70) => next - 1,
            _ => *random.pick(&room),
        };
        let kind = random.below(6) as u16;
        // for a division: whole panels to V2, the offcut to V1
        states[parent].push(Branch { kind, literal: [10, V0, 5, 0], next: next as u16 });
        states.push(vec![]);
    }
    states
}
