//! The libraries and journals that are timed.

use differential::draft::{ACHIEVE, ADD, ADDED, Branch, EXTERNAL, Library, Literal, Plan, QUERY, REMOVE, TOLD, V0};
use differential::images::{Event, Image, tower_plans};
use reference::agent::{MOST_EXTERNAL, MOST_INSTANCES, MOST_STACKS};
use reference::belief::MOST_BELIEFS;
use reference::library::MOST_PLANS;
use reference::state::Number;

/// A library with a journal.
pub struct Case {
    pub name: String,
    pub library: Vec<u8>,
    pub input: Vec<u8>,
}

impl Case {
    fn new(name: impl ToString, library: &Library, input: impl Into<Vec<u8>>) -> Self {
        Case { name: name.to_string(), library: library.encode(), input: input.into() }
    }

    /// The same library with the first lines of the journal.
    pub fn first_lines(&self, lines: usize) -> Vec<u8> {
        self.input.split_inclusive(|byte| *byte == b'\n').take(lines).collect::<Vec<_>>().concat()
    }

    pub fn lines(&self) -> usize {
        self.input.iter().filter(|byte| **byte == b'\n').count()
    }
}

/// +predicate V0 0 0
fn of_v0(predicate: u16) -> Literal {
    [predicate, V0, 0, 0]
}

/// The library of 58 bytes of document 01.
fn example() -> Library {
    let plan = Plan::simple(ADDED, of_v0(1)).path(&[(EXTERNAL, of_v0(9))]);
    Library { beliefs: vec![], plans: vec![Plan { success: vec![(REMOVE, of_v0(1))], ..plan }] }
}

/// A job of fifteen steps with a goal that a second plan of seven steps serves.
fn jobs() -> [Plan; 2] {
    let job = [
        (EXTERNAL, of_v0(9)),
        (ADD, of_v0(2)),
        (QUERY, [2, V0 + 1, 0, 0]),
        (ADD, [3, V0 + 1, 0, 0]),
        (ACHIEVE, of_v0(3)),
        (EXTERNAL, of_v0(10)),
        (REMOVE, of_v0(3)),
        (ACHIEVE, of_v0(4)),
        (REMOVE, of_v0(4)),
        (QUERY, of_v0(2)),
        (ADD, of_v0(5)),
        (ADD, of_v0(6)),
        (REMOVE, of_v0(5)),
        (REMOVE, of_v0(6)),
        (EXTERNAL, of_v0(11)),
    ];
    let goal = [
        (ADD, of_v0(7)),
        (QUERY, [7, V0 + 1, 0, 0]),
        (EXTERNAL, of_v0(12)),
        (REMOVE, of_v0(7)),
        (ADD, of_v0(8)),
        (REMOVE, of_v0(8)),
        (ADD, of_v0(4)),
    ];
    let job = Plan { success: vec![(REMOVE, of_v0(2))], ..Plan::simple(TOLD, of_v0(1)).path(&job) };
    [job, Plan::simple(ACHIEVE, of_v0(4)).path(&goal)]
}

/// One job of `jobs`, whose instances have the two ids: 31 lines, none of them idle or refused.
fn job_lines(first: usize, second: usize) -> String {
    let cycles = |count: usize| "C\n".repeat(count);
    let worked = |id: usize| format!("O {id} 1\n");
    [
        format!("P 2 +1 {} 0 0\n", first % 50),
        // made, done
        cycles(2),
        worked(first),
        // four steps, done
        cycles(5),
        worked(first),
        // a step, posted, made, two steps, done
        cycles(6),
        worked(second),
        // four steps, succeeded
        cycles(5),
        // six steps, done
        cycles(7),
        worked(first),
        cycles(1),
    ]
    .concat()
}

fn journal_of_jobs(jobs: usize) -> String {
    (0..jobs).map(|job| job_lines(2 * job + 1, 2 * job + 2)).collect()
}

/// A literal that is never held.
const ABSENT: Literal = [103, 99, 0, 0];

/// As many beliefs as can be.
fn full_table() -> Vec<Literal> {
    (0..MOST_BELIEFS as u16).map(|place| [100 + place % 4, place / 4, 0, 0]).collect()
}

/// The plan with full contexts, maintenance and lists.
fn full(plan: Plan) -> Plan {
    let held = |place: u16| [100 + place % 4, 13, 0, 0];
    let failing = vec![held(0), held(1), held(2), ABSENT];
    let situation = vec![failing.clone(), failing.clone(), failing, (0..4).map(held).collect()];
    let mut full = Plan { context: situation.clone(), maintenance: situation, ..plan };
    full.success.resize(4, (REMOVE, ABSENT));
    full.failure.resize(4, (REMOVE, ABSENT));
    full
}

/// A full plan of fifteen external actions, for an event of its own.
fn filler(place: usize) -> Plan {
    full(Plan::simple(TOLD, [200 + place as u16, V0, 0, 0]).path(&[(EXTERNAL, of_v0(9)); 15]))
}

/// The largest library, 19,332 bytes: the two jobs last, with full contexts, maintenance, lists and bodies.
fn largest() -> Library {
    let mut plans: Vec<Plan> = (2..MOST_PLANS).map(filler).collect();
    let [job, goal] = jobs();
    plans.extend([full(job), full(spread(goal))]);
    Library { beliefs: full_table(), plans }
}

/// The image of the largest agent: the largest library, eight stacks of eight, and a queue of 32 external events and 56 goals.
pub fn largest_image() -> Vec<u8> {
    let mut plans: Vec<Plan> = tower_plans().map(|plan| full(lengthened(plan))).into();
    plans.extend((2..MOST_PLANS).map(filler));
    let library = Library { beliefs: full_table(), plans };
    let mut image = Image::towers(&library, MOST_STACKS as Number, MOST_INSTANCES as Number).with_active_tops();
    let pending = |number| Event { origin: [0; 3], kind: TOLD, literal: [1, 5, 0, 0], failed: 0, number };
    image.events.extend((image.taken + 1..=MOST_EXTERNAL as Number).map(pending));
    image.taken = MOST_EXTERNAL as Number;
    image.encode()
}

/// The path of one step, with fourteen external actions behind it.
fn lengthened(plan: Plan) -> Plan {
    let first = &plan.states[0][0];
    let mut steps = vec![(first.kind, first.literal)];
    steps.resize(15, (EXTERNAL, of_v0(9)));
    plan.path(&steps)
}

/// Images that are carried over by a shift without lines.
pub fn images() -> Vec<(&'static str, Vec<u8>)> {
    vec![("one instance, suspended", Image::tower(1).encode()), ("the largest agent", largest_image())]
}

/// Reports that take eight of the largest library's beliefs out, to make room for what the jobs add.
fn room() -> String {
    (56..64).map(|place| format!("P 1 +{} {} 0 0\nC\n", 100 + place % 4, place / 4)).collect()
}

/// Hangs eight further states below the first seven of a path, behind the branches that are taken.
fn spread(mut plan: Plan) -> Plan {
    for place in 0..8 {
        let next = plan.states.len() as u16;
        plan.states[place % 7].push(Branch { kind: EXTERNAL, literal: of_v0(9), next });
        plan.states.push(vec![]);
    }
    plan
}

/// Told +1 x looks for three beliefs among 64 and finds the last literal nowhere: 64 × 64 × 64 attempts.
fn search() -> Library {
    let beliefs = (0..64).map(|place| [1, place, 0, 0]).collect();
    let literals = vec![[1, V0 + 1, 0, 0], [1, V0 + 2, 0, 0], [1, V0 + 3, 0, 7]];
    Library { beliefs, plans: vec![Plan { context: vec![literals], ..Plan::simple(TOLD, of_v0(9)) }] }
}

/// Told +9 x has a solution for each two of 64 beliefs and is made with the least value of V2: 64 × 64 solutions.
fn least() -> Library {
    let beliefs = (0..64).map(|place| [1, 63 - place, 0, 0]).collect();
    let literals = vec![[1, V0 + 1, 0, 0], [1, V0 + 2, 0, 0]];
    Library { beliefs, plans: vec![Plan { least: Some(2), context: vec![literals], ..Plan::simple(TOLD, of_v0(9)) }] }
}

/// Plans whose instances wait at once, above as many suspended instances as asked.
fn tower(height: u16) -> Library {
    let goal = |floor: u16| of_v0(20 + floor);
    let plan = |floor: u16| {
        let step = if floor + 1 < height { (ACHIEVE, goal(floor + 1)) } else { (EXTERNAL, of_v0(9)) };
        Plan::simple(if floor == 0 { TOLD } else { ACHIEVE }, goal(floor)).path(&[step])
    };
    Library { beliefs: vec![], plans: (0..height).map(plan).collect() }
}

/// The rows that are compared as whole runs.
pub fn runs() -> Vec<Case> {
    let small = Library { beliefs: vec![], plans: jobs().to_vec() };
    let million = journal_of_jobs(32_258);
    let short = journal_of_jobs(1);
    vec![
        Case::new("library of 58 bytes, 8 lines", &example(), "P 0 +1 5 0 0\nC\nC\nC\nO 1 1\nC\nC\nO 1 1\n"),
        Case::new("two plans, 31 lines", &small, &short[..]),
        Case::new("largest library, 47 lines", &largest(), room() + &short),
        Case::new("two plans, a million lines of jobs", &small, &million[..]),
        Case::new("largest library, a million lines of jobs", &largest(), room() + &million),
        Case::new("a million idle cycles, one stack", &tower(1), waiting(1, 1) + &IDLE.repeat(1_000_000)),
        Case::new("a million refused outcomes", &tower(1), "O 7 1\n".repeat(1_000_000)),
        Case::new("a million unreadable lines", &tower(1), "P 0 +1 65536 0 0\n".repeat(1_000_000)),
        Case::new("search over 64 beliefs, 200 events", &search(), "P 2 +9 1 0 0\nC\n".repeat(200)),
        Case::new("least of 4,096 solutions, 200 events", &least(), "P 2 +9 1 0 0\nC\nC\n".repeat(200)),
    ]
}

/// The rows whose lines come one at a time: nearly all that a line costs is reading the library anew, and the system's calls.
pub fn lines() -> Vec<Case> {
    let cycles = IDLE.repeat(20_000);
    vec![
        Case::new("library of 58 bytes, idle cycles", &example(), &cycles[..]),
        Case::new("largest library, idle cycles", &largest(), &cycles[..]),
    ]
}

/// So many jobs of a tower, all waiting at their last floor.
fn waiting(stacks: usize, height: usize) -> String {
    "P 2 +20 1 0 0\n".repeat(stacks) + &"C\n".repeat(3 * stacks * height)
}

/// How the cost of a line grows: the dimension, what a line is, and a case for each size.
pub fn growths() -> Vec<(&'static str, Vec<Case>)> {
    vec![
        ("plans passed over before the one that applies; report, made, succeeded", plans()),
        ("beliefs held; a report that adds the newest, one that removes it, each dropped", beliefs()),
        ("beliefs held; a maintenance that finds the newest, report, made, succeeded", maintenance()),
        ("external events queued behind 8 waiting stacks; idle cycles", queue()),
        ("goals and events queued, up to all that can be; idle cycles", goals()),
        ("waiting stacks; idle cycles", stacks()),
        ("instances in one stack; idle cycles", heights()),
    ]
}

/// Rounds of a journal that takes an event in each, nearly as many as there are numbers.
const ROUNDS: usize = 60_000;
const IDLE: &str = "C\n";
const IDLE_CYCLES: usize = 500_000;

fn plans() -> Vec<Case> {
    let size = |count: u16| {
        let others = (1..count).map(|place| Plan::simple(TOLD, [1, place, 0, 0]));
        let library = Library { beliefs: vec![], plans: others.chain([Plan::simple(TOLD, of_v0(1))]).collect() };
        Case::new(count, &library, "P 2 +1 99 0 0\nC\nC\n".repeat(ROUNDS))
    };
    [1, 2, 4, 8, 16, 32].map(size).into()
}

fn beliefs() -> Vec<Case> {
    let size = |count: u16| {
        let library = Library { beliefs: (1..count).map(|place| [1, place, 0, 0]).collect(), plans: vec![] };
        Case::new(count, &library, "P 0 +1 99 0 0\nC\nP 1 +1 99 0 0\nC\n".repeat(ROUNDS / 2))
    };
    [1, 2, 4, 8, 16, 32, 64].map(size).into()
}

fn maintenance() -> Vec<Case> {
    let size = |count: u16| {
        let plan = Plan { maintenance: vec![vec![[1, 0, V0, 0]]], ..Plan::simple(TOLD, of_v0(1)) };
        let beliefs = (0..count).map(|place| [1, count - 1 - place, 1, 0]).collect();
        Case::new(count, &Library { beliefs, plans: vec![plan] }, "P 2 +1 1 0 0\nC\nC\n".repeat(ROUNDS))
    };
    [1, 2, 4, 8, 16, 32, 64].map(size).into()
}

fn queue() -> Vec<Case> {
    let size = |count: usize| {
        let input = waiting(8, 1) + &"P 2 +20 1 0 0\n".repeat(count - 8) + &IDLE.repeat(IDLE_CYCLES);
        Case::new(count, &tower(1), input)
    };
    [8, 16, 24, 32].map(size).into()
}

fn goals() -> Vec<Case> {
    let size = |(height, pending): (usize, usize)| {
        let reports = "P 2 +20 1 0 0\n".repeat(pending);
        let input = waiting(8, height) + &reports + &IDLE.repeat(IDLE_CYCLES);
        Case::new(8 * height + pending, &tower(height as u16), input)
    };
    [(1, 0), (2, 0), (4, 0), (8, 0), (8, 24)].map(size).into()
}

fn stacks() -> Vec<Case> {
    let size = |count: usize| Case::new(count, &tower(1), waiting(count, 1) + &IDLE.repeat(IDLE_CYCLES));
    [1, 2, 4, 8].map(size).into()
}

fn heights() -> Vec<Case> {
    let size = |height: usize| Case::new(height, &tower(height as u16), waiting(1, height) + &IDLE.repeat(IDLE_CYCLES));
    [1, 2, 4, 8].map(size).into()
}

#[cfg(test)]
mod tests {
    use super::*;

    #[test]
    fn the_largest_library_is_as_large_as_can_be() {
        assert_eq!(largest().encode().len(), 19_332);
    }

    #[test]
    fn the_largest_image_is_as_large_as_can_be() {
        assert_eq!(largest_image().len(), 23_836);
        for (name, bytes) in images() {
            let agent = reference::image::restore(&bytes).expect(name);
            assert_eq!(reference::image::image(&agent), bytes);
        }
    }
}
