//! Demand 3 checked on a journal by itself: its lines, and the beliefs that the library starts with.
//!
//! It knows no plans and calls nothing of either program. Line by line it keeps the queue, the stacks and the
//! beliefs that the answers tell of, and refuses a journal in which
//!
//! - an instance is made out of order, ends twice, or acts after its end, while it waits or while another stands on it;
//! - an event is taken or posted twice, closed twice, closed while it is served, or served twice;
//! - a plan is made twice for one event, or a branch of a state is tried twice by one instance;
//! - a count of failed plans is another than the journal's own;
//! - a change is reported that has no effect on the beliefs as replayed, or a report's effect is not reported;
//! - made = succeeded + failed + live or taken + posted = closed + queued fails after any line;
//! - a queued event is neither pending nor served by one live instance, or a suspended instance has not one goal;
//! - another event is taken up, another stack runs or another refusal is given than the queue and the turn order say.

use crate::draft::{Literal, opposite};
use crate::ledger::parse::{Answer, Call, Change, Letter};
use std::collections::{HashMap, HashSet};

pub mod parse;

/// The last number that an event or an instance can have.
const LAST_NUMBER: u32 = u32::MAX;

/// An event, by where it came from.
#[derive(Clone, Copy, Debug, PartialEq, Eq, Hash)]
enum Origin {
    External(u32),
    Goal(Place),
}

/// An instance, a state and a branch.
type Place = [u32; 3];

#[derive(Clone, Copy, Debug, PartialEq, Eq)]
enum Status {
    Active,
    Waiting(Place),
    Suspended(Place),
}

struct Instance {
    plan: u32,
    serves: Origin,
    status: Status,
    /// The state, or the one before it where a goal was met, since no line says where that leads.
    state: u32,
    stepped_unseen: bool,
    /// How many branches of that state were tried.
    tried: u32,
}

struct Event {
    origin: Origin,
    failed: HashSet<u32>,
    server: Option<u32>,
}

/// What the lines so far have told.
pub struct Ledger {
    beliefs: Vec<Literal>,
    queue: Vec<Event>,
    live: HashMap<u32, Instance>,
    stacks: Vec<Vec<u32>>,
    ended: HashSet<u32>,
    closed: HashSet<Origin>,
    tries: HashSet<Place>,
    made_for: HashSet<(Origin, u32)>,
    made: u32,
    taken: u32,
    posted: u32,
    succeeded: u32,
    failed: u32,
}

type Checked = Result<(), String>;

fn want(holds: bool, rule: &str) -> Checked {
    if holds { Ok(()) } else { Err(rule.to_string()) }
}

/// Checks a whole journal; the beliefs at its end, or the number of the first bad line with the rule that it breaks.
pub fn check(beliefs: Vec<Literal>, input: &[u8], output: &[u8]) -> Result<Vec<Literal>, String> {
    let mut ledger = Ledger::new(beliefs);
    let answers = parse::lines(output);
    let calls = parse::lines(input);
    want(calls.len() == answers.len(), "a line out for each line in")?;
    for (place, (call, answer)) in calls.into_iter().zip(answers).enumerate() {
        let shown = || format!("line {}: {} -> {}", place + 1, show(call), show(answer));
        let parsed = parse::answer(answer).ok_or_else(|| format!("{}: no answer of document 01", shown()))?;
        ledger.line(parse::call(call), &parsed).map_err(|rule| format!("{}: {rule}", shown()))?;
    }
    Ok(ledger.beliefs)
}

fn show(line: &[u8]) -> String {
    let start = &line[..line.len().min(80)];
    format!("{:?}", String::from_utf8_lossy(start))
}

impl Ledger {
    pub fn new(beliefs: Vec<Literal>) -> Self {
        Ledger {
            beliefs,
            queue: vec![],
            live: HashMap::new(),
            stacks: vec![],
            ended: HashSet::new(),
            closed: HashSet::new(),
            tries: HashSet::new(),
            made_for: HashSet::new(),
            made: 0,
            taken: 0,
            posted: 0,
            succeeded: 0,
            failed: 0,
        }
    }

    /// Checks one line and takes it up.
    pub fn line(&mut self, call: Option<Call>, answer: &Answer) -> Checked {
        match call {
            None => self.refused(answer, 0),
            Some(Call::Report(kind, literal)) => self.report(kind, literal, answer),
            Some(Call::Cycle) => self.cycle(answer),
            Some(Call::Outcome(id, worked)) => self.outcome(id, worked, answer),
        }?;
        self.sums()
    }

    fn refused(&self, answer: &Answer, number: u32) -> Checked {
        want(answer.letter == Letter::X(number) && answer.changes.is_empty(), &format!("X {number} is due"))
    }

    fn report(&mut self, kind: u16, literal: Literal, answer: &Answer) -> Checked {
        let external = self.queue.iter().filter(|event| matches!(event.origin, Origin::External(_))).count();
        let held = self.beliefs.contains(&literal);
        if kind > 2 || literal[1..].iter().any(|term| *term > 65_527) {
            return self.refused(answer, 5);
        }
        if self.taken == LAST_NUMBER {
            return self.refused(answer, 9);
        }
        if external == 32 {
            return self.refused(answer, 7);
        }
        let against = self.beliefs.contains(&opposite(literal));
        if kind == 0 && !held && !against && self.beliefs.len() == 64 {
            return self.refused(answer, 6);
        }
        self.taken += 1;
        want(answer.letter == Letter::T(self.taken), "an event is taken, by the next number")?;
        let due = match kind {
            0 if !held && against => vec![Change { add: false, literal: opposite(literal) }, Change { add: true, literal }],
            0 if !held => vec![Change { add: true, literal }],
            1 if held => vec![Change { add: false, literal }],
            _ => vec![],
        };
        want(answer.changes == due, "the report's own effect and no other is reported")?;
        self.changes(answer, 1)?;
        self.queue.push(Event { origin: Origin::External(self.taken), failed: HashSet::new(), server: None });
        Ok(())
    }

    fn outcome(&mut self, id: u32, worked: bool, answer: &Answer) -> Checked {
        let waiting = self.live.get_mut(&id).and_then(|instance| match instance.status {
            Status::Waiting(place) => Some((instance, place)),
            _ => None,
        });
        let Some((instance, place)) = waiting else {
            return self.refused(answer, 8);
        };
        instance.status = Status::Active;
        match answer.letter {
            Letter::S(at, next) => {
                want(worked && at == place && next > at[1], "it worked: the waiting instance steps on from its branch")?;
                instance.state = next;
                instance.tried = 0;
            }
            Letter::B(at) => want(!worked && at == place, "it did not work: the waiting instance misses its branch")?,
            _ => return Err("S or B is due".to_string()),
        }
        self.changes(answer, 0)
    }

    fn cycle(&mut self, answer: &Answer) -> Checked {
        let full = self.stacks.len() == 8;
        let due = |event: &Event| event.server.is_none() && !(full && matches!(event.origin, Origin::External(_)));
        if let Some(place) = self.queue.iter().position(due) {
            return self.take_up(place, answer);
        }
        let active = |stack: &Vec<u32>| stack.last().is_some_and(|top| self.live[top].status == Status::Active);
        match self.stacks.iter().position(active) {
            Some(place) => self.run(place, answer),
            None => want(answer.letter == Letter::I && answer.changes.is_empty(), "nothing to do: I is due"),
        }
    }

    fn take_up(&mut self, place: usize, answer: &Answer) -> Checked {
        let origin = self.queue[place].origin;
        let failed = self.queue[place].failed.len() as u32;
        match answer.letter {
            Letter::X(9) => want(self.made == LAST_NUMBER, "X 9 though ids are left")?,
            Letter::N(number, count) => {
                want(origin == Origin::External(number), "the first pending event is dropped")?;
                want(count == failed, "as many failed plans as the journal tells")?;
                self.close(origin)?;
            }
            Letter::U(at, count) => {
                want(origin == Origin::Goal(at), "the first pending goal is unmet")?;
                want(count == failed, "as many failed plans as the journal tells")?;
                self.close(origin)?;
                let poster = self.live.get_mut(&at[0]).ok_or("the poster lives")?;
                want(poster.status == Status::Suspended(at), "the poster is suspended on this goal")?;
                poster.status = Status::Active;
            }
            Letter::M(id, plan, external, number) => {
                let named = match origin {
                    Origin::External(event) => external && event == number,
                    Origin::Goal(goal) => !external && goal[0] == number,
                };
                want(named, "an instance is made for the first pending event")?;
                self.make(id, plan, place)?;
            }
            _ => return Err("an event is pending: M, N, U or X 9 is due".to_string()),
        }
        self.changes(answer, 0)
    }

    fn make(&mut self, id: u32, plan: u32, place: usize) -> Checked {
        self.made += 1;
        want(id == self.made, "the next id")?;
        let event = &mut self.queue[place];
        want(plan < 32 && self.made_for.insert((event.origin, plan)), "no plan is made twice for one event")?;
        event.server = Some(id);
        let instance = Instance { plan, serves: event.origin, status: Status::Active, state: 0, stepped_unseen: false, tried: 0 };
        match event.origin {
            Origin::External(_) => self.stacks.push(vec![id]),
            Origin::Goal(goal) => {
                let stack = self.stacks.iter_mut().find(|stack| stack.last() == Some(&goal[0]));
                stack.ok_or("the poster is on top")?.push(id);
            }
        }
        want(self.stacks.len() <= 8 && self.stacks.iter().all(|stack| stack.len() <= 8), "8 stacks of 8 at most")?;
        want(self.live.insert(id, instance).is_none() && !self.ended.contains(&id), "an id is made once")
    }

    fn run(&mut self, place: usize, answer: &Answer) -> Checked {
        let mut stack = self.stacks.remove(place);
        let top = *stack.last().ok_or("no stack is empty")?;
        match answer.letter {
            Letter::E(id) | Letter::F(id) => {
                want(id == top, "the top of the first active stack ends")?;
                stack.pop();
                self.end(id, answer, stack.last().copied())?;
            }
            Letter::S(at, next) => {
                self.tried(top, at)?;
                want(next > at[1], "a next state is a later one")?;
                self.changes(answer, 1)?;
                let instance = self.live.get_mut(&top).ok_or("it lives")?;
                instance.state = next;
                instance.tried = 0;
            }
            Letter::B(at) => self.tried(top, at).and_then(|()| self.changes(answer, 0))?,
            Letter::D(at, literal) => {
                self.tried(top, at)?;
                want(literal[0] < 32_768 && literal[1..].iter().all(|term| *term < 65_528), "a ground positive action")?;
                self.changes(answer, 0)?;
                self.live.get_mut(&top).ok_or("it lives")?.status = Status::Waiting(at);
            }
            Letter::G(at) => {
                self.tried(top, at)?;
                want(stack.len() < 8, "a full stack posts no goal")?;
                self.changes(answer, 0)?;
                self.posted += 1;
                self.queue.push(Event { origin: Origin::Goal(at), failed: HashSet::new(), server: None });
                self.live.get_mut(&top).ok_or("it lives")?.status = Status::Suspended(at);
            }
            _ => return Err("a stack can run: S, B, D, G, E or F is due".to_string()),
        }
        if !stack.is_empty() {
            self.stacks.push(stack);
        }
        Ok(())
    }

    /// The branch is the next one of the instance's state, and was never tried before.
    fn tried(&mut self, top: u32, at: Place) -> Checked {
        want(at[0] == top, "the top of the first active stack tries")?;
        want(self.tries.insert(at), "no instance tries one branch twice")?;
        let instance = self.live.get_mut(&top).ok_or("it lives")?;
        if instance.stepped_unseen {
            want(at[1] > instance.state, "past a goal the state is a later one")?;
            instance.state = at[1];
            instance.stepped_unseen = false;
        }
        want(at[1] == instance.state && at[2] == instance.tried && at[2] < 4, "the next branch of its state")?;
        instance.tried += 1;
        Ok(())
    }

    fn end(&mut self, id: u32, answer: &Answer, below: Option<u32>) -> Checked {
        let instance = self.live.remove(&id).ok_or("only a live instance ends")?;
        want(self.ended.insert(id), "no instance ends twice")?;
        self.changes(answer, 4)?;
        if matches!(answer.letter, Letter::F(_)) {
            self.failed += 1;
            let event = self.queue.iter_mut().find(|event| event.origin == instance.serves).ok_or("its event is queued")?;
            event.server = None;
            return want(event.failed.insert(instance.plan), "a plan fails once for one event");
        }
        self.succeeded += 1;
        let event = self.queue.iter_mut().find(|event| event.origin == instance.serves).ok_or("its event is queued")?;
        event.server = None;
        self.close(instance.serves)?;
        if let Some(below) = below {
            let poster = self.live.get_mut(&below).ok_or("the poster lives")?;
            want(matches!(poster.status, Status::Suspended(goal) if Origin::Goal(goal) == instance.serves), "its goal is met")?;
            poster.status = Status::Active;
            poster.stepped_unseen = true;
            poster.tried = 0;
        }
        Ok(())
    }

    fn close(&mut self, origin: Origin) -> Checked {
        let place = self.queue.iter().position(|event| event.origin == origin).ok_or("a closed event was queued")?;
        want(self.queue.remove(place).server.is_none(), "no served event is closed")?;
        want(self.closed.insert(origin), "no event is closed twice")
    }

    /// Replays the changes: each has an effect, an add finds its opposite taken out, and so many actions can have made them.
    fn changes(&mut self, answer: &Answer, actions: usize) -> Checked {
        let is_one_add = |pair: &&[Change]| !pair[0].add && pair[1].add && pair[0].literal == opposite(pair[1].literal);
        let made_by = answer.changes.len() - answer.changes.windows(2).filter(is_one_add).count();
        want(made_by <= actions, "no more changes than this line's actions can make")?;
        for change in &answer.changes {
            let place = self.beliefs.iter().position(|held| *held == change.literal);
            want(change.literal[1..].iter().all(|term| *term < 65_528), "a changed belief is ground")?;
            match (change.add, place) {
                (true, None) if self.beliefs.contains(&opposite(change.literal)) => {
                    return Err("a literal is added whose opposite is held".to_string());
                }
                (true, None) if self.beliefs.len() < 64 => self.beliefs.push(change.literal),
                (false, Some(place)) => drop(self.beliefs.remove(place)),
                _ => return Err("a change that has no effect is reported".to_string()),
            }
        }
        Ok(())
    }

    /// Both sums, and who serves what.
    fn sums(&self) -> Checked {
        let live = self.live.len() as u32;
        want(self.made == self.succeeded + self.failed + live, "made = succeeded + failed + live")?;
        want(self.ended.len() as u32 == self.succeeded + self.failed, "each ended instance once")?;
        want(live as usize == self.stacks.iter().map(Vec::len).sum::<usize>(), "live instances stand in the stacks")?;
        let (closed, queued) = (self.closed.len() as u32, self.queue.len() as u32);
        want(self.taken + self.posted == closed + queued, "taken + posted = closed + queued")?;
        want(self.queue.iter().all(|event| !self.closed.contains(&event.origin)), "no closed event is queued")?;
        let served = self.queue.iter().filter_map(|event| Some((event.origin, event.server?)));
        let mut servers = 0;
        for (origin, server) in served {
            servers += 1;
            want(self.live.get(&server).is_some_and(|instance| instance.serves == origin), "an event's server is live")?;
        }
        want(servers == live, "each live instance serves one queued event")?;
        let goals: Vec<Place> = self.queue.iter().filter_map(|event| goal(event.origin)).collect();
        let suspended = self.live.values().filter(|instance| matches!(instance.status, Status::Suspended(_))).count();
        want(goals.len() == suspended, "a goal in the queue for each suspended instance")?;
        let on_it = |goal: &Place| self.live.get(&goal[0]).is_some_and(|poster| poster.status == Status::Suspended(*goal));
        want(goals.iter().all(on_it), "each queued goal has its suspended instance")
    }
}

fn goal(origin: Origin) -> Option<Place> {
    match origin {
        Origin::Goal(place) => Some(place),
        Origin::External(_) => None,
    }
}
