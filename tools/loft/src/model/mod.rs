//! The agent of document 01 with requests 1, 5, 11 and 12 of document 02, replayed with its reasons.
//!
//! It answers what the proved program answers and keeps why: which plans were passed over, why a branch was missed, what an
//! instance lost, which list action was skipped.

pub mod environment;
pub mod situation;
pub mod step;
pub mod table;

mod choose;
mod run;
#[cfg(test)]
mod tests;

use crate::library::{Branch, Library, Literal, ADDED, REMOVED, TOLD};
use environment::Environment;
use step::{Came, Deed, Idle, Matter, Origin, Place, Refused, Step, Trial, Who, Why};
use table::Table;

const MOST_STACKS: usize = 8;
const STACK_HEIGHT: usize = 8;
const MOST_EXTERNAL: usize = 32;
/// The highest number of an event or an instance.
pub const LAST_NUMBER: u32 = u32::MAX;

/// A line in.
#[derive(Clone, Copy, Debug, PartialEq, Eq)]
pub enum Call {
    Unreadable,
    Report(u16, Literal),
    Cycle,
    Outcome(u32, bool),
}

#[derive(Clone, Copy, Debug, PartialEq, Eq)]
enum Status {
    Active,
    Waiting,
    Suspended,
}

#[derive(Clone, Debug)]
struct Instance {
    id: u32,
    plan: usize,
    environment: Environment,
    state: usize,
    tried: usize,
    status: Status,
    /// The event that it serves.
    serves: Matter,
}

impl Instance {
    fn who(&self) -> Who {
        Who { id: self.id, plan: self.plan }
    }

    /// The branch tried last.
    fn place(&self) -> Place {
        Place { instance: self.id, state: self.state, branch: self.tried.saturating_sub(1) }
    }

    fn step_to(&mut self, next: usize) {
        self.state = next;
        self.tried = 0;
        self.status = Status::Active;
    }
}

#[derive(Clone, Debug)]
struct Event {
    matter: Matter,
    /// A bit for each failed plan.
    failed: u32,
    served: bool,
}

impl Event {
    fn new(origin: Origin, kind: u16, literal: Literal) -> Self {
        Event { matter: Matter { origin, kind, literal }, failed: 0, served: false }
    }

    /// The number of an event that was reported; none for a goal.
    fn external(&self) -> Option<u32> {
        match self.matter.origin {
            Origin::External(number) => Some(number),
            Origin::Goal(_) => None,
        }
    }
}

#[derive(Clone, Debug)]
struct Stack {
    external: u32,
    /// Bottom first, never empty.
    instances: Vec<Instance>,
}

/// The state of the agent.
pub struct Agent<'a> {
    library: &'a Library,
    table: Table,
    queue: Vec<Event>,
    stacks: Vec<Stack>,
    taken: u32,
    made: u32,
}

impl<'a> Agent<'a> {
    pub fn new(library: &'a Library) -> Self {
        let table = Table::new(&library.beliefs);
        Agent { library, table, queue: vec![], stacks: vec![], taken: 0, made: 0 }
    }

    pub fn beliefs(&self) -> &[Literal] {
        self.table.beliefs()
    }

    pub fn call(&mut self, call: &Call) -> Step {
        match *call {
            Call::Unreadable => refused(0, Refused::Unreadable),
            Call::Report(kind, literal) => self.report(kind, literal),
            Call::Cycle => self.cycle(),
            Call::Outcome(id, worked) => self.outcome(id, worked),
        }
    }

    fn report(&mut self, kind: u16, literal: Literal) -> Step {
        let external = self.queue.iter().filter(|event| event.external().is_some()).count();
        if kind > TOLD {
            return refused(5, Refused::Kind(kind));
        }
        if !literal.is_ground() {
            return refused(5, Refused::NotGround);
        }
        if self.taken == LAST_NUMBER {
            return refused(9, Refused::EventsSpent);
        }
        if external == MOST_EXTERNAL {
            return refused(7, Refused::QueueFull);
        }
        if kind == ADDED && self.table.is_full_for(&literal) {
            return refused(6, Refused::TableFull(literal));
        }
        let changes = if kind == TOLD { vec![] } else { self.table.change(kind == REMOVED, &literal) };
        self.taken += 1;
        let event = Event::new(Origin::External(self.taken), kind, literal);
        let why = Why::Report(event.matter);
        self.queue.push(event);
        Step { deed: Deed::Taken(self.taken), changes, external: Some(self.taken), why }
    }

    fn outcome(&mut self, id: u32, worked: bool) -> Step {
        let all = self.stacks.iter_mut().flat_map(|stack| {
            let external = stack.external;
            stack.instances.iter_mut().map(move |instance| (external, instance))
        });
        let Some((external, instance)) = all.into_iter().find(|(_, instance)| instance.id == id) else {
            let never = id == 0 || id > self.made;
            return refused(8, if never { Refused::NeverMade(id) } else { Refused::Ended(id) });
        };
        let who = instance.who();
        if instance.status != Status::Waiting {
            return refused(8, Refused::NotWaiting { who, suspended: instance.status == Status::Suspended });
        }
        let (at, environment) = (instance.place(), instance.environment);
        instance.status = Status::Active;
        let (deed, came) = match branch_at(self.library, who.plan, at) {
            Some(branch) if worked => {
                let next = usize::from(branch.next);
                instance.step_to(next);
                (Deed::Stepped { at, next }, Came::Worked)
            }
            _ => (Deed::Missed(at), Came::DidNotWork),
        };
        let why = Why::Trial(Trial { who, at, before: environment, after: environment, came });
        Step { deed, changes: vec![], external: Some(external), why }
    }

    fn cycle(&mut self) -> Step {
        let all_stacks = self.stacks.len() == MOST_STACKS;
        let passed_over = |event: &Event| all_stacks && event.external().is_some();
        if let Some(place) = self.queue.iter().position(|event| !event.served && !passed_over(event)) {
            return self.take_up(place);
        }
        let active = |stack: &Stack| stack.instances.last().is_some_and(|top| top.status == Status::Active);
        match self.stacks.iter().position(active) {
            Some(place) => self.run(place),
            None => self.idle(),
        }
    }

    fn idle(&self) -> Step {
        let waits = |stack: &Stack| {
            let top = stack.instances.last()?;
            let literal = &branch_at(self.library, top.plan, top.place())?.literal;
            Some((top.who(), top.environment.apply(literal)))
        };
        let waiting = self.stacks.iter().filter_map(waits).collect();
        let held_back = self.queue.iter().filter(|event| !event.served).filter_map(Event::external);
        let why = Why::Idle(Idle { waiting, held_back: held_back.collect() });
        Step { deed: Deed::Idle, changes: vec![], external: None, why }
    }

    /// The stack with the instance on top that posted a goal.
    fn stack_of(&mut self, goal: Place) -> Option<&mut Stack> {
        self.stacks.iter_mut().find(|stack| stack.instances.last().is_some_and(|top| top.id == goal.instance))
    }
}

fn refused(number: u16, why: Refused) -> Step {
    Step { deed: Deed::Refused(number), changes: vec![], external: None, why: Why::Refused(why) }
}

/// A branch of a plan's body, by its place.
pub fn branch_at(library: &Library, plan: usize, at: Place) -> Option<&Branch> {
    library.plans.get(plan)?.states.get(at.state)?.get(at.branch)
}

fn plan_bit(plan: usize) -> u32 {
    1u32.checked_shl(plan as u32).unwrap_or(0)
}
