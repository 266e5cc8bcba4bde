//! The agent and its three calls (document 01, "The three calls").

use crate::answer::{Answer, Deed};
use crate::belief::{Beliefs, Change};
use crate::library::{Action, Branch, BranchKind, EventKind, Library, Plan};
use crate::literal::{Bindings, Fact, Literal};
use crate::refusal::Refusal;
use crate::state::{Event, Instance, Number, Origin, Stack, Status};

/// The most external events that are queued at a time.
pub const MOST_EXTERNAL: usize = 32;
/// The most stacks that stand at a time.
pub const MOST_STACKS: usize = 8;
/// The most instances in one stack.
pub const MOST_INSTANCES: usize = 8;
/// The last number that an event or an instance can have.
const LAST_NUMBER: Number = Number::MAX;

/// What became of a branch.
enum Attempt {
    Stepped(Vec<Change>),
    Missed,
    Done(Fact),
    Posted(EventKind, Fact),
}

/// An agent that runs a library.
#[derive(Clone, Debug)]
pub struct Agent {
    library: Vec<u8>,
    plans: Vec<Plan>,
    beliefs: Beliefs,
    queue: Vec<Event>,
    stacks: Vec<Stack>,
    taken: Number,
    made: Number,
}

impl Agent {
    /// An agent that has done nothing yet.
    pub fn new(library: Library) -> Self {
        Agent {
            library: library.bytes,
            plans: library.plans,
            beliefs: Beliefs::of(library.beliefs),
            queue: Vec::new(),
            stacks: Vec::new(),
            taken: 0,
            made: 0,
        }
    }

    /// The agent with other beliefs, events, stacks and counts, which the caller knows to be well formed.
    pub(crate) fn in_state(self, facts: Vec<Fact>, queue: Vec<Event>, stacks: Vec<Stack>, [taken, made]: [Number; 2]) -> Self {
        Agent { beliefs: Beliefs::of(facts), queue, stacks, taken, made, ..self }
    }

    /// The bytes of its library.
    pub fn library(&self) -> &[u8] {
        &self.library
    }

    /// The plans, by number.
    pub fn plans(&self) -> &[Plan] {
        &self.plans
    }

    /// The beliefs.
    pub fn beliefs(&self) -> &Beliefs {
        &self.beliefs
    }

    /// The events, the oldest first.
    pub fn queue(&self) -> &[Event] {
        &self.queue
    }

    /// The stacks, the next to run first.
    pub fn stacks(&self) -> &[Stack] {
        &self.stacks
    }

    /// How many external events were taken.
    pub fn taken(&self) -> Number {
        self.taken
    }

    /// How many instances were made.
    pub fn made(&self) -> Number {
        self.made
    }

    /// A device reports: kind 0 a belief gained, 1 a belief lost, 2 an event.
    pub fn report(&mut self, kind: u16, literal: &Literal) -> Result<Answer, Refusal> {
        let kind = match kind {
            0 => EventKind::Added,
            1 => EventKind::Removed,
            2 => EventKind::Told,
            _ => return Err(Refusal::Malformed),
        };
        let fact = literal.ground(&Bindings::default()).ok_or(Refusal::Malformed)?;
        let number = self.taken.checked_add(1).ok_or(Refusal::NumbersSpent)?;
        let external = self.queue.iter().filter(|event| matches!(event.origin, Origin::External(_)));
        if external.count() >= MOST_EXTERNAL {
            return Err(Refusal::QueueFull);
        }
        let changes = match kind {
            EventKind::Added => self.beliefs.add(fact).map_err(|_| Refusal::BeliefsFull)?,
            EventKind::Removed => self.beliefs.remove(fact).into_iter().collect(),
            _ => vec![],
        };
        self.taken = number;
        self.post(Origin::External(number), kind, fact);
        Ok(Answer { deed: Deed::Taken(number), changes })
    }

    /// Takes up the first pending event or, without one, runs the first stack that can run.
    pub fn cycle(&mut self) -> Result<Answer, Refusal> {
        let all_stacks = self.stacks.len() >= MOST_STACKS;
        let passed_over = |event: &Event| event.served || all_stacks && matches!(event.origin, Origin::External(_));
        if let Some(place) = self.queue.iter().position(|event| !passed_over(event)) {
            return self.take_up(place);
        }
        let can_run = |stack: &Stack| stack.last().is_some_and(|top| top.status == Status::Active);
        match self.stacks.iter().position(can_run) {
            Some(place) => Ok(self.run(place)),
            None => Ok(Deed::Idle.into()),
        }
    }

    /// A device tells whether the action that an instance waits for worked.
    pub fn outcome(&mut self, id: Number, worked: bool) -> Result<Answer, Refusal> {
        let waits = |top: &&mut Instance| top.id == id && top.status == Status::Waiting;
        let mut tops = self.stacks.iter_mut().filter_map(|stack| stack.last_mut());
        let instance = tops.find(waits).ok_or(Refusal::NotWaiting)?;
        let place = instance.last_tried();
        if !worked {
            instance.status = Status::Active;
            return Ok(Deed::Missed(place).into());
        }
        let next = self.plans[instance.plan].states[place.state][place.branch].next;
        instance.step_to(next);
        Ok(Deed::Stepped(place, next).into())
    }

    fn post(&mut self, origin: Origin, kind: EventKind, fact: Fact) {
        self.queue.push(Event { origin, kind, fact, failed: Vec::new(), served: false });
    }

    /// The first applicable plan with the solution that it is to be made with: its first, or the one with the least value.
    fn choose(&self, event: &Event) -> Option<(usize, Bindings)> {
        self.plans.iter().enumerate().find_map(|(number, plan)| {
            if plan.kind != event.kind || event.failed.contains(&number) {
                return None;
            }
            let bindings = plan.trigger.matched(&event.fact, &Bindings::default())?;
            let solution = match plan.least {
                None => plan.context.first_solution(&self.beliefs, &bindings),
                Some(variable) => plan.context.least_solution(&self.beliefs, &bindings, variable),
            };
            Some((number, solution?))
        })
    }

    /// Makes an instance for the event, or closes it where no plan applies.
    fn take_up(&mut self, place: usize) -> Result<Answer, Refusal> {
        let Some((plan, bindings)) = self.choose(&self.queue[place]) else {
            return Ok(self.give_up(place));
        };
        if self.made == LAST_NUMBER {
            return Err(Refusal::NumbersSpent);
        }
        self.made += 1;
        let id = self.made;
        let serves = self.queue[place].origin;
        let instance = Instance { id, plan, serves, bindings, state: 0, tried: 0, status: Status::Active };
        match serves {
            Origin::External(_) => {
                let mut stack = Stack::with_capacity(MOST_INSTANCES);
                stack.push(instance);
                self.stacks.push(stack);
            }
            Origin::Goal(goal) => {
                if let Some(stack) = self.stacks.iter_mut().find(|stack| stack.last().is_some_and(|top| top.id == goal.id)) {
                    stack.push(instance);
                }
            }
        }
        self.queue[place].served = true;
        Ok(Deed::Made { id, plan, serves }.into())
    }

    /// Closes an event that no plan applies to.
    fn give_up(&mut self, place: usize) -> Answer {
        let event = self.queue.remove(place);
        match event.origin {
            Origin::External(number) => Deed::Dropped(number, event.failed.len()).into(),
            Origin::Goal(goal) => {
                let mut tops = self.stacks.iter_mut().filter_map(|stack| stack.last_mut());
                if let Some(poster) = tops.find(|top| top.id == goal.id) {
                    poster.status = Status::Active;
                }
                Deed::Unmet(goal, event.failed.len()).into()
            }
        }
    }

    /// Gives the stack a turn; it goes last, or goes for good once it is empty.
    fn run(&mut self, place: usize) -> Answer {
        let mut stack = self.stacks.remove(place);
        let answer = self.turn(&mut stack);
        if !stack.is_empty() {
            self.stacks.push(stack);
        }
        answer
    }

    fn turn(&mut self, stack: &mut Stack) -> Answer {
        let high = stack.len() >= MOST_INSTANCES;
        let Some(top) = stack.last_mut() else {
            return Deed::Idle.into();
        };
        let plan = &self.plans[top.plan];
        if !plan.maintenance.holds(&self.beliefs, &top.bindings) {
            return self.fail(stack);
        }
        let branches = &plan.states[top.state];
        if branches.is_empty() {
            return self.succeed(stack);
        }
        let Some(branch) = branches.get(top.tried) else {
            return self.fail(stack);
        };
        top.tried += 1;
        let place = top.last_tried();
        match attempt(branch, &mut self.beliefs, &mut top.bindings, high) {
            Attempt::Stepped(changes) => {
                top.step_to(branch.next);
                Answer { deed: Deed::Stepped(place, branch.next), changes }
            }
            Attempt::Missed => Deed::Missed(place).into(),
            Attempt::Done(fact) => {
                top.status = Status::Waiting;
                Deed::Done(place, fact).into()
            }
            Attempt::Posted(kind, fact) => {
                top.status = Status::Suspended;
                self.post(Origin::Goal(place), kind, fact);
                Deed::Posted(place).into()
            }
        }
    }

    /// The top succeeds: its event is closed, and a poster below steps past its goal.
    fn succeed(&mut self, stack: &mut Stack) -> Answer {
        let Some(ended) = stack.pop() else {
            return Deed::Idle.into();
        };
        let changes = perform(&self.plans[ended.plan].on_success, &mut self.beliefs, &ended.bindings);
        self.queue.retain(|event| event.origin != ended.serves);
        if let Some(poster) = stack.last_mut() {
            let goal = poster.last_tried();
            poster.step_to(self.plans[poster.plan].states[goal.state][goal.branch].next);
        }
        Answer { deed: Deed::Succeeded(ended.id), changes }
    }

    /// The top fails: its event is pending again, where it stands, and will not see this plan again.
    fn fail(&mut self, stack: &mut Stack) -> Answer {
        let Some(ended) = stack.pop() else {
            return Deed::Idle.into();
        };
        let changes = perform(&self.plans[ended.plan].on_failure, &mut self.beliefs, &ended.bindings);
        if let Some(event) = self.queue.iter_mut().find(|event| event.origin == ended.serves) {
            event.served = false;
            event.failed.push(ended.plan);
        }
        Answer { deed: Deed::Failed(ended.id), changes }
    }
}

/// Tries a branch; `high` says that its stack has no room for another instance.
fn attempt(branch: &Branch, beliefs: &mut Beliefs, bindings: &mut Bindings, high: bool) -> Attempt {
    let bound = match branch.kind {
        BranchKind::Query => beliefs.first_match(&branch.literal, bindings),
        BranchKind::Divide(division) => division.worked_out(bindings),
        _ => None,
    };
    if let Some(bound) = bound {
        *bindings = bound;
        return Attempt::Stepped(vec![]);
    }
    let Some(fact) = branch.literal.ground(bindings) else {
        return Attempt::Missed;
    };
    match branch.kind {
        BranchKind::Add => beliefs.add(fact).map_or(Attempt::Missed, Attempt::Stepped),
        BranchKind::Remove => Attempt::Stepped(beliefs.remove(fact).into_iter().collect()),
        BranchKind::External => Attempt::Done(fact),
        BranchKind::Achieve if beliefs.holds(&fact) => Attempt::Stepped(vec![]),
        BranchKind::Query if beliefs.holds(&fact.opposite()) => Attempt::Missed,
        BranchKind::Divide(_) => Attempt::Missed,
        _ if high => Attempt::Missed,
        BranchKind::Achieve => Attempt::Posted(EventKind::Achieve, fact),
        BranchKind::Query => Attempt::Posted(EventKind::Query, fact),
    }
}

/// Carries out a list of actions, passing over those that cannot be; the changes that took effect.
fn perform(actions: &[Action], beliefs: &mut Beliefs, bindings: &Bindings) -> Vec<Change> {
    let effect = |action: &Action| match action {
        Action::Add(literal) => beliefs.add(literal.ground(bindings)?).ok(),
        Action::Remove(literal) => beliefs.remove(literal.ground(bindings)?).map(|change| vec![change]),
    };
    actions.iter().filter_map(effect).flatten().collect()
}
