//! The rules for states (document 01, "State", "Well formed means"), tested on what an image says.

use crate::agent::{Agent, MOST_EXTERNAL, MOST_INSTANCES};
use crate::image::{Image, StoredEvent};
use crate::library::{Branch, BranchKind, Library, MOST_PLANS, Plan, table};
use crate::literal::Bindings;
use crate::state::{Event, Instance, Number, Origin, Stack, Status};
use std::collections::HashSet;
use std::hash::Hash;

/// The agent of an image, if its library is accepted and its state is well formed.
pub(crate) fn agent(image: Image) -> Option<Agent> {
    let library = Library::decode(image.library).ok()?;
    let facts = table(&image.beliefs)?;
    let queue = image.events.iter().map(|event| queued(event, &image.stacks)).collect::<Option<Vec<_>>>()?;
    let state = State { plans: &library.plans, queue: &queue, stacks: &image.stacks, counts: image.counts };
    state.is_well_formed().then(|| Agent::new(library).in_state(facts, queue, image.stacks, image.counts))
}

/// An event as the agent keeps it, if its literal is ground.
fn queued(event: &StoredEvent, stacks: &[Stack]) -> Option<Event> {
    Some(Event {
        origin: event.origin,
        kind: event.kind,
        fact: event.literal.ground(&Bindings::default())?,
        failed: (0..MOST_PLANS).filter(|plan| event.failed >> plan & 1 == 1).collect(),
        served: stacks.iter().flatten().any(|instance| instance.serves == event.origin),
    })
}

fn all_differ<T: Eq + Hash>(mut items: impl Iterator<Item = T>) -> bool {
    let mut seen = HashSet::new();
    items.all(|item| seen.insert(item))
}

/// A state whose rules are tested.
struct State<'a> {
    plans: &'a [Plan],
    queue: &'a [Event],
    stacks: &'a [Stack],
    /// How many external events were taken, and how many instances were made.
    counts: [Number; 2],
}

impl State<'_> {
    fn is_well_formed(&self) -> bool {
        let [taken, made] = self.counts;
        self.instances().all(|instance| (1..=made).contains(&instance.id) && self.stands_in_its_plan(instance))
            && all_differ(self.instances().map(|instance| instance.id))
            && self.stacks.iter().all(stacked)
            && self.external_numbers().all(|number| (1..=taken).contains(&number))
            && all_differ(self.external_numbers())
            && self.external_numbers().count() <= MOST_EXTERNAL
            && self.queue.iter().all(|event| self.is_event(event))
            && self.goals_are_those_of_the_suspended()
            && all_differ(self.stacks.iter().filter_map(|stack| number(stack.first()?.serves)))
            && self.instances().all(|instance| self.serves(instance))
    }

    fn instances(&self) -> impl Iterator<Item = &Instance> {
        self.stacks.iter().flatten()
    }

    fn external_numbers(&self) -> impl Iterator<Item = Number> {
        self.queue.iter().filter_map(|event| number(event.origin))
    }

    /// The branch that an instance tried last.
    fn branch(&self, instance: &Instance) -> Option<&Branch> {
        self.plans[instance.plan].states[instance.state].get(instance.tried.checked_sub(1)?)
    }

    /// Its plan, state and tried branches exist, and it waits for an external action or is suspended on a goal.
    fn stands_in_its_plan(&self, instance: &Instance) -> bool {
        let state = self.plans.get(instance.plan).and_then(|plan| plan.states.get(instance.state));
        if state.is_none_or(|branches| instance.tried > branches.len()) {
            return false;
        }
        let kind = self.branch(instance).map(|branch| branch.kind);
        match instance.status {
            Status::Active => true,
            Status::Waiting => kind == Some(BranchKind::External),
            Status::Suspended => kind.is_some_and(|kind| kind.goal().is_some()),
        }
    }

    /// Its failed plans exist; an external one is of a kind that is reported, a goal is what its poster is suspended on.
    fn is_event(&self, event: &Event) -> bool {
        let failed_exist = event.failed.iter().all(|plan| *plan < self.plans.len());
        let posted = match event.origin {
            Origin::External(_) => !event.kind.is_goal(),
            Origin::Goal(place) => {
                let poster = self.suspended().find(|poster| poster.last_tried() == place);
                poster.is_some_and(|poster| self.is_goal_of(event, poster))
            }
        };
        failed_exist && posted
    }

    fn is_goal_of(&self, event: &Event, poster: &Instance) -> bool {
        self.branch(poster).is_some_and(|branch| {
            branch.kind.goal() == Some(event.kind) && branch.literal.ground(&poster.bindings) == Some(event.fact)
        })
    }

    fn suspended(&self) -> impl Iterator<Item = &Instance> {
        self.instances().filter(|instance| instance.status == Status::Suspended)
    }

    /// Each goal is some suspended instance's; that there are as many, all different, leaves one for each.
    fn goals_are_those_of_the_suspended(&self) -> bool {
        let goals = || self.queue.iter().map(|event| event.origin).filter(|origin| number(*origin).is_none());
        all_differ(goals()) && goals().count() == self.suspended().count()
    }

    /// Its event is queued, of its plan's kind, and its plan has not failed for it.
    fn serves(&self, instance: &Instance) -> bool {
        let event = self.queue.iter().find(|event| event.origin == instance.serves);
        event.is_some_and(|event| event.kind == self.plans[instance.plan].kind && !event.failed.contains(&instance.plan))
    }
}

/// The number of an external event.
fn number(origin: Origin) -> Option<Number> {
    match origin {
        Origin::External(number) => Some(number),
        Origin::Goal(_) => None,
    }
}

/// All below the top are suspended, and so is not the eighth.
fn stacked(stack: &Stack) -> bool {
    let suspended = |instance: &Instance| instance.status == Status::Suspended;
    let below = stack.len().saturating_sub(1);
    stack[..below].iter().all(suspended) && !stack.get(MOST_INSTANCES - 1).is_some_and(suspended)
}
