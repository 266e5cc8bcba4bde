//! Events, instances and stacks (document 01, "State").

use crate::library::EventKind;
use crate::literal::{Bindings, Fact};

/// The number of an external event, or the id of an instance (document 02, request 5).
pub type Number = u32;

/// A branch of a state, as some instance met it.
#[derive(Clone, Copy, Debug, PartialEq, Eq, Hash)]
pub struct Place {
    /// The instance's id.
    pub id: Number,
    /// The state of its plan's body.
    pub state: usize,
    /// The branch of that state.
    pub branch: usize,
}

/// Where an event came from.
#[derive(Clone, Copy, Debug, PartialEq, Eq, Hash)]
pub enum Origin {
    /// A report, by its number.
    External(Number),
    /// A goal, by the branch that posted it.
    Goal(Place),
}

/// An event in the queue.
#[derive(Clone, Debug)]
pub struct Event {
    /// Where it came from.
    pub origin: Origin,
    /// What it tells.
    pub kind: EventKind,
    /// Of which fact.
    pub fact: Fact,
    /// The plans that failed for it.
    pub failed: Vec<usize>,
    /// Whether an instance serves it; if not it is pending.
    pub served: bool,
}

/// What an instance does between its turns.
#[derive(Clone, Copy, Debug, PartialEq, Eq)]
pub enum Status {
    /// It can run.
    Active,
    /// It waits for the outcome of its external action.
    Waiting,
    /// It waits for the goal that it posted.
    Suspended,
}

/// A plan that is being carried out.
#[derive(Clone, Debug)]
pub struct Instance {
    /// Its number, from 1.
    pub id: Number,
    /// The number of its plan.
    pub plan: usize,
    /// The event for which it was made.
    pub serves: Origin,
    /// What its variables are bound to.
    pub bindings: Bindings,
    /// The state of the body that it is in.
    pub state: usize,
    /// How many branches of that state it has tried.
    pub tried: usize,
    /// What it does.
    pub status: Status,
}

impl Instance {
    pub(crate) fn step_to(&mut self, state: usize) {
        self.state = state;
        self.tried = 0;
        self.status = Status::Active;
    }

    /// The branch that was tried last.
    pub(crate) fn last_tried(&self) -> Place {
        Place { id: self.id, state: self.state, branch: self.tried.saturating_sub(1) }
    }
}

/// The instances of one job, the last one on top; never empty between calls.
pub type Stack = Vec<Instance>;
