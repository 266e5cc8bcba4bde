//! What a call answers, and the reasons that the journal does not tell.

use crate::library::Literal;
use crate::model::environment::Environment;
use crate::model::situation::{DeadEnd, Solution};
use crate::model::table::Change;

/// An instance with its plan.
#[derive(Clone, Copy, Debug, PartialEq, Eq)]
pub struct Who {
    pub id: u32,
    pub plan: usize,
}

/// A branch of an instance's state.
#[derive(Clone, Copy, Debug, PartialEq, Eq)]
pub struct Place {
    pub instance: u32,
    pub state: usize,
    pub branch: usize,
}

/// Where an event came from.
#[derive(Clone, Copy, Debug, PartialEq, Eq)]
pub enum Origin {
    External(u32),
    Goal(Place),
}

/// What an event is about, and where it came from.
#[derive(Clone, Copy, Debug, PartialEq, Eq)]
pub struct Matter {
    pub origin: Origin,
    pub kind: u16,
    pub literal: Literal,
}

/// The answer as the journal prints it, without its changes.
#[derive(Clone, Copy, Debug, PartialEq, Eq)]
pub enum Deed {
    Taken(u32),
    Idle,
    Dropped { event: u32, failed: u32 },
    Unmet { at: Place, failed: u32 },
    Made { id: u32, plan: usize, origin: Origin },
    Stepped { at: Place, next: usize },
    Missed(Place),
    Done { at: Place, literal: Literal },
    Posted(Place),
    Succeeded(u32),
    Failed(u32),
    Refused(u16),
}

/// One answer: what is printed, which external event it serves, and why.
#[derive(Clone, Debug)]
pub struct Step {
    pub deed: Deed,
    pub changes: Vec<Change>,
    pub external: Option<u32>,
    pub why: Why,
}

impl Step {
    /// Whether it closes the reported event that it serves.
    pub fn closes_event(&self) -> bool {
        match (&self.deed, &self.why) {
            (Deed::Dropped { .. }, _) => true,
            (Deed::Succeeded(_), Why::End(end)) => end.poster.is_none(),
            _ => false,
        }
    }
}

#[derive(Clone, Debug)]
pub enum Why {
    Report(Matter),
    Idle(Idle),
    Choice(Choice),
    Trial(Trial),
    End(End),
    Refused(Refused),
}

/// Why there is nothing to do.
#[derive(Clone, Debug)]
pub struct Idle {
    /// Who waits for the outcome of which action.
    pub waiting: Vec<(Who, Literal)>,
    /// External events that are passed over while there are 8 stacks.
    pub held_back: Vec<u32>,
}

/// The search of a plan for an event.
#[derive(Clone, Debug)]
pub struct Choice {
    pub event: Matter,
    /// The instance whose goal it is.
    pub poster: Option<Who>,
    /// Each plan passed over, in library order.
    pub passed: Vec<(usize, Passed)>,
    pub chosen: Option<Solution>,
}

/// Why a plan was passed over.
#[derive(Clone, Debug)]
pub enum Passed {
    Kind,
    Trigger,
    FailedBefore,
    /// No solution of the context: a dead end for each alternative, from what the trigger bound.
    Context(Environment, Vec<DeadEnd>),
}

/// A branch tried, or an outcome of one.
#[derive(Clone, Debug)]
pub struct Trial {
    pub who: Who,
    pub at: Place,
    /// The environments before and after.
    pub before: Environment,
    pub after: Environment,
    pub came: Came,
}

/// What came of a branch, in the order of document 01's tests.
#[derive(Clone, Copy, Debug, PartialEq, Eq)]
pub enum Came {
    /// Added or removed; the changes tell whether with effect.
    Applied,
    Worked,
    HeldAlready,
    Found(Literal),
    Divided,
    Acts,
    Posted,
    Unbound,
    TableFull,
    DidNotWork,
    OppositeHeld,
    StackFull,
    PanelZero,
    ResultBound(u8),
}

/// How an instance ended.
#[derive(Clone, Debug)]
pub struct End {
    pub who: Who,
    pub environment: Environment,
    pub because: Because,
    pub skipped: Vec<Skipped>,
    /// The event that it served.
    pub event: Matter,
    /// The instance whose goal that is.
    pub poster: Option<Who>,
}

#[derive(Clone, Debug)]
pub enum Because {
    AtItsEnd,
    /// The maintenance does not hold.
    Broken(Vec<DeadEnd>),
    NothingLeft,
}

/// A list action that was skipped, with the bound variables replaced.
#[derive(Clone, Copy, Debug)]
pub struct Skipped {
    pub removes: bool,
    pub literal: Literal,
    pub table_full: bool,
}

/// Why a call was refused.
#[derive(Clone, Copy, Debug)]
pub enum Refused {
    Unreadable,
    Kind(u16),
    NotGround,
    EventsSpent,
    QueueFull,
    TableFull(Literal),
    InstancesSpent { plan: usize },
    NeverMade(u32),
    Ended(u32),
    NotWaiting { who: Who, suspended: bool },
}
