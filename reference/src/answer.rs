//! What a call did (document 01, "The three calls").

use crate::belief::Change;
use crate::literal::Fact;
use crate::state::{Number, Origin, Place};

/// What a call did.
#[derive(Clone, Copy, Debug, PartialEq, Eq)]
pub enum Deed {
    /// The external event with this number was taken.
    Taken(Number),
    /// There was nothing to do.
    Idle,
    /// An external event was dropped; so many plans had failed for it.
    Dropped(Number, usize),
    /// A goal was given up; so many plans had failed for it.
    Unmet(Place, usize),
    /// An instance of a plan was made.
    Made {
        /// The new instance.
        id: Number,
        /// Its plan.
        plan: usize,
        /// The event that it serves.
        serves: Origin,
    },
    /// A branch was taken to its next state.
    Stepped(Place, usize),
    /// A branch came to nothing.
    Missed(Place),
    /// A device was told to act.
    Done(Place, Fact),
    /// A goal was posted.
    Posted(Place),
    /// An instance succeeded.
    Succeeded(Number),
    /// An instance failed.
    Failed(Number),
}

/// What a call did, and the changes of the beliefs that took effect, in order.
#[derive(Clone, Debug)]
pub struct Answer {
    /// What it did.
    pub deed: Deed,
    /// What it changed.
    pub changes: Vec<Change>,
}

impl From<Deed> for Answer {
    fn from(deed: Deed) -> Self {
        Answer { deed, changes: Vec::new() }
    }
}
