//! A library's bytes decoded into beliefs and plans (document 01, "Library").

use crate::belief::{MOST_BELIEFS, Situation};
use crate::division::Division;
use crate::literal::{Bindings, Fact, Literal};
use crate::refusal::Refusal;

/// The most plans that a library has.
pub const MOST_PLANS: usize = 32;
/// The most bytes that an accepted library has.
pub const LARGEST_LIBRARY: usize = 19_332;
const MOST_STATES: usize = 16;
/// The most alternatives, literals, actions or branches in one list.
const MOST_ITEMS: usize = 4;
/// A trigger kind carries this v + 1 times where the least value of variable v decides.
const MARK: u16 = 16;

/// What an event tells, or a plan answers to.
#[derive(Clone, Copy, Debug, PartialEq, Eq)]
pub enum EventKind {
    /// A belief was added.
    Added,
    /// A belief was removed.
    Removed,
    /// Something was told.
    Told,
    /// A goal: make this so.
    Achieve,
    /// A goal: find out whether this is so.
    Query,
}

impl EventKind {
    /// The kind of a stored number, 0 to 4.
    pub(crate) fn from_stored(number: u16) -> Option<Self> {
        match number {
            0 => Some(EventKind::Added),
            1 => Some(EventKind::Removed),
            2 => Some(EventKind::Told),
            3 => Some(EventKind::Achieve),
            4 => Some(EventKind::Query),
            _ => None,
        }
    }

    /// Whether an event of this kind is a goal.
    pub fn is_goal(self) -> bool {
        matches!(self, EventKind::Achieve | EventKind::Query)
    }
}

/// What a branch does.
#[derive(Clone, Copy, Debug, PartialEq, Eq)]
pub enum BranchKind {
    /// Adds a belief.
    Add,
    /// Removes a belief.
    Remove,
    /// Has a device act, and waits for its outcome.
    External,
    /// Posts a goal to achieve, unless it is so already.
    Achieve,
    /// Asks the beliefs, or posts a goal to find out.
    Query,
    /// Divides a length.
    Divide(Division),
}

impl BranchKind {
    /// The kind of the goal that a branch posts, if it can post one.
    pub fn goal(self) -> Option<EventKind> {
        match self {
            BranchKind::Achieve => Some(EventKind::Achieve),
            BranchKind::Query => Some(EventKind::Query),
            _ => None,
        }
    }
}

/// One way on from a state.
#[derive(Clone, Debug)]
pub struct Branch {
    /// What it does.
    pub kind: BranchKind,
    /// With which literal; a division's has both lengths.
    pub literal: Literal,
    /// The state that it leads to.
    pub next: usize,
}

/// An action of a success or failure list.
#[derive(Clone, Debug)]
pub enum Action {
    /// Adds a belief.
    Add(Literal),
    /// Removes a belief.
    Remove(Literal),
}

/// A plan, decoded.
#[derive(Clone, Debug)]
pub struct Plan {
    /// The kind of event that it answers to.
    pub kind: EventKind,
    /// The variable whose least value decides which of the context's solutions is used; none: the first one is.
    pub least: Option<u8>,
    /// The literal that the event's must match.
    pub trigger: Literal,
    /// What must hold for it to be chosen.
    pub context: Situation,
    /// What must hold at each of its turns.
    pub maintenance: Situation,
    /// What it does to the beliefs when it succeeds.
    pub on_success: Vec<Action>,
    /// What it does to the beliefs when it fails.
    pub on_failure: Vec<Action>,
    /// The branches of each state of its body; a state without branches is an end.
    pub states: Vec<Vec<Branch>>,
}

/// What an agent starts from.
#[derive(Clone, Debug)]
pub struct Library {
    /// The bytes that it was decoded from.
    pub bytes: Vec<u8>,
    /// The initial beliefs, oldest first.
    pub beliefs: Vec<Fact>,
    /// The plans, by number.
    pub plans: Vec<Plan>,
}

impl Library {
    /// Decodes a library, or says by which rule it is refused.
    pub fn decode(bytes: &[u8]) -> Result<Library, Refusal> {
        let contents = Reader(bytes).contents().ok_or(Refusal::Contents)?;
        let bodies = contents.bodies(bytes)?;
        let beliefs = table(&contents.beliefs).ok_or(Refusal::InitialBelief)?;
        let plans = bodies.into_iter().map(decode_plan).collect::<Option<_>>().ok_or(Refusal::Plan)?;
        Ok(Library { bytes: bytes.to_vec(), beliefs, plans })
    }
}

struct Contents {
    entries: Vec<(usize, usize)>,
    beliefs: Vec<Literal>,
}

impl Contents {
    /// The bytes of each plan, if the plans are packed behind the contents up to the last byte.
    fn bodies<'a>(&self, bytes: &'a [u8]) -> Result<Vec<&'a [u8]>, Refusal> {
        let mut end = 4 + 4 * self.entries.len() + 8 * self.beliefs.len();
        let mut bodies = Vec::with_capacity(self.entries.len());
        for &(offset, length) in &self.entries {
            if offset != end {
                return Err(Refusal::Packing);
            }
            end += length;
            bodies.push(bytes.get(offset..end).ok_or(Refusal::Packing)?);
        }
        if end == bytes.len() { Ok(bodies) } else { Err(Refusal::Packing) }
    }
}

/// The literals as a table of beliefs: ground, all different and without opposites.
pub(crate) fn table(literals: &[Literal]) -> Option<Vec<Fact>> {
    let mut facts = Vec::with_capacity(MOST_BELIEFS);
    for literal in literals {
        let fact = literal.ground(&Bindings::default())?;
        if facts.contains(&fact) || facts.contains(&fact.opposite()) {
            return None;
        }
        facts.push(fact);
    }
    Some(facts)
}

/// A plan that takes up all of the bytes.
fn decode_plan(bytes: &[u8]) -> Option<Plan> {
    let mut reader = Reader(bytes);
    let plan = reader.plan()?;
    reader.0.is_empty().then_some(plan)
}

/// Whether each branch leads on to a later state, and each state but the first is led to once.
fn is_tree(states: &[Vec<Branch>]) -> bool {
    let mut led_to = vec![false; states.len()];
    for (state, branches) in states.iter().enumerate() {
        for branch in branches {
            if branch.next <= state || branch.next >= states.len() || led_to[branch.next] {
                return false;
            }
            led_to[branch.next] = true;
        }
    }
    led_to.into_iter().skip(1).all(|reached| reached)
}

/// Reads values off the front of the bytes; none where they end too early or break the layout.
pub(crate) struct Reader<'a>(pub(crate) &'a [u8]);

impl Reader<'_> {
    pub(crate) fn number(&mut self) -> Option<u16> {
        let (bytes, rest) = self.0.split_first_chunk()?;
        self.0 = rest;
        Some(u16::from_le_bytes(*bytes))
    }

    pub(crate) fn count(&mut self, most: usize) -> Option<usize> {
        self.number().map(usize::from).filter(|count| *count <= most)
    }

    pub(crate) fn items<T>(&mut self, count: usize, mut item: impl FnMut(&mut Self) -> Option<T>) -> Option<Vec<T>> {
        (0..count).map(|_| item(self)).collect()
    }

    fn list<T>(&mut self, item: impl FnMut(&mut Self) -> Option<T>) -> Option<Vec<T>> {
        let count = self.count(MOST_ITEMS)?;
        self.items(count, item)
    }

    pub(crate) fn literal(&mut self) -> Option<Literal> {
        Some(Literal::from_stored([self.number()?, self.number()?, self.number()?, self.number()?]))
    }

    fn contents(&mut self) -> Option<Contents> {
        let plans = self.count(MOST_PLANS)?;
        let beliefs = self.count(MOST_BELIEFS)?;
        let entry = |reader: &mut Self| Some((reader.number()?.into(), reader.number()?.into()));
        Some(Contents { entries: self.items(plans, entry)?, beliefs: self.items(beliefs, Self::literal)? })
    }

    fn plan(&mut self) -> Option<Plan> {
        let (kind, least) = self.trigger_kind()?;
        let plan = Plan {
            kind,
            least,
            trigger: self.literal()?,
            context: self.situation()?,
            maintenance: self.situation()?,
            on_success: self.list(Self::action)?,
            on_failure: self.list(Self::action)?,
            states: self.states()?,
        };
        is_tree(&plan.states).then_some(plan)
    }

    /// The kind of event, and the variable v where 16 × (v + 1) is added to it (document 02, request 12).
    fn trigger_kind(&mut self) -> Option<(EventKind, Option<u8>)> {
        let field = self.number()?;
        let kind = EventKind::from_stored(field % MARK)?;
        match field / MARK {
            0 => Some((kind, None)),
            mark @ 1..=8 => Some((kind, Some(mark as u8 - 1))),
            _ => None,
        }
    }

    fn situation(&mut self) -> Option<Situation> {
        self.list(|reader| reader.list(Self::literal)).map(Situation)
    }

    fn action(&mut self) -> Option<Action> {
        match self.number()? {
            0 => self.literal().map(Action::Add),
            1 => self.literal().map(Action::Remove),
            _ => None,
        }
    }

    fn states(&mut self) -> Option<Vec<Vec<Branch>>> {
        let count = self.count(MOST_STATES).filter(|count| *count > 0)?;
        self.items(count, |reader| reader.list(Self::branch))
    }

    fn branch(&mut self) -> Option<Branch> {
        let kind = self.number()?;
        let literal = self.literal()?;
        let kind = match kind {
            0 => BranchKind::Add,
            1 => BranchKind::Remove,
            2 if literal.symbol.is_negative() => return None,
            2 => BranchKind::External,
            3 => BranchKind::Achieve,
            4 => BranchKind::Query,
            5 => BranchKind::Divide(Division::of(&literal)?),
            _ => return None,
        };
        Some(Branch { kind, literal, next: self.number()?.into() })
    }
}

#[cfg(test)]
mod tests {
    use super::*;

    fn refused(bytes: &[u8]) -> Option<u16> {
        Library::decode(bytes).err().map(Refusal::number)
    }

    #[test]
    fn four_zero_bytes_three_and_five() {
        assert_eq!(refused(&[0; 4]), None);
        assert_eq!(refused(&[0; 3]), Some(1));
        assert_eq!(refused(&[0; 5]), Some(2));
    }

    #[test]
    fn a_trigger_kind_is_0_to_4_alone_or_with_one_of_eight_variables() {
        let decoded = |field: u16| {
            let numbers = [1, 0, 8, 22, field, 1, 0, 0, 0, 0, 0, 0, 0, 1, 0];
            let bytes: Vec<u8> = numbers.iter().flat_map(|number: &u16| number.to_le_bytes()).collect();
            Library::decode(&bytes).map(|library| (library.plans[0].kind, library.plans[0].least))
        };
        let accepted: Vec<u16> = (0..=u16::MAX).filter(|field| decoded(*field).is_ok()).collect();
        let expected: Vec<u16> = (0..9).flat_map(|mark| (0..5).map(move |kind| 16 * mark + kind)).collect();
        assert_eq!(accepted, expected);
        assert_eq!(decoded(2), Ok((EventKind::Told, None)));
        assert_eq!(decoded(16), Ok((EventKind::Added, Some(0))));
        assert_eq!(decoded(132), Ok((EventKind::Query, Some(7))));
        assert_eq!(decoded(5), Err(Refusal::Plan));
    }

    #[test]
    fn counts_over_the_most_are_refused_before_anything_is_read() {
        assert_eq!(refused(&[33, 0, 0, 0]), Some(1));
        assert_eq!(refused(&[0, 0, 65, 0]), Some(1));
        assert_eq!(refused(&[1, 0, 0, 0, 8, 0, 0]), Some(1));
    }

    #[test]
    fn an_entry_of_no_bytes_packs_and_is_no_plan() {
        assert_eq!(refused(&[1, 0, 0, 0, 8, 0, 0, 0]), Some(4));
        assert_eq!(refused(&[1, 0, 0, 0, 9, 0, 0, 0]), Some(2));
    }

    #[test]
    fn beliefs_are_ground_and_different_without_opposites() {
        assert_eq!(refused(&[0, 0, 1, 0, 1, 0, 248, 255, 0, 0, 0, 0]), Some(3));
        assert_eq!(refused(&[0, 0, 2, 0, 1, 0, 5, 0, 0, 0, 0, 0, 1, 0, 5, 0, 0, 0, 0, 0]), Some(3));
        assert_eq!(refused(&[0, 0, 2, 0, 1, 0, 5, 0, 0, 0, 0, 0, 1, 128, 5, 0, 0, 0, 0, 0]), Some(3));
        assert_eq!(refused(&[0, 0, 2, 0, 1, 128, 5, 0, 0, 0, 0, 0, 1, 0, 5, 0, 0, 0, 0, 0]), Some(3));
        assert_eq!(refused(&[0, 0, 2, 0, 1, 128, 5, 0, 0, 0, 0, 0, 1, 0, 6, 0, 0, 0, 0, 0]), None);
    }
}
