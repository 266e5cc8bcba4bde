//! How the body of a plan may end (document 02, request 10), counted over the lists of answers themselves.

use crate::library::{Branch, Library};
use crate::refusal::Refusal;

/// The longest list of answers that may be asked about.
pub const LONGEST_LIST: u16 = 15;

/// How a body ended.
#[derive(Clone, Copy, Debug, PartialEq, Eq)]
enum Ending {
    Succeeded,
    Failed,
}

/// How many lists of answers end a body, in either way.
#[derive(Clone, Copy, Debug, Default, PartialEq, Eq)]
pub struct Endings {
    /// The lists after which it has just succeeded.
    pub succeeded: u32,
    /// The lists after which it has just failed.
    pub failed: u32,
}

impl Endings {
    /// Counts the lists of so many answers that end the body of a plan.
    pub fn of(library: &[u8], plan: u16, length: u16) -> Result<Endings, Refusal> {
        let library = Library::decode(library)?;
        let plan = library.plans.get(usize::from(plan)).ok_or(Refusal::NoSuchPlan)?;
        if length > LONGEST_LIST {
            return Err(Refusal::ListTooLong);
        }
        let mut endings = Endings::default();
        for list in 0..1_u32 << length {
            match ending(&plan.states, (0..length).map(|place| list >> place & 1 == 1)) {
                Some(Ending::Succeeded) => endings.succeeded += 1,
                Some(Ending::Failed) => endings.failed += 1,
                None => {}
            }
        }
        Ok(endings)
    }
}

/// How the body ends with the last of the answers, each saying whether the branch tried next works; none if it goes on or had
/// ended before.
fn ending(states: &[Vec<Branch>], answers: impl Iterator<Item = bool>) -> Option<Ending> {
    let (mut state, mut tried) = (0, 0);
    for worked in answers {
        let branch = states[state].get(tried)?;
        (state, tried) = if worked { (branch.next, 0) } else { (state, tried + 1) };
    }
    match states[state].len() {
        0 => Some(Ending::Succeeded),
        branches => (tried == branches).then_some(Ending::Failed),
    }
}

#[cfg(test)]
mod tests {
    use super::*;

    /// A library of one plan, whose states have branches to these states.
    fn library(states: &[&[u16]]) -> Vec<u8> {
        let mut plan = vec![0, 1, 0, 0, 0, 0, 0, 0, 0, states.len() as u16];
        for branches in states {
            plan.push(branches.len() as u16);
            plan.extend(branches.iter().flat_map(|next| [0, 1, 0, 0, 0, *next]));
        }
        let contents = [1, 0, 8, 2 * plan.len() as u16];
        contents.iter().chain(&plan).flat_map(|number| number.to_le_bytes()).collect()
    }

    fn table(states: &[&[u16]]) -> Vec<(u32, u32)> {
        let library = library(states);
        let endings = |length| Endings::of(&library, 0, length).expect("an accepted library, its plan and a length up to 15");
        (0..=LONGEST_LIST).map(endings).map(|endings| (endings.succeeded, endings.failed)).collect()
    }

    fn padded(start: &[(u32, u32)]) -> Vec<(u32, u32)> {
        let mut table = start.to_vec();
        table.resize(usize::from(LONGEST_LIST) + 1, (0, 0));
        table
    }

    #[test]
    fn small_bodies() {
        assert_eq!(table(&[&[]]), padded(&[(1, 0)]));
        assert_eq!(table(&[&[1], &[]]), padded(&[(0, 0), (1, 1)]));
        assert_eq!(table(&[&[1, 2, 3, 4], &[], &[], &[], &[]]), padded(&[(0, 0), (1, 0), (1, 0), (1, 0), (1, 1)]));
        assert_eq!(table(&[&[1, 3], &[2], &[], &[]]), padded(&[(0, 0), (0, 0), (2, 2)]));
    }

    #[test]
    fn the_longest_body_ends_with_the_longest_list() {
        let next: Vec<[u16; 1]> = (1..16).map(|state| [state]).collect();
        let states: Vec<&[u16]> = next.iter().map(|next| &next[..]).chain([&[][..]]).collect();
        let table = table(&states);
        assert_eq!(table[0], (0, 0));
        assert!(table[1..15].iter().all(|counts| *counts == (0, 1)));
        assert_eq!(table[15], (1, 1));
    }

    #[test]
    fn refusals_in_order() {
        let accepted = library(&[&[]]);
        assert_eq!(Endings::of(&[0; 3], 9, 16), Err(Refusal::Contents));
        assert_eq!(Endings::of(&[0; 4], 0, 16), Err(Refusal::NoSuchPlan));
        assert_eq!(Endings::of(&accepted, 1, 16), Err(Refusal::NoSuchPlan));
        assert_eq!(Endings::of(&accepted, 0, 16), Err(Refusal::ListTooLong));
        assert_eq!(Endings::of(&accepted, 0, 15), Ok(Endings::default()));
    }
}
