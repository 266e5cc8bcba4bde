//! The belief table: at most 64 ground literals, oldest first, no literal beside its opposite.

use crate::library::{Literal, MOST_BELIEFS};

/// A belief that was added or taken out.
#[derive(Clone, Copy, Debug, PartialEq, Eq)]
pub struct Change {
    pub removes: bool,
    pub literal: Literal,
}

#[derive(Clone, Debug)]
pub struct Table(Vec<Literal>);

impl Table {
    pub fn new(beliefs: &[Literal]) -> Self {
        Table(beliefs.to_vec())
    }

    pub fn beliefs(&self) -> &[Literal] {
        &self.0
    }

    pub fn holds(&self, literal: &Literal) -> bool {
        self.0.contains(literal)
    }

    /// Whether an add of this literal would find no room.
    pub fn is_full_for(&self, literal: &Literal) -> bool {
        self.0.len() == MOST_BELIEFS && !self.holds(literal) && !self.holds(&literal.opposite())
    }

    /// Adds or removes; the changes that had an effect. There is room for what is added.
    pub fn change(&mut self, removes: bool, literal: &Literal) -> Vec<Change> {
        if removes {
            return self.take_out(literal);
        }
        if self.holds(literal) {
            return vec![];
        }
        let mut changes = self.take_out(&literal.opposite());
        self.0.push(*literal);
        changes.push(Change { removes: false, literal: *literal });
        changes
    }

    fn take_out(&mut self, literal: &Literal) -> Vec<Change> {
        let Some(place) = self.0.iter().position(|belief| belief == literal) else {
            return vec![];
        };
        self.0.remove(place);
        vec![Change { removes: true, literal: *literal }]
    }
}
