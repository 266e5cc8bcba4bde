//! What the eight variables of a plan instance stand for, and matching (document 01, "Literals and matching").

use crate::library::{variable_of, Literal, Term, MOST_VARIABLES};

/// For each variable a constant or nothing.
#[derive(Clone, Copy, Debug, Default, PartialEq, Eq)]
pub struct Environment([Option<u16>; MOST_VARIABLES]);

impl Environment {
    pub fn get(&self, variable: u8) -> Option<u16> {
        self.0.get(usize::from(variable)).copied().flatten()
    }

    /// The environment with one more variable bound.
    pub fn with(mut self, variable: u8, constant: u16) -> Self {
        if let Some(place) = self.0.get_mut(usize::from(variable)) {
            *place = Some(constant);
        }
        self
    }

    /// The bound variables with their constants.
    pub fn bound(&self) -> impl Iterator<Item = (u8, u16)> + '_ {
        (0u8..).zip(self.0).filter_map(|(variable, constant)| Some((variable, constant?)))
    }

    /// The constant that a term stands for, if any.
    pub fn value(&self, term: Term) -> Option<u16> {
        match variable_of(term) {
            Some(variable) => self.get(variable),
            None => Some(term),
        }
    }

    /// The literal with its bound variables replaced.
    pub fn apply(&self, literal: &Literal) -> Literal {
        Literal { terms: literal.terms.map(|term| self.value(term).unwrap_or(term)), ..*literal }
    }

    /// The environment extended so that the literal is the ground one, if there is such.
    pub fn matching(&self, literal: &Literal, ground: &Literal) -> Option<Self> {
        if literal.negative != ground.negative || literal.predicate != ground.predicate {
            return None;
        }
        let mut environment = *self;
        for (term, constant) in literal.terms.into_iter().zip(ground.terms) {
            match (environment.value(term), variable_of(term)) {
                (Some(value), _) if value == constant => {}
                (None, Some(variable)) => environment = environment.with(variable, constant),
                _ => return None,
            }
        }
        Some(environment)
    }
}
