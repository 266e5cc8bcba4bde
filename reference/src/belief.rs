//! The belief table and the search for a situation's solutions (document 01, "Literals and matching", "Situations").

use crate::literal::{Bindings, Fact, Literal};

/// The most beliefs that are held at a time.
pub const MOST_BELIEFS: usize = 64;

/// A change of the beliefs that took effect.
#[derive(Clone, Copy, Debug, PartialEq, Eq)]
pub enum Change {
    /// The fact was not held and now is.
    Added(Fact),
    /// The fact was held and now is not.
    Removed(Fact),
}

/// An add found no room: the table is full, and there was no opposite to take out.
#[derive(Clone, Copy, Debug, PartialEq, Eq)]
pub struct Full;

/// Facts that are held, all different and none the opposite of another, oldest first.
#[derive(Clone, Debug, Default)]
pub struct Beliefs(Vec<Fact>);

impl Beliefs {
    /// A table of facts that the caller knows to be different, without opposites and few enough.
    pub(crate) fn of(facts: Vec<Fact>) -> Self {
        Beliefs(facts)
    }

    /// The facts, oldest first.
    pub fn facts(&self) -> &[Fact] {
        &self.0
    }

    /// Whether the fact is held.
    pub fn holds(&self, fact: &Fact) -> bool {
        self.0.contains(fact)
    }

    /// Adds a fact last, unless it is held already. Its opposite is taken out first, as a change of its own (document 02, 1).
    pub fn add(&mut self, fact: Fact) -> Result<Vec<Change>, Full> {
        if self.holds(&fact) {
            return Ok(vec![]);
        }
        let cleared = self.remove(fact.opposite());
        if self.0.len() >= MOST_BELIEFS {
            return Err(Full);
        }
        self.0.push(fact);
        Ok(cleared.into_iter().chain([Change::Added(fact)]).collect())
    }

    /// Removes a fact, if it is held; the others keep their order.
    pub fn remove(&mut self, fact: Fact) -> Option<Change> {
        let place = self.0.iter().position(|held| *held == fact)?;
        self.0.remove(place);
        Some(Change::Removed(fact))
    }

    /// The bindings from the oldest belief that the literal matches.
    pub fn first_match(&self, literal: &Literal, bindings: &Bindings) -> Option<Bindings> {
        self.0.iter().find_map(|fact| literal.matched(fact, bindings))
    }

    /// The first solution of a list of literals, trying beliefs oldest first and going back where the rest has none.
    pub fn first_solution(&self, literals: &[Literal], bindings: &Bindings) -> Option<Bindings> {
        let Some((first, rest)) = literals.split_first() else {
            return Some(*bindings);
        };
        if rest.is_empty() {
            return self.first_match(first, bindings);
        }
        self.0.iter().find_map(|fact| self.first_solution(rest, &first.matched(fact, bindings)?))
    }

    /// Visits the solutions of a list of literals in order.
    fn visit_solutions(&self, literals: &[Literal], bindings: &Bindings, visit: &mut impl FnMut(&Bindings)) {
        let Some((first, rest)) = literals.split_first() else {
            return visit(bindings);
        };
        for extended in self.0.iter().filter_map(|fact| first.matched(fact, bindings)) {
            self.visit_solutions(rest, &extended, visit);
        }
    }
}

/// Alternatives, each a list of literals that must be held together.
#[derive(Clone, Debug, Default)]
pub struct Situation(pub Vec<Vec<Literal>>);

impl Situation {
    /// The first solution of the first alternative that has one.
    pub fn first_solution(&self, beliefs: &Beliefs, bindings: &Bindings) -> Option<Bindings> {
        self.0.iter().find_map(|literals| beliefs.first_solution(literals, bindings))
    }

    /// Visits all solutions in order.
    pub fn visit_solutions(&self, beliefs: &Beliefs, bindings: &Bindings, mut visit: impl FnMut(&Bindings)) {
        for literals in &self.0 {
            beliefs.visit_solutions(literals, bindings, &mut visit);
        }
    }

    /// The solution with the least value of a variable, unbound counting above all constants; the first one of equals.
    pub fn least_solution(&self, beliefs: &Beliefs, bindings: &Bindings, variable: u8) -> Option<Bindings> {
        let mut least: Option<Bindings> = None;
        self.visit_solutions(beliefs, bindings, |solution| {
            if least.is_none_or(|least| solution.rank(variable) < least.rank(variable)) {
                least = Some(*solution);
            }
        });
        least
    }

    /// Whether there is a solution.
    pub fn holds(&self, beliefs: &Beliefs, bindings: &Bindings) -> bool {
        self.first_solution(beliefs, bindings).is_some()
    }
}

#[cfg(test)]
mod tests {
    use super::*;
    use crate::literal::Symbol;

    const V0: u16 = 65_528;

    fn fact(symbol: u16, term: u16) -> Fact {
        Fact { symbol: Symbol::from_stored(symbol), terms: [term, 0, 0] }
    }

    fn literal(symbol: u16, term: u16) -> Literal {
        Literal::from_stored([symbol, term, 0, 0])
    }

    fn first(alternatives: Vec<Vec<Literal>>) -> Option<Option<u16>> {
        let beliefs = Beliefs::of(vec![fact(1, 5), fact(1, 6), fact(2, 6)]);
        Situation(alternatives).first_solution(&beliefs, &Bindings::default()).map(|bindings| bindings.get(0))
    }

    #[test]
    fn small_cases() {
        assert_eq!(first(vec![vec![literal(1, V0)]]), Some(Some(5)));
        assert_eq!(first(vec![vec![literal(1, V0), literal(2, V0)]]), Some(Some(6)));
        assert_eq!(first(vec![vec![literal(2, V0)], vec![literal(1, V0)]]), Some(Some(6)));
        assert_eq!(first(vec![]), None);
        assert_eq!(first(vec![vec![]]), Some(None));
        assert_eq!(first(vec![vec![literal(32_769, V0)]]), None);
        assert_eq!(first(vec![vec![Literal::from_stored([1, V0, V0, 0])]]), None);
    }

    /// V0 and V1 of the solution with the least V0, among beliefs that have both as terms.
    fn least(alternatives: Vec<Vec<Literal>>) -> Option<(Option<u16>, Option<u16>)> {
        let pair = |first: u16, second: u16| Fact { terms: [first, second, 0], ..fact(1, 0) };
        let beliefs = Beliefs::of(vec![pair(7, 1), pair(3, 2), pair(65_527, 4), pair(3, 3)]);
        let solution = Situation(alternatives).least_solution(&beliefs, &Bindings::default(), 0);
        solution.map(|bindings| (bindings.get(0), bindings.get(1)))
    }

    #[test]
    fn the_least_value_then_the_first_of_equals_and_unbound_last() {
        let both = Literal::from_stored([1, V0, V0 + 1, 0]);
        let second = Literal::from_stored([1, 65_527, V0 + 1, 0]);
        let largest = Literal::from_stored([1, V0, 4, 0]);
        assert_eq!(least(vec![vec![both]]), Some((Some(3), Some(2))));
        assert_eq!(least(vec![vec![second], vec![both]]), Some((Some(3), Some(2))));
        assert_eq!(least(vec![vec![], vec![largest]]), Some((Some(65_527), None)));
        assert_eq!(least(vec![vec![second], vec![]]), Some((None, Some(4))));
        assert_eq!(least(vec![vec![literal(2, V0)]]), None);
        assert_eq!(least(vec![]), None);
    }

    #[test]
    fn a_removed_fact_that_is_added_again_goes_last() {
        let mut beliefs = Beliefs::of(vec![fact(1, 5), fact(1, 6)]);
        assert_eq!(beliefs.add(fact(1, 5)), Ok(vec![]));
        assert_eq!(beliefs.facts(), [fact(1, 5), fact(1, 6)]);
        assert_eq!(beliefs.remove(fact(1, 5)), Some(Change::Removed(fact(1, 5))));
        assert_eq!(beliefs.remove(fact(1, 5)), None);
        assert_eq!(beliefs.add(fact(1, 5)), Ok(vec![Change::Added(fact(1, 5))]));
        assert_eq!(beliefs.facts(), [fact(1, 6), fact(1, 5)]);
    }

    #[test]
    fn an_add_takes_out_the_opposite_and_then_always_fits() {
        let mut facts: Vec<Fact> = (0..64).map(|term| fact(1, term)).collect();
        let mut beliefs = Beliefs::of(facts.clone());
        let turned = fact(3, 0).opposite();
        assert_eq!(beliefs.add(turned), Err(Full));
        let turned = facts.remove(7).opposite();
        assert_eq!(beliefs.add(turned), Ok(vec![Change::Removed(fact(1, 7)), Change::Added(turned)]));
        facts.push(turned);
        assert_eq!(beliefs.facts(), facts);
    }

    #[test]
    fn the_sixty_fifth_fact_finds_no_room() {
        let mut beliefs = Beliefs::of((0..64).map(|term| fact(1, term)).collect());
        assert_eq!(beliefs.add(fact(1, 64)), Err(Full));
        assert_eq!(beliefs.add(fact(1, 63)), Ok(vec![]));
    }
}
