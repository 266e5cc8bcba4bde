//! The solutions of a situation, and where a search without one came to a stop (document 01, "Situations").

use crate::library::Literal;
use crate::model::environment::Environment;

/// How far the search of one alternative came: the literals before this one have solutions, and none goes on to it.
#[derive(Clone, Copy, Debug)]
pub struct DeadEnd {
    pub alternative: usize,
    pub literal: usize,
}

/// The solution that is used, and out of how many it was chosen if all were looked at.
#[derive(Clone, Copy, Debug)]
pub struct Solution {
    pub environment: Environment,
    pub least_of: Option<usize>,
}

/// The first solution, or a dead end for each alternative.
pub fn first(situation: &[Vec<Literal>], beliefs: &[Literal], from: &Environment) -> Result<Solution, Vec<DeadEnd>> {
    let mut found = None;
    let dead_ends = visit(situation, beliefs, from, &mut |environment| {
        found = Some(Solution { environment: *environment, least_of: None });
        false
    });
    found.ok_or(dead_ends)
}

/// The solution with the least value of a variable: the earliest of equal ones, unbound above all constants.
pub fn least(
    situation: &[Vec<Literal>],
    beliefs: &[Literal],
    from: &Environment,
    variable: u8,
) -> Result<Solution, Vec<DeadEnd>> {
    let rank = |environment: &Environment| environment.get(variable).map_or(u32::MAX, u32::from);
    let mut best: Option<Environment> = None;
    let mut seen = 0;
    let dead_ends = visit(situation, beliefs, from, &mut |environment| {
        seen += 1;
        if best.as_ref().is_none_or(|so_far| rank(environment) < rank(so_far)) {
            best = Some(*environment);
        }
        true
    });
    best.map(|environment| Solution { environment, least_of: Some(seen) }).ok_or(dead_ends)
}

/// Shows the solutions in order for as long as more are wanted; the dead ends of the alternatives before.
fn visit(
    situation: &[Vec<Literal>],
    beliefs: &[Literal],
    from: &Environment,
    wants_more: &mut dyn FnMut(&Environment) -> bool,
) -> Vec<DeadEnd> {
    let mut dead_ends = vec![];
    for (alternative, literals) in situation.iter().enumerate() {
        let mut search = Search { literals, beliefs, deepest: DeadEnd { alternative, literal: 0 } };
        if !search.from(0, from, wants_more) {
            break;
        }
        dead_ends.push(search.deepest);
    }
    dead_ends
}

struct Search<'a> {
    literals: &'a [Literal],
    beliefs: &'a [Literal],
    deepest: DeadEnd,
}

impl Search<'_> {
    /// Goes through the solutions of the literals from a place on; whether more are wanted after them.
    fn from(&mut self, place: usize, environment: &Environment, wants_more: &mut dyn FnMut(&Environment) -> bool) -> bool {
        let Some(literal) = self.literals.get(place) else {
            return wants_more(environment);
        };
        self.deepest.literal = self.deepest.literal.max(place);
        let beliefs = self.beliefs;
        beliefs.iter().all(|belief| match environment.matching(literal, belief) {
            Some(extended) => self.from(place + 1, &extended, wants_more),
            None => true,
        })
    }
}
