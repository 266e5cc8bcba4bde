//! Plans that use the context's solution with the least value of a variable, and show which one it was.

use crate::draft::{ACHIEVE, ADD, ADDED, Branch, EXTERNAL, Literal, Plan, QUERY, REMOVE, REMOVED, Situation, TOLD, V0};
use crate::plans::Words;
use crate::random::Random;

const V1: u16 = V0 + 1;
const V2: u16 = V0 + 2;
const V3: u16 = V0 + 3;
/// What the bodies show a choice by; no context has it.
const SHOWN: u16 = 30;
/// A belief of the largest constant, for contexts that bind V1 to it alone or leave it unbound.
pub const LARGEST: Literal = [31, 65_527, 0, 0];

/// Plans for each kind of trigger, some with another plan behind them, and one that posts their goals.
pub fn plans(random: &mut Random, words: &Words) -> Vec<Plan> {
    let mut plans = vec![];
    let mut goals = vec![];
    for kind in [ADDED, REMOVED, TOLD, TOLD, ACHIEVE, QUERY] {
        let plan = chooser(random, words, kind);
        if kind >= ACHIEVE {
            goals.push((kind, plan.trigger));
        }
        let next = Plan::simple(kind, plan.trigger).path(&[(EXTERNAL, [60, V0, 0, 0])]);
        plans.push(plan);
        if random.percent(50) {
            plans.push(next);
        }
    }
    plans.push(Plan::simple(TOLD, [words.told[0], V0, 0, 0]).path(&goals));
    plans
}

fn chooser(random: &mut Random, words: &Words, kind: u16) -> Plan {
    let symbols = match kind {
        ADDED | REMOVED => &words.facts,
        TOLD => &words.told,
        _ => &words.goals,
    };
    let trigger = [*random.pick(symbols), V0, 0, 0];
    let context = if random.percent(25) { largest(random) } else { any_context(random, words) };
    // what was chosen may be used up
    let piece = context.iter().flatten().next().filter(|piece| piece[0] != LARGEST[0] && random.percent(40));
    let used = piece.map(|piece| (REMOVE, *piece));
    Plan {
        least: Some(*random.pick(&[0, 0, 0, 1, 1, 1, 1, 1, 1, 1, 1, 1, 2, 2, 2, 2, 3, 3, 4, 5, 6, 7])),
        context,
        maintenance: if random.percent(15) { vec![] } else { vec![vec![]] },
        success: used.into_iter().collect(),
        states: if random.percent(50) { done() } else { believed() },
        ..Plan::simple(kind, trigger)
    }
}

fn any_context(random: &mut Random, words: &Words) -> Situation {
    (0..random.between(1, 4)).map(|_| alternative(random, words)).collect()
}

/// The largest constant for V1, before or behind no value.
fn largest(random: &mut Random) -> Situation {
    let bound = vec![[LARGEST[0], V1, 0, 0]];
    if random.percent(50) { vec![vec![], bound] } else { vec![bound, vec![]] }
}

/// Literals that bind V1, V2 or V3, or none of them.
fn alternative(random: &mut Random, words: &Words) -> Vec<Literal> {
    let (first, second) = (*random.pick(&words.facts), *random.pick(&words.facts));
    match random.below(9) {
        0..3 => vec![[first, V1, V2, 0]],
        3 => vec![[first, V2, V1, 0]],
        4 => vec![[first, V1, 0, 0], [second, V1, V2, 0]],
        5 => vec![[first, V2, V3, 0], [second, V1, V3, 0]],
        6 => vec![[first, V2, V3, 0]],
        7 => vec![[first, V0, V1, V2]],
        _ => vec![],
    }
}

/// A body that has a device act with what is bound.
fn done() -> Vec<Vec<Branch>> {
    let shown = [[60, V1, V2, V3], [61, V1, V2, 0], [62, V2, V3, 0], [63, V1, 0, 0]];
    let branch = |(place, literal): (usize, Literal)| Branch { kind: EXTERNAL, literal, next: place as u16 + 1 };
    let mut states = vec![shown.into_iter().enumerate().map(branch).collect()];
    states.resize(shown.len() + 1, vec![]);
    states
}

/// A body that believes for one step what is bound.
fn believed() -> Vec<Vec<Branch>> {
    let shown = [[SHOWN, V1, V2, V3], [SHOWN, V1, V2, 0], [SHOWN, V2, V3, 0], [SHOWN, V1, 0, 0]];
    let count = shown.len();
    let branch = |kind: u16, literal: Literal, next: usize| Branch { kind, literal, next: next as u16 };
    let adds = shown.iter().enumerate().map(|(place, literal)| branch(ADD, *literal, place + 1)).collect();
    let removes = shown.iter().enumerate().map(|(place, literal)| vec![branch(REMOVE, *literal, place + 1 + count)]);
    [adds].into_iter().chain(removes).chain(vec![vec![]; count]).collect()
}
