//! Plans that divide lengths, miss in every way, and use what they got.

use crate::draft::{ACHIEVE, ADD, Branch, DIVIDE, EXTERNAL, Literal, Plan, QUERY, REMOVE, V0};
use crate::plans::Words;
use crate::random::Random;

const V1: u16 = V0 + 1;
const V2: u16 = V0 + 2;
/// Variables that nothing but a division binds here.
const PANELS: u16 = 4;
const OFFCUT: u16 = 5;
const PANELS_AGAIN: u16 = 6;
const OFFCUT_AGAIN: u16 = 7;
/// A variable that nothing binds here.
const UNBOUND: u16 = V0 + 3;
/// What the bodies believe the results by for one step.
const CUT: u16 = 32;

/// Constants that are no small numbers.
pub const LENGTHS: [u16; 5] = [0, 12, 37, 1_000, 65_527];

/// Plans of any kind that divide.
pub fn plans(random: &mut Random, words: &Words) -> Vec<Plan> {
    (0..random.between(3, 8)).map(|_| cutter(random, words)).collect()
}

fn cutter(random: &mut Random, words: &Words) -> Plan {
    let kind = random.weighted(&[3, 1, 4, 1, 1]) as u16;
    let symbols = match kind {
        0 | 1 => &words.facts,
        2 => &words.told,
        _ => &words.goals,
    };
    let piece = [*random.pick(&words.facts), V1, V2, 0];
    let context = if random.percent(60) { vec![piece] } else { vec![] };
    // the offcut goes back among the pieces
    let rest = random.percent(40).then_some((ADD, [piece[0], V0 + OFFCUT, V0 + PANELS, 0]));
    Plan {
        least: random.percent(50).then_some(1),
        context: vec![context],
        success: rest.into_iter().collect(),
        states: body(random, words),
        ..Plan::simple(kind, [*random.pick(symbols), V0, 0, 0])
    }
}

/// Divisions one after another until one is stepped past, and then a use of its results.
fn body(random: &mut Random, words: &Words) -> Vec<Vec<Branch>> {
    let divisions = random.between(2, 4);
    let mut states = vec![vec![]];
    for _ in 0..divisions {
        let (literal, panels, offcut) = division(random, words);
        let mut state = append(&mut states, 0, DIVIDE, literal);
        for (kind, literal) in uses(random, words, V0 + panels, V0 + offcut) {
            state = append(&mut states, state, kind, literal);
        }
    }
    states
}

/// A new last state, behind a branch of an earlier one.
fn append(states: &mut Vec<Vec<Branch>>, from: usize, kind: u16, literal: Literal) -> usize {
    let next = states.len();
    states[from].push(Branch { kind, literal, next: next as u16 });
    states.push(vec![]);
    next
}

/// At most three steps that use both results.
fn uses(random: &mut Random, words: &Words, panels: u16, offcut: u16) -> Vec<(u16, Literal)> {
    let shown = (EXTERNAL, [60, panels, offcut, V0]);
    let goal = *random.pick(&words.goals);
    match random.below(8) {
        0 => vec![(ADD, [CUT, panels, offcut, 0]), (REMOVE, [CUT, panels, offcut, 0])],
        1 | 2 => {
            let taken = random.percent(25);
            let field = if taken { PANELS + 8 * OFFCUT } else { PANELS_AGAIN + 8 * OFFCUT_AGAIN };
            let again = [field, *random.pick(&[panels, offcut]), *random.pick(&[1, 2, 3, offcut]), 0];
            vec![(DIVIDE, again), (EXTERNAL, [61, V0 + PANELS_AGAIN, V0 + OFFCUT_AGAIN, panels])]
        }
        3 | 4 => vec![(*random.pick(&[ACHIEVE, QUERY]), [goal, offcut, panels, 0]), shown],
        5 => vec![(QUERY, [*random.pick(&words.facts), offcut, UNBOUND, 0]), (EXTERNAL, [61, UNBOUND, panels, 0])],
        _ => vec![shown],
    }
}

/// A division as stored, and the variables that get its results.
pub fn division(random: &mut Random, words: &Words) -> (Literal, u16, u16) {
    let constant = *random.pick(&words.constants);
    let any = random.below(65_528) as u16;
    let length = [V0, V1, constant, any, UNBOUND][random.weighted(&[9, 4, 2, 1, 2])];
    let panel = [random.between(1, 9) as u16, constant, any, 0, V0, V2, UNBOUND][random.weighted(&[9, 3, 1, 2, 2, 3, 2])];
    // V0 where the term is a constant
    let variable = |term: u16| term.saturating_sub(V0);
    let other = random.below(8) as u16;
    let (panels, offcut) = match random.below(12) {
        0 => (0, OFFCUT),
        1 => (PANELS, 0),
        2 => (variable(length), OFFCUT),
        3 => (PANELS, variable(panel)),
        4 => (other, (other + random.between(1, 7) as u16) % 8),
        5 => (OFFCUT, PANELS),
        _ => (PANELS, OFFCUT),
    };
    ([panels + 8 * offcut, length, panel, 0], panels, offcut)
}
