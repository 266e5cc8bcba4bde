//! A body becomes a tree of states: what follows a choice is copied behind each of its alternatives.

use super::resolve::{ResolvedPlan, Step};
use super::source::{Faults, Place};
use crate::library::*;

/// A body's states, and the source line of each branch.
#[derive(Clone, Debug, Default)]
pub struct Layout {
    pub states: Vec<Vec<Branch>>,
    pub lines: Vec<Vec<u32>>,
}

/// The tree of a plan's body; none where it breaks a limit, which is told.
pub fn layout(plan: &ResolvedPlan, faults: &mut Faults) -> Option<Layout> {
    let before = faults.errors();
    widths(&plan.body, faults);
    let states = cost(&plan.body).states.saturating_add(1);
    if states > MOST_STATES as u64 {
        let text = format!("{} has {states} states, and a body has at most {MOST_STATES}", plan.name);
        faults.error(plan.place, text, &[too_many(&plan.body)]);
    }
    if faults.errors() > before {
        return None;
    }
    let mut tree = Tree { states: vec![vec![]] };
    tree.block(&plan.body, vec![0]);
    let numbers = tree.numbers(plan, faults)?;
    Some(tree.numbered(&numbers))
}

fn too_many(body: &[Step]) -> String {
    match tails(body, 1).into_iter().max_by_key(|tail| tail.extra) {
        Some(tail) => format!("{}: make it a goal of its own", tail.shown()),
        None => "make a part of it a goal of its own".into(),
    }
}

/// What each choice of a plan costs in copied states, in words.
pub fn copies(plan: &ResolvedPlan) -> Vec<String> {
    tails(&plan.body, 1).iter().map(Tail::shown).collect()
}

// ---- What a body costs

/// How many states a block adds behind one open end, and how many ends it leaves open there.
#[derive(Clone, Copy)]
struct Cost {
    states: u64,
    ends: u64,
}

impl Cost {
    /// This, and then the other behind each of its ends.
    fn then(self, rest: Cost) -> Cost {
        let behind = self.ends.saturating_mul(rest.states);
        Cost { states: self.states.saturating_add(behind), ends: self.ends.saturating_mul(rest.ends) }
    }
}

const NOTHING: Cost = Cost { states: 0, ends: 1 };

fn cost(block: &[Step]) -> Cost {
    block.iter().rev().fold(NOTHING, |rest, step| step_cost(step).then(rest))
}

fn step_cost(step: &Step) -> Cost {
    match step {
        Step::One { times, .. } => Cost { states: *times as u64, ends: *times as u64 },
        Step::Either { alternatives, .. } => {
            alternatives.iter().map(|block| cost(block)).fold(Cost { states: 0, ends: 0 }, |sum, more| Cost {
                states: sum.states.saturating_add(more.states),
                ends: sum.ends.saturating_add(more.ends),
            })
        }
    }
}

/// What the steps behind a choice cost beyond their first copy.
struct Tail {
    extra: u64,
    place: Place,
    ends: u64,
}

impl Tail {
    fn shown(&self) -> String {
        let states = if self.extra == 1 { "1 state".into() } else { format!("{} states", self.extra) };
        format!("line {}: what follows is copied behind each of its {} ends, which costs {states}", self.place.line, self.ends)
    }
}

/// The tails of a block's choices, those within alternatives included, where the block stands behind so many ends.
fn tails(block: &[Step], ends: u64) -> Vec<Tail> {
    let costs: Vec<Cost> = block.iter().map(step_cost).collect();
    let mut rests = vec![NOTHING];
    costs.iter().rev().for_each(|own| rests.push(own.then(*rests.last().unwrap_or(&NOTHING))));
    let mut found = vec![];
    let mut open = ends;
    for (at, step) in block.iter().enumerate() {
        let own = costs[at];
        let rest = rests[block.len() - 1 - at];
        let extra = open.saturating_mul(own.ends.saturating_sub(1)).saturating_mul(rest.states);
        let (Step::One { place, .. } | Step::Either { place, .. }) = step;
        if extra > 0 {
            found.push(Tail { extra, place: *place, ends: own.ends });
        }
        if let Step::Either { alternatives, .. } = step {
            alternatives.iter().for_each(|block| found.extend(tails(block, open)));
        }
        open = open.saturating_mul(own.ends);
    }
    found
}

/// Tells each place with more ways on than a state has room for.
fn widths(block: &[Step], faults: &mut Faults) {
    for step in block {
        let width = width(step);
        if let Step::Either { place, alternatives } = step {
            if width > MOST_ITEMS {
                let text = format!("{width} alternatives at one place, and there are at most {MOST_ITEMS}");
                faults.error(*place, text, &["each try of 'up to N times' is one; make a part a goal of its own".into()]);
            }
            alternatives.iter().for_each(|block| widths(block, faults));
        }
    }
}

/// The ways on from the state where a step stands.
fn width(step: &Step) -> usize {
    match step {
        Step::One { times, .. } => *times,
        Step::Either { alternatives, .. } => alternatives.iter().map(|block| block.first().map_or(0, width)).sum(),
    }
}

// ---- The tree

struct Way {
    branch: Branch,
    line: u32,
    wanted: Option<(u64, Place)>,
}

/// States in the order in which they come up; each branch's `next` is such a place.
struct Tree {
    states: Vec<Vec<Way>>,
}

impl Tree {
    /// Adds a block's steps behind each open state; answers the states that are open after it.
    fn block(&mut self, steps: &[Step], open: Vec<usize>) -> Vec<usize> {
        steps.iter().fold(open, |open, step| self.step(step, open))
    }

    fn step(&mut self, step: &Step, open: Vec<usize>) -> Vec<usize> {
        match step {
            Step::Either { alternatives, .. } => alternatives.iter().flat_map(|block| self.block(block, open.clone())).collect(),
            Step::One { place, kind, spot, times, next, .. } => {
                let mut after = vec![];
                for state in open {
                    for _ in 0..*times {
                        after.push(self.states.len());
                        let branch = Branch { kind: *kind, literal: spot.literal, next: self.states.len() as u16 };
                        self.states[state].push(Way { branch, line: place.line, wanted: *next });
                        self.states.push(vec![]);
                    }
                }
                after
            }
        }
    }

    fn ways(&self) -> impl Iterator<Item = (usize, &Way)> {
        self.states.iter().enumerate().flat_map(|(state, ways)| ways.iter().map(move |way| (state, way)))
    }

    /// The number of each state: row by row from the start, or as the author says.
    fn numbers(&self, plan: &ResolvedPlan, faults: &mut Faults) -> Option<Vec<usize>> {
        let said = self.ways().filter(|(_, way)| way.wanted.is_some()).count();
        if said == 0 {
            return Some(self.row_by_row());
        }
        let mut numbers = vec![0; self.states.len()];
        let mut taken = vec![false; self.states.len()];
        let before = faults.errors();
        if said + 1 < self.states.len() {
            faults.error(plan.place, format!("of the steps of {} some have '-> N' and others have none", plan.name), &[]);
        }
        for (_, way) in self.ways() {
            let Some((number, place)) = way.wanted else { continue };
            if number == 0 || number >= self.states.len() as u64 {
                faults.error(
                    place,
                    format!("state {number}: this body has states 1 to {} behind its steps", taken.len() - 1),
                    &[],
                );
            } else if std::mem::replace(&mut taken[number as usize], true) {
                faults.error(
                    place,
                    format!("two steps lead to state {number}"),
                    &["a step that is copied cannot have '-> N'".into()],
                );
            }
            numbers[usize::from(way.branch.next)] = number as usize;
        }
        for (state, way) in self.ways() {
            let (own, next) = (numbers[state], numbers[usize::from(way.branch.next)]);
            if let Some((_, place)) = way.wanted.filter(|_| next <= own && faults.errors() == before) {
                faults.error(place, format!("state {next} is not above {own}, the state where the step stands"), &[]);
            }
        }
        (faults.errors() == before).then_some(numbers)
    }

    fn row_by_row(&self) -> Vec<usize> {
        let mut order = vec![0];
        for at in 0..self.states.len() {
            let next: Vec<usize> = self.states[order[at]].iter().map(|way| way.branch.next.into()).collect();
            order.extend(next);
        }
        let mut numbers = vec![0; order.len()];
        order.iter().enumerate().for_each(|(number, state)| numbers[*state] = number);
        numbers
    }

    fn numbered(&self, numbers: &[usize]) -> Layout {
        let mut layout = Layout { states: vec![vec![]; numbers.len()], lines: vec![vec![]; numbers.len()] };
        for (state, ways) in self.states.iter().enumerate() {
            let renumbered = ways.iter().map(|way| Branch { next: numbers[usize::from(way.branch.next)] as u16, ..way.branch });
            layout.states[numbers[state]] = renumbered.collect();
            layout.lines[numbers[state]] = ways.iter().map(|way| way.line).collect();
        }
        layout
    }
}
