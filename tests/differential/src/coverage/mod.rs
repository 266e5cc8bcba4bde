//! Counts of what came up, so that a blind spot shows.

use crate::{damage, unreadable};
use reference::agent::{Agent, MOST_EXTERNAL, MOST_INSTANCES, MOST_STACKS};
use reference::answer::{Answer, Deed};
use reference::belief::{Beliefs, MOST_BELIEFS, Situation};
use reference::library::{Action, BranchKind};
use reference::literal::Bindings;
use reference::refusal::Refusal;
use reference::state::{Event, Instance, Number, Origin, Place};
use std::collections::BTreeMap;

mod division;
mod least;

/// The letters of the journal and the refusals by number, but for the one that only an image close to the last number meets.
pub const LETTERS: &[&str] = &["T", "I", "N", "U", "M e", "M g", "S", "B", "D", "G", "E", "F"];
pub const REFUSALS: &[&str] = &["X 0", "X 1", "X 2", "X 3", "X 4", "X 5", "X 6", "X 7", "X 8"];
/// What comes of numbers that are spent.
pub const SPENT: &[&str] = &["X 9 report", "X 9 cycle"];
/// The last number that the oldest images and journals could hold.
const LAST_NARROW: Number = 65_535;
/// What a journal is to reach beyond its letters.
pub const DEPTHS: &[&str] = &[
    "T of a held belief",
    "T of an absent belief removed",
    "T changes",
    "T takes out an opposite",
    "T takes out an opposite at 64",
    "M after a failure",
    "M that went back",
    "M with a bound context",
    "N after a failure",
    "U after a failure",
    "U at once",
    "I past a pending event",
    "S add",
    "S add held",
    "S add takes out an opposite",
    "S add takes out an opposite at 64",
    "S remove",
    "S remove absent",
    "S achieve held",
    "S query held",
    "S query binds",
    "S divide",
    "S outcome",
    "B add not ground",
    "B add full",
    "B remove not ground",
    "B external not ground",
    "B achieve not ground",
    "B achieve at 8",
    "B query not ground",
    "B query opposite",
    "B query at 8",
    "B divide",
    "B outcome",
    "G achieve",
    "G query",
    "F maintenance",
    "F maintenance at an end",
    "F branches spent",
    "F of a goal",
    "E of a goal",
    "list changes",
    "list takes out an opposite",
    "list takes out an opposite at 64",
    "over four changes",
    "list action not ground",
    "list add full",
    "list action without effect",
    "stack of 8",
    "8 stacks",
    "64 beliefs",
    "32 external events",
    "queue over 32",
    "X 5 by kind",
    "X 5 by literal",
    "X 5 at a full queue",
    "X 7 at full beliefs",
    "X 8 of a live id",
    "X 8 of an ended id",
    "T over 65,535",
    "M over 65,535",
];

/// How often each thing came up.
#[derive(Default)]
pub struct Coverage {
    counts: BTreeMap<&'static str, u64>,
    pub lines: u64,
}

/// What is remembered of an agent before a line.
pub struct Watch {
    beliefs: Beliefs,
    tops: Vec<(Instance, usize)>,
    pending: Vec<Event>,
    external: usize,
}

impl Watch {
    pub fn new(agent: &Agent) -> Self {
        let top = |stack: &Vec<Instance>| Some((stack.last()?.clone(), stack.len()));
        Watch {
            beliefs: agent.beliefs().clone(),
            tops: agent.stacks().iter().filter_map(top).collect(),
            pending: agent.queue().iter().filter(|event| !event.served).cloned().collect(),
            external: agent.queue().iter().filter(|event| is_external(event)).count(),
        }
    }

    fn is_full(&self) -> bool {
        self.beliefs.facts().len() == MOST_BELIEFS
    }

    fn top(&self, id: Number) -> Option<&(Instance, usize)> {
        self.tops.iter().find(|(instance, _)| instance.id == id)
    }
}

fn is_external(event: &Event) -> bool {
    matches!(event.origin, Origin::External(_))
}

impl Coverage {
    pub fn note(&mut self, name: &'static str) {
        *self.counts.entry(name).or_default() += 1;
    }

    fn note_if(&mut self, holds: bool, name: &'static str) {
        if holds {
            self.note(name);
        }
    }

    pub fn count(&self, name: &str) -> u64 {
        self.counts.get(name).copied().unwrap_or(0)
    }

    /// Every name that this list should count, by group.
    pub fn groups() -> Vec<(&'static str, Vec<&'static str>)> {
        let on_draft = damage::TO_DRAFT.iter().map(|(name, ..)| *name);
        let on_bytes = damage::TO_BYTES.iter().map(|(name, ..)| *name);
        let unknown = damage::UNKNOWN.iter().map(|(name, ..)| *name);
        let lines = unreadable::KINDS.iter().map(|(name, _)| *name);
        vec![
            ("letters", LETTERS.to_vec()),
            ("refusals", REFUSALS.to_vec()),
            ("depths", DEPTHS.to_vec()),
            ("least values", least::NAMES.to_vec()),
            ("divisions", division::NAMES.to_vec()),
            ("damaged libraries", on_draft.chain(on_bytes).chain(unknown).chain(["no file"]).collect()),
            ("unreadable lines", lines.chain(["one byte of a line changed"]).collect()),
        ]
    }

    /// What never came up.
    pub fn missing(&self) -> Vec<&'static str> {
        Self::groups().into_iter().flat_map(|(_, names)| names).filter(|name| self.count(name) == 0).collect()
    }

    /// Counts a line: the agent as it was, the line, its answer and the agent after it.
    pub fn observe(&mut self, before: &Watch, line: &[u8], answer: &Result<Answer, Refusal>, after: &Agent) {
        self.lines += 1;
        match answer {
            Ok(answer) => self.answer(before, line, answer, after),
            Err(refusal) => self.refusal(before, line, *refusal),
        }
        self.note_if(after.stacks().len() == MOST_STACKS, "8 stacks");
        self.note_if(after.stacks().iter().any(|stack| stack.len() == MOST_INSTANCES), "stack of 8");
        self.note_if(after.beliefs().facts().len() == MOST_BELIEFS, "64 beliefs");
        self.note_if(after.queue().len() > MOST_EXTERNAL, "queue over 32");
    }

    pub fn refusal(&mut self, before: &Watch, line: &[u8], refusal: Refusal) {
        REFUSALS.get(usize::from(refusal.number())).into_iter().for_each(|name| self.note(name));
        let full = before.external == MOST_EXTERNAL;
        match refusal {
            Refusal::Malformed => {
                let kind_is_good = matches!(line.get(2..4), Some(b"0 " | b"1 " | b"2 "));
                self.note(if kind_is_good { "X 5 by literal" } else { "X 5 by kind" });
                self.note_if(full, "X 5 at a full queue");
            }
            Refusal::QueueFull => self.note_if(before.is_full(), "X 7 at full beliefs"),
            Refusal::NotWaiting => {
                let id = line.split(|byte| *byte == b' ').nth(1).and_then(|id| std::str::from_utf8(id).ok()?.parse().ok());
                let live = id.is_some_and(|id| before.top(id).is_some());
                self.note(if live { "X 8 of a live id" } else { "X 8 of an ended id" });
            }
            Refusal::NumbersSpent => self.note(if line == b"C" { "X 9 cycle" } else { "X 9 report" }),
            _ => {}
        }
    }

    fn answer(&mut self, before: &Watch, line: &[u8], answer: &Answer, after: &Agent) {
        let cycle = line == b"C";
        match answer.deed {
            Deed::Taken(number) => {
                self.note_if(number > LAST_NARROW, "T over 65,535");
                self.taken(before, line, answer.changes.len());
            }
            Deed::Idle => {
                self.note("I");
                self.note_if(after.queue().iter().any(|event| !event.served), "I past a pending event");
            }
            Deed::Dropped(number, failed) => {
                self.note("N");
                self.note_if(failed > 0, "N after a failure");
                self.least_given_up(before, Origin::External(number), after);
            }
            Deed::Unmet(goal, failed) => {
                self.note("U");
                self.note(if failed > 0 { "U after a failure" } else { "U at once" });
                self.least_given_up(before, Origin::Goal(goal), after);
            }
            Deed::Made { id, plan, serves } => self.made(before, id, plan, serves, after),
            Deed::Stepped(place, _) => {
                self.note("S");
                self.note(if cycle { stepped(before, place, !answer.changes.is_empty(), after) } else { "S outcome" });
            }
            Deed::Missed(place) => {
                self.note("B");
                self.note(if cycle { missed(before, place, after) } else { "B outcome" });
            }
            Deed::Done(place, _) => self.done(before, place, after),
            Deed::Posted(place) => self.posted(before, place, after),
            Deed::Succeeded(id) => self.ended(before, id, true, after),
            Deed::Failed(id) => self.ended(before, id, false, after),
        }
        if cycle {
            self.tried(before, answer.deed, after);
        }
        self.changed(before, answer);
    }

    fn done(&mut self, before: &Watch, place: Place, after: &Agent) {
        self.note("D");
        self.least_shown(before, place, after);
    }

    fn posted(&mut self, before: &Watch, place: Place, after: &Agent) {
        self.note("G");
        let achieve = branch(before, place, after).is_some_and(|(kind, ..)| kind == BranchKind::Achieve);
        self.note(if achieve { "G achieve" } else { "G query" });
    }

    fn changed(&mut self, before: &Watch, answer: &Answer) {
        let turned = matches!(answer.deed, Deed::Stepped(..)) && answer.changes.len() == 2;
        self.note_if(turned, "S add takes out an opposite");
        self.note_if(turned && before.is_full(), "S add takes out an opposite at 64");
        self.note_if(answer.changes.len() > 4, "over four changes");
    }

    fn taken(&mut self, before: &Watch, line: &[u8], changes: usize) {
        self.note("T");
        let changed = changes > 0;
        self.note_if(changes == 2, "T takes out an opposite");
        self.note_if(changes == 2 && before.is_full(), "T takes out an opposite at 64");
        self.note_if(changed, "T changes");
        self.note_if(!changed && line.starts_with(b"P 0 "), "T of a held belief");
        self.note_if(!changed && line.starts_with(b"P 1 "), "T of an absent belief removed");
        self.note_if(before.external + 1 == MOST_EXTERNAL, "32 external events");
    }

    fn made(&mut self, before: &Watch, id: Number, plan: usize, serves: Origin, after: &Agent) {
        self.note_if(id > LAST_NARROW, "M over 65,535");
        self.note(if matches!(serves, Origin::External(_)) { "M e" } else { "M g" });
        let event = after.queue().iter().find(|event| event.origin == serves);
        self.note_if(event.is_some_and(|event| !event.failed.is_empty()), "M after a failure");
        let instance = after.stacks().iter().flatten().find(|instance| instance.id == id);
        let (Some(event), Some(instance)) = (event, instance) else { return };
        self.least_made(before, event, instance, after);
        let plan = &after.plans()[plan];
        let Some(from) = plan.trigger.matched(&event.fact, &Bindings::default()) else { return };
        self.note_if(instance.bindings != from, "M with a bound context");
        self.note_if(greedy(&plan.context, &before.beliefs, from) != Some(instance.bindings), "M that went back");
    }

    fn ended(&mut self, before: &Watch, id: Number, succeeded: bool, after: &Agent) {
        let Some((instance, height)) = before.top(id) else { return };
        let plan = &after.plans()[instance.plan];
        self.note(if succeeded { "E" } else { "F" });
        self.note_if(*height > 1, if succeeded { "E of a goal" } else { "F of a goal" });
        if !succeeded {
            let maintained = plan.maintenance.holds(&before.beliefs, &instance.bindings);
            let at_end = plan.states[instance.state].is_empty();
            self.note(if maintained { "F branches spent" } else { "F maintenance" });
            self.note_if(at_end, "F maintenance at an end");
            self.note_if(plan.least.is_some(), "least: F");
        }
        let actions = if succeeded { &plan.on_success } else { &plan.on_failure };
        self.results_listed(instance, plan, actions);
        let mut beliefs = before.beliefs.clone();
        for action in actions {
            let (Action::Add(literal) | Action::Remove(literal)) = action;
            let Some(fact) = literal.ground(&instance.bindings) else {
                self.note("list action not ground");
                continue;
            };
            let full = beliefs.facts().len() == MOST_BELIEFS;
            let effect = match action {
                Action::Add(_) => beliefs.add(fact),
                Action::Remove(_) => Ok(beliefs.remove(fact).into_iter().collect()),
            };
            self.note(match effect.as_deref() {
                Ok([]) => "list action without effect",
                Ok([_]) => "list changes",
                Ok(_) if full => "list takes out an opposite at 64",
                Ok(_) => "list takes out an opposite",
                Err(_) => "list add full",
            });
        }
    }
}

/// The first match of each literal in turn, without going back.
fn greedy(context: &Situation, beliefs: &Beliefs, from: Bindings) -> Option<Bindings> {
    let first = context.0.first()?;
    first.iter().try_fold(from, |bindings, literal| beliefs.first_match(literal, &bindings))
}

/// The branch at a place: its kind, whether its literal is ground, and whether the opposite is held.
fn branch(before: &Watch, place: Place, after: &Agent) -> Option<(BranchKind, bool, bool)> {
    let (instance, _) = before.top(place.id)?;
    let branch = &after.plans()[instance.plan].states[place.state][place.branch];
    let fact = branch.literal.ground(&instance.bindings);
    Some((branch.kind, fact.is_some(), fact.is_some_and(|fact| before.beliefs.holds(&fact.opposite()))))
}

fn stepped(before: &Watch, place: Place, changed: bool, after: &Agent) -> &'static str {
    match branch(before, place, after) {
        Some((BranchKind::Add, ..)) if changed => "S add",
        Some((BranchKind::Add, ..)) => "S add held",
        Some((BranchKind::Remove, ..)) if changed => "S remove",
        Some((BranchKind::Remove, ..)) => "S remove absent",
        Some((BranchKind::Achieve, ..)) => "S achieve held",
        Some((BranchKind::Divide(_), ..)) => "S divide",
        Some((BranchKind::Query, true, _)) => "S query held",
        _ => "S query binds",
    }
}

fn missed(before: &Watch, place: Place, after: &Agent) -> &'static str {
    match branch(before, place, after) {
        Some((BranchKind::Add, false, _)) => "B add not ground",
        Some((BranchKind::Add, ..)) => "B add full",
        Some((BranchKind::Remove, ..)) => "B remove not ground",
        Some((BranchKind::External, ..)) => "B external not ground",
        Some((BranchKind::Achieve, false, _)) => "B achieve not ground",
        Some((BranchKind::Achieve, ..)) => "B achieve at 8",
        Some((BranchKind::Query, false, _)) => "B query not ground",
        Some((BranchKind::Query, true, true)) => "B query opposite",
        Some((BranchKind::Divide(_), ..)) => "B divide",
        _ => "B query at 8",
    }
}
