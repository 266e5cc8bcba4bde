//! Counts of the plans that use the solution with the least value of a variable.

use super::{Coverage, Watch};
use reference::agent::Agent;
use reference::library::{EventKind, Plan};
use reference::literal::Bindings;
use reference::state::{Event, Instance, Origin, Place};

/// What a plan with a variable whose least value decides is to reach.
pub const NAMES: &[&str] = &[
    "least: not the first solution",
    "least: the first of several",
    "least: the earlier of equals",
    "least: past an unbound value",
    "least: before an unbound value",
    "least: all values unbound",
    "least: the trigger's variable",
    "least: value 0",
    "least: 65,527 against unbound",
    "least: for a belief added",
    "least: for a belief removed",
    "least: for a told event",
    "least: for an achieve goal",
    "least: for a query goal",
    "least: no solution, so passed over",
    "least: D shows the choice",
    "least: F",
    "least: M of another plan after its failure",
    "least: N after its failure",
    "least: U after its failure",
];

fn solutions(plan: &Plan, event: &Event, before: &Watch) -> Vec<Bindings> {
    let mut solutions = vec![];
    if let Some(from) = plan.trigger.matched(&event.fact, &Bindings::default()) {
        plan.context.visit_solutions(&before.beliefs, &from, |solution| solutions.push(*solution));
    }
    solutions
}

impl Coverage {
    /// Counts an instance that was made for an event.
    pub(super) fn least_made(&mut self, before: &Watch, event: &Event, instance: &Instance, after: &Agent) {
        self.passed_over(before, event, instance.plan, after);
        self.after_failure(event, true, after);
        self.chosen(before, event, &after.plans()[instance.plan], &instance.bindings);
    }

    /// Counts an event that was dropped or unmet.
    pub(super) fn least_given_up(&mut self, before: &Watch, origin: Origin, after: &Agent) {
        if let Some(event) = before.pending.iter().find(|event| event.origin == origin) {
            self.passed_over(before, event, after.plans().len(), after);
            self.after_failure(event, false, after);
        }
    }

    /// Counts an action, which tells of the bindings.
    pub(super) fn least_shown(&mut self, before: &Watch, place: Place, after: &Agent) {
        let plan = before.top(place.id).map(|(instance, _)| &after.plans()[instance.plan]);
        self.note_if(plan.is_some_and(|plan| plan.least.is_some()), "least: D shows the choice");
    }

    fn chosen(&mut self, before: &Watch, event: &Event, plan: &Plan, chosen: &Bindings) {
        let Some(variable) = plan.least else { return };
        let solutions = solutions(plan, event, before);
        let values: Vec<Option<u16>> = solutions.iter().map(|solution| solution.get(variable)).collect();
        let value = chosen.get(variable);
        let place = solutions.iter().position(|solution| solution == chosen).unwrap_or(0);
        let different = solutions.iter().any(|solution| solution != chosen);
        let equal_later = solutions[place..].iter().any(|other| other.get(variable) == value && other != chosen);
        let unbound_after = values[place..].contains(&None);
        self.note_if(place > 0, "least: not the first solution");
        self.note_if(place == 0 && values.iter().any(|other| *other != value), "least: the first of several");
        self.note_if(equal_later && value.is_some(), "least: the earlier of equals");
        self.note_if(value.is_some() && values[..place].contains(&None), "least: past an unbound value");
        self.note_if(value.is_some() && unbound_after, "least: before an unbound value");
        self.note_if(value.is_none() && different, "least: all values unbound");
        let from = plan.trigger.matched(&event.fact, &Bindings::default());
        self.note_if(from.is_some_and(|from| from.get(variable).is_some()) && different, "least: the trigger's variable");
        self.note_if(value == Some(0) && different, "least: value 0");
        self.note_if(value == Some(65_527) && values.contains(&None), "least: 65,527 against unbound");
        self.note(match plan.kind {
            EventKind::Added => "least: for a belief added",
            EventKind::Removed => "least: for a belief removed",
            EventKind::Told => "least: for a told event",
            EventKind::Achieve => "least: for an achieve goal",
            EventKind::Query => "least: for a query goal",
        });
    }

    /// Counts the plans before `end` that were passed over for an event, for want of a solution or after a failure.
    fn passed_over(&mut self, before: &Watch, event: &Event, end: usize, after: &Agent) {
        let tried = after.plans()[..end].iter().enumerate().filter(|(_, plan)| plan.least.is_some() && plan.kind == event.kind);
        for (number, plan) in tried {
            let matches = plan.trigger.matched(&event.fact, &Bindings::default()).is_some();
            let open = matches && !event.failed.contains(&number);
            self.note_if(open && solutions(plan, event, before).is_empty(), "least: no solution, so passed over");
        }
    }

    /// Counts what becomes of an event for which a plan with a least value failed.
    fn after_failure(&mut self, event: &Event, made: bool, after: &Agent) {
        if event.failed.iter().any(|plan| after.plans()[*plan].least.is_some()) {
            self.note(match (made, event.origin) {
                (true, _) => "least: M of another plan after its failure",
                (false, Origin::External(_)) => "least: N after its failure",
                (false, Origin::Goal(_)) => "least: U after its failure",
            });
        }
    }
}
