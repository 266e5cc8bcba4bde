//! An event is taken up: who starts for it, and why each plan before was passed over.

use super::{plural, Words};
use crate::library::Literal;
use crate::model::environment::Environment;
use crate::model::step::{Choice, Deed, Origin, Passed, Step, Who};

impl Words<'_> {
    pub(super) fn choice(&self, choice: &Choice, step: &Step, text: &mut String) {
        let event = self.event(&choice.event);
        match (&step.deed, choice.poster) {
            (Deed::Made { id, plan, .. }, poster) => {
                let name = self.who(Who { id: *id, plan: *plan });
                let from = match (choice.event.origin, poster) {
                    (Origin::External(number), _) => format!("on {event}, event {number}"),
                    (_, Some(poster)) => format!("to {event}, asked by {}", self.who(poster)),
                    _ => format!("to {event}"),
                };
                text.push_str(&format!("{name} starts {from}"));
                self.bindings(choice, *plan, text);
            }
            (Deed::Dropped { event: number, .. }, _) if !self.has_plan(choice) => {
                text.push_str(&format!("event {number} is closed: there is no plan on {event}"));
            }
            (Deed::Dropped { event: number, failed }, _) => {
                text.push_str(&format!("event {number} is GIVEN UP: no plan is left on {event}{}", after(*failed)));
            }
            (Deed::Unmet { failed, .. }, poster) => {
                let who = poster.map_or_else(String::new, |poster| self.who(poster));
                let none = if self.has_plan(choice) { "no plan is left" } else { "there is no plan" };
                text.push_str(&format!("{who} does not get its goal: {none} to {event}{}", after(*failed)));
            }
            _ => {}
        }
        self.passed(choice, text);
    }

    /// Whether the library has a plan for events of this kind, sign and predicate.
    pub fn has_plan(&self, choice: &Choice) -> bool {
        self.library.plans.iter().any(|plan| plan.kind == choice.event.kind && same_symbol(&plan.trigger, &choice.event.literal))
    }

    fn bindings(&self, choice: &Choice, plan: usize, text: &mut String) {
        let Some(solution) = choice.chosen else { return };
        let bound = self.bound(plan, &solution.environment, &Environment::default());
        if !bound.is_empty() {
            text.push_str(&format!(": {bound}"));
        }
        if let (Some(count @ 2..), Some(variable)) = (solution.least_of, self.library.plans[plan].least) {
            self.note(text, &format!("the least {} of {count} solutions", self.names.variable(plan, variable)));
        }
    }

    /// Each plan passed over that is for this kind of event, and the others summed up.
    fn passed(&self, choice: &Choice, text: &mut String) {
        let (mut of_kind, mut of_trigger) = (vec![], vec![]);
        for (number, reason) in &choice.passed {
            let plan = &self.library.plans[*number];
            let name = self.names.plan(*number);
            match reason {
                Passed::Kind => of_kind.push(name),
                Passed::Trigger if !same_symbol(&plan.trigger, &choice.event.literal) => of_trigger.push(name),
                Passed::Trigger => {
                    let trigger = self.names.literal(&plan.trigger, Some(*number));
                    self.note(text, &format!("not {name}: its trigger is {trigger}"));
                }
                Passed::FailedBefore => self.note(text, &format!("not {name}: it failed before for this")),
                Passed::Context(start, dead_ends) => {
                    let why = self.dead_ends(&plan.context, dead_ends, start, *number);
                    self.note(text, &format!("not {name}: {why}"));
                }
            }
        }
        let counted = |plans: &[String], what: &str| {
            let names = if self.all { format!(" ({})", plans.join(", ")) } else { String::new() };
            (!plans.is_empty()).then(|| format!("{} {what}{names}", plans.len()))
        };
        let others = [counted(&of_kind, "for another kind of event"), counted(&of_trigger, "for another trigger")];
        let others: Vec<String> = others.into_iter().flatten().collect();
        if !others.is_empty() && (self.all || self.has_plan(choice)) {
            let count = of_kind.len() + of_trigger.len();
            self.note(text, &format!("not {count} {}: {}", plural(count, "other"), others.join(", ")));
        }
    }
}

/// Whether two literals have one sign and one predicate.
fn same_symbol(one: &Literal, other: &Literal) -> bool {
    one.negative == other.negative && one.predicate == other.predicate
}

fn after(failed: u32) -> String {
    match failed {
        0 => String::new(),
        1 => ", 1 failed".into(),
        _ => format!(", {failed} failed"),
    }
}
