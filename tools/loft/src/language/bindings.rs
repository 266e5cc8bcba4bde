//! Which variables are bound where: faults of steps that would always be missed, and of list actions that would be skipped.

use super::resolve::{ListAction, ResolvedPlan, Step};
use super::scope::Spot;
use super::source::{nearest, Faults, Place, Severity};
use crate::library::*;
use std::collections::BTreeSet;

/// What may be bound at a place: an alternative of `if`, and a bit for each bound variable.
type Known = BTreeSet<(usize, u8)>;

struct Check<'a> {
    plan: &'a ResolvedPlan,
    faults: &'a mut Faults,
    /// Every variable that some way binds.
    ever: u8,
}

pub fn check(plan: &ResolvedPlan, faults: &mut Faults) {
    let trigger = bits(&plan.trigger);
    let alternative = |literals: &Vec<Spot>| literals.iter().fold(trigger, |known, spot| known | bits(spot));
    let start: Known = plan.context.iter().map(alternative).enumerate().collect();
    let ever = start.iter().fold(trigger, |all, (_, known)| all | known);
    let mut check = Check { plan, faults, ever };
    check.least(&start);
    let end = check.block(&plan.body, start.clone());
    check.list(&plan.done, &end, "some way through the body does not bind it");
    check.list(&plan.failed, &start, "the plan may fail before the step that binds it");
    check.maintenance(&start);
}

fn bits(spot: &Spot) -> u8 {
    spot.literal.variables().fold(0, |known, variable| known | 1 << variable)
}

/// Where some of the ways leave a variable unbound: all of them, or the alternatives of `if` that do.
fn unbound(known: &Known, variable: u8) -> Option<Vec<usize>> {
    let missing: BTreeSet<usize> =
        known.iter().filter(|(_, bound)| bound >> variable & 1 == 0).map(|(alternative, _)| *alternative).collect();
    (!missing.is_empty()).then(|| missing.into_iter().collect())
}

impl Check<'_> {
    /// An error, or a warning in a plan that is marked unchecked.
    fn fault(&mut self, place: Place, text: String, hints: &[String]) {
        let severity = if self.plan.unchecked { Severity::Warning } else { Severity::Error };
        self.faults.add(severity, place, text, hints);
    }

    fn block(&mut self, steps: &[Step], known: Known) -> Known {
        steps.iter().fold(known, |known, step| self.step(step, known))
    }

    fn step(&mut self, step: &Step, known: Known) -> Known {
        match step {
            Step::Either { alternatives, .. } => alternatives.iter().flat_map(|block| self.block(block, known.clone())).collect(),
            Step::One { kind, spot, results, .. } => {
                if *kind != QUERY {
                    self.bound(spot, &known);
                }
                let mut new = if *kind == QUERY { bits(spot) } else { 0 };
                for (variable, place) in results {
                    new |= 1 << variable;
                    if known.iter().all(|(_, bound)| bound >> variable & 1 == 1) && !known.is_empty() {
                        let text =
                            format!("{} is bound already, so this divide would always be missed", self.plan.variable(*variable));
                        self.fault(*place, text, &["a divide gives its results to two variables of their own".into()]);
                    }
                }
                self.ever |= new;
                known.into_iter().map(|(alternative, bound)| (alternative, bound | new)).collect()
            }
        }
    }

    /// Every variable of a step must be bound, whichever alternative of `if` held.
    fn bound(&mut self, spot: &Spot, known: &Known) {
        for (term, place) in spot.literal.terms.iter().zip(spot.terms) {
            let Some(variable) = variable_of(*term) else { continue };
            let Some(missing) = unbound(known, variable) else { continue };
            let name = self.plan.variable(variable).to_string();
            let (text, hints) = if known.iter().all(|(_, bound)| bound >> variable & 1 == 0) {
                (format!("{name} is unbound here, so this step would always be missed"), self.binders(&name))
            } else {
                let text = format!("{name} may be unbound here, so this step would be missed");
                (text, vec![self.where_missing(&missing, "some way through the steps before does not bind it")])
            };
            self.fault(place, text, &hints);
        }
    }

    /// A list's variable that nothing binds is a fault; one that only some ways bind is a warning.
    fn list(&mut self, actions: &[ListAction], known: &Known, otherwise: &str) {
        for ListAction { spot, .. } in actions {
            for (term, place) in spot.literal.terms.iter().zip(spot.terms) {
                let Some(variable) = variable_of(*term) else { continue };
                let Some(missing) = unbound(known, variable) else { continue };
                let name = self.plan.variable(variable).to_string();
                if self.ever >> variable & 1 == 0 {
                    let hints = self.binders(&name);
                    self.fault(place, format!("{name} is unbound here, so this would always be skipped without a word"), &hints);
                } else {
                    let text = format!("{name} may be unbound here, so this can be skipped without a word");
                    let hint = self.where_missing(&missing, otherwise);
                    self.faults.warning(place, text, &[hint]);
                }
            }
        }
    }

    /// Which alternatives of `if` leave a variable unbound; where all do, it is for another reason.
    fn where_missing(&self, missing: &[usize], otherwise: &str) -> String {
        if missing.len() == self.plan.context.len() {
            return otherwise.into();
        }
        let places: Vec<&str> =
            missing.iter().filter_map(|place| ["first", "second", "third", "fourth"].get(*place).copied()).collect();
        format!("where the {} alternative of 'if' holds, nothing binds it", places.join(" or "))
    }

    fn ever_bound(&self) -> impl Iterator<Item = &str> {
        (0..MOST_VARIABLES as u8).filter(|variable| self.ever >> variable & 1 == 1).map(|variable| self.plan.variable(variable))
    }

    fn binders(&self, name: &str) -> Vec<String> {
        let mut hints = nearest(name, self.ever_bound());
        hints.push("a variable is bound by the trigger, by 'if', or by an 'ask' or 'divide' before it".into());
        hints
    }

    /// The least value of a variable that nothing binds chooses nothing.
    fn least(&mut self, start: &Known) {
        let Some((variable, place)) = self.plan.least else { return };
        if !start.is_empty() && start.iter().all(|(_, bound)| bound >> variable & 1 == 0) {
            let name = self.plan.variable(variable).to_string();
            let hints = nearest(&name, (0..MOST_VARIABLES as u8).map(|variable| self.plan.variable(variable)));
            self.fault(place, format!("{name} is bound by no part of 'if', so its least value chooses nothing"), &hints);
        }
    }

    /// A name of `while` that stands nowhere else is likely a slip: any value would do.
    fn maintenance(&mut self, start: &Known) {
        let spots: Vec<&Spot> = self.plan.maintenance.iter().flatten().collect();
        let uses = |variable: u8| spots.iter().flat_map(|spot| spot.literal.variables()).filter(|used| *used == variable).count();
        for spot in &spots {
            for (term, place) in spot.literal.terms.iter().zip(spot.terms) {
                let Some(variable) = variable_of(*term) else { continue };
                let name = self.plan.variable(variable);
                let alone = self.ever >> variable & 1 == 0 && uses(variable) == 1 && !start.is_empty();
                if alone && name != "_" {
                    let text = format!("{name} is bound nowhere, so 'while' holds with any value");
                    let mut hints = nearest(name, self.ever_bound());
                    hints.push("write _ where any value is meant".into());
                    self.faults.warning(place, text, &hints);
                }
            }
        }
    }
}
