//! Goals and the plans for them: those that no plan answers, and plans that come after others.

use super::declared::{Declared, FACT, GOAL};
use super::resolve::{ResolvedPlan, Step};
use super::scope::Spot;
use super::source::{Faults, Severity};
use crate::library::*;

/// A goal that no plan answers is a fault; an asked fact may be believed, so it needs no plan.
pub fn check(plans: &[ResolvedPlan], declared: &Declared, faults: &mut Faults) {
    for plan in plans {
        for_each_step(&plan.body, &mut |kind, spot| {
            let is_goal =
                kind == ACHIEVE && has_role(declared, spot, GOAL | FACT) || kind == QUERY && has_role(declared, spot, GOAL);
            if is_goal && !plans.iter().any(|other| other.kind == kind && may_match(&other.trigger.literal, &spot.literal)) {
                unanswered(plan, kind, spot, plans, declared, faults);
            }
        });
    }
    plans.iter().enumerate().for_each(|(place, plan)| fallback(&plans[..place], plan, faults));
}

fn unanswered(plan: &ResolvedPlan, kind: u16, spot: &Spot, plans: &[ResolvedPlan], declared: &Declared, faults: &mut Faults) {
    let name = name_of(declared, spot.literal.predicate);
    let sign = if spot.literal.negative { "~" } else { "" };
    let verb = if kind == ACHIEVE { "achieve" } else { "answer" };
    let near = |other: &&ResolvedPlan| other.kind >= ACHIEVE && other.trigger.literal.predicate == spot.literal.predicate;
    let hint = match plans.iter().find(near) {
        Some(other) => format!("{} (line {}) is for another kind, sign or constant", other.name, other.place.line),
        None if kind == ACHIEVE && has_role(declared, spot, FACT) => {
            format!("write 'plan .. to achieve {sign}{name}(..)', or test it by 'ask'")
        }
        None => format!("write 'plan .. to {verb} {sign}{name}(..)'"),
    };
    let severity = if plan.unchecked { Severity::Warning } else { Severity::Error };
    faults.add(severity, spot.place, format!("no plan is there to {verb} {sign}{name}"), &[hint]);
}

/// A plan without `if` behind another for the same also runs after that one failed.
fn fallback(earlier: &[ResolvedPlan], plan: &ResolvedPlan, faults: &mut Faults) {
    let covers = |other: &&ResolvedPlan| other.kind == plan.kind && may_match(&other.trigger.literal, &plan.trigger.literal);
    let Some(first) = earlier.iter().find(covers) else { return };
    if !plan.has_if {
        let text = format!("{} has no 'if': it also runs after {} (line {}) has failed", plan.name, first.name, first.place.line);
        faults.warning(plan.place, text, &["say 'if always' where that is meant".into()]);
    }
}

/// Whether some literal agrees with both: sign, predicate and constants.
pub fn may_match(one: &Literal, other: &Literal) -> bool {
    let agree = |(a, b): (&Term, &Term)| a == b || *a >= FIRST_VARIABLE || *b >= FIRST_VARIABLE;
    one.negative == other.negative && one.predicate == other.predicate && one.terms.iter().zip(&other.terms).all(agree)
}

/// Every step that is no choice, in the order of the text.
pub fn for_each_step(block: &[Step], see: &mut impl FnMut(u16, &Spot)) {
    for step in block {
        match step {
            Step::One { kind, spot, .. } => see(*kind, spot),
            Step::Either { alternatives, .. } => alternatives.iter().for_each(|block| for_each_step(block, see)),
        }
    }
}

pub fn name_of(declared: &Declared, number: u16) -> String {
    let found = declared.predicates.iter().find(|predicate| predicate.number == number);
    found.map_or_else(|| number.to_string(), |predicate| predicate.name.clone())
}

fn has_role(declared: &Declared, spot: &Spot, roles: u8) -> bool {
    declared.predicates.iter().any(|predicate| predicate.number == spot.literal.predicate && predicate.roles & roles != 0)
}
