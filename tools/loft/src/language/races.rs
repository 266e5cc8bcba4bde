//! What goes wrong between jobs: a fact that two of them take, a lock given back unheld or never.

use super::ast::Verb;
use super::declared::Declared;
use super::goals::{for_each_step, may_match, name_of};
use super::resolve::{ListAction, ResolvedPlan};
use super::scope::Spot;
use super::source::{Faults, Place};
use crate::library::*;

pub fn check(plans: &[ResolvedPlan], declared: &Declared, faults: &mut Faults) {
    for (place, plan) in plans.iter().enumerate() {
        asked_then_removed(plan, declared, faults);
        taken_without_while(plan, declared, faults);
        given_back(plan, plans, declared, faults);
        kept(plan, &plans[place + 1..], plans, declared, faults);
    }
}

/// An `ask` and a later `remove` of what it found: another job may find it in between.
fn asked_then_removed(plan: &ResolvedPlan, declared: &Declared, faults: &mut Faults) {
    let mut asked: Vec<Literal> = vec![];
    let mut races: Vec<(Place, u16)> = vec![];
    for_each_step(&plan.body, &mut |kind, spot| match kind {
        QUERY => asked.push(spot.literal),
        REMOVE if asked.contains(&spot.literal) => races.push((spot.place, spot.literal.predicate)),
        _ => {}
    });
    for action in plan.done.iter().filter(|action| action.verb == Verb::Remove && asked.contains(&action.spot.literal)) {
        races.push((action.spot.place, action.spot.literal.predicate));
    }
    for (place, predicate) in races {
        let text = format!("{} is asked for and removed later: two jobs may both see it", name_of(declared, predicate));
        let hint = "test and take it in one turn: a plan with an empty body, the fact in 'if' and 'while', and done remove ..";
        faults.warning(place, text, &[hint.into()]);
    }
}

/// A plan with an empty body takes what it tests; without `while` two jobs may both have tested it.
fn taken_without_while(plan: &ResolvedPlan, declared: &Declared, faults: &mut Faults) {
    let tests =
        |situation: &[Vec<Spot>], literal: &Literal| situation.iter().any(|all| all.iter().any(|spot| spot.literal == *literal));
    if !plan.body.is_empty() {
        return;
    }
    for action in plan.done.iter().filter(|action| action.verb == Verb::Remove) {
        let literal = &action.spot.literal;
        if tests(&plan.context, literal) && !tests(&plan.maintenance, literal) {
            let name = name_of(declared, literal.predicate);
            let text = format!("{} takes {name}, and without 'while {name}' two jobs may both take it", plan.name);
            faults.warning(action.spot.place, text, &["a plan is tested when it is made and ends a turn later".into()]);
        }
    }
}

/// A fact that some plan takes is added in a failure list, by a plan that does not test that it holds the lock.
fn given_back(plan: &ResolvedPlan, plans: &[ResolvedPlan], declared: &Declared, faults: &mut Faults) {
    for action in plan.failed.iter().filter(|action| action.verb == Verb::Add) {
        let lock = &action.spot.literal;
        let takers: Vec<&ResolvedPlan> = plans.iter().filter(|taker| takes(taker, lock)).collect();
        let holders: Vec<Literal> = takers.iter().flat_map(|taker| held_by(taker)).collect();
        let holds =
            |literals: &Vec<Spot>| literals.iter().any(|spot| holders.iter().any(|holder| may_match(holder, &spot.literal)));
        if !takers.is_empty() && !plan.context.iter().all(holds) {
            let name = name_of(declared, lock.predicate);
            let text = format!("{} gives {name} back when it fails, and it may not hold it then", plan.name);
            let hint = match holders.first() {
                Some(holder) => format!(
                    "test it: if {}(..), which {} adds when it takes {name}",
                    name_of(declared, holder.predicate),
                    takers[0].name
                ),
                None => format!("let {} add a fact that says who holds {name}, and test that by 'if'", takers[0].name),
            };
            faults.warning(action.spot.place, text, &[hint]);
        }
    }
}

/// A lock that is given back when the plan is done, and neither when it fails nor by a later plan for the same.
fn kept(plan: &ResolvedPlan, later: &[ResolvedPlan], plans: &[ResolvedPlan], declared: &Declared, faults: &mut Faults) {
    let adds = |list: &[ListAction], lock: &Literal| {
        list.iter().any(|action| action.verb == Verb::Add && may_match(&action.spot.literal, lock))
    };
    let can_fail = !plan.body.is_empty() || plan.maintenance.iter().all(|literals| !literals.is_empty());
    for action in plan.done.iter().filter(|action| action.verb == Verb::Add && can_fail) {
        let lock = &action.spot.literal;
        let is_lock = plans.iter().any(|taker| taker.body.is_empty() && takes(taker, lock));
        let is_next = |other: &&ResolvedPlan| other.kind == plan.kind && may_match(&other.trigger.literal, &plan.trigger.literal);
        let is_given = adds(&plan.failed, lock) || later.iter().filter(is_next).any(|other| adds(&other.done, lock));
        if is_lock && !is_given && !takes(plan, lock) {
            let name = name_of(declared, lock.predicate);
            let text = format!("{} gives {name} back when it is done, and keeps it when it fails", plan.name);
            faults.warning(action.spot.place, text, &[format!("give it back in the failed list too: failed .., add {name}")]);
        }
    }
}

/// Whether a plan takes a fact as a lock: it tests it by `if`, keeps it by `while` or has no steps, and removes it.
fn takes(plan: &ResolvedPlan, lock: &Literal) -> bool {
    let is_lock = |spot: &Spot| may_match(&spot.literal, lock);
    let is_kept = plan.body.is_empty() || plan.maintenance.iter().flatten().any(is_lock);
    let tested = is_kept && plan.context.iter().flatten().any(is_lock);
    let mut removed = plan.done.iter().any(|action| action.verb == Verb::Remove && is_lock(&action.spot));
    for_each_step(&plan.body, &mut |kind, spot| removed |= kind == REMOVE && is_lock(spot));
    tested && removed
}

/// The facts that a plan adds when it is done.
fn held_by(plan: &ResolvedPlan) -> Vec<Literal> {
    let listed = plan.done.iter().filter(|action| action.verb == Verb::Add).map(|action| action.spot.literal);
    let mut held: Vec<Literal> = listed.collect();
    for_each_step(&plan.body, &mut |kind, spot| held.extend((kind == ADD).then_some(spot.literal)));
    held
}
