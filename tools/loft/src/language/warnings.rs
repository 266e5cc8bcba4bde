//! What the agent accepts and a loft would rue: names that nothing uses, and a table of beliefs that fills.

use super::ast::Verb;
use super::declared::{Declared, Predicate, FACT};
use super::goals::for_each_step;
use super::resolve::{ListAction, ResolvedPlan};
use super::scope::Spot;
use super::source::Faults;
use crate::library::*;

/// A fact of more constants than this, without `at most`, counts as unbounded.
const SMALL_DOMAIN: u64 = MOST_BELIEFS as u64;

pub fn check(plans: &[ResolvedPlan], start: &[Spot], declared: &Declared, faults: &mut Faults) {
    let changes = changes(plans);
    unused(plans, start, declared, faults);
    growth(&changes, start, declared, plans, faults);
}

/// An add or a removal of a plan's body or lists.
struct Change {
    removes: bool,
    literal: Literal,
}

fn changes(plans: &[ResolvedPlan]) -> Vec<Change> {
    let mut all = vec![];
    for plan in plans {
        for_each_step(&plan.body, &mut |kind, spot| {
            if kind == ADD || kind == REMOVE {
                all.push(Change { removes: kind == REMOVE, literal: spot.literal });
            }
        });
        for action in plan.done.iter().chain(&plan.failed).filter(|action| action.verb != Verb::Note) {
            all.push(Change { removes: action.verb == Verb::Remove, literal: action.spot.literal });
        }
    }
    all
}

fn unused(plans: &[ResolvedPlan], start: &[Spot], declared: &Declared, faults: &mut Faults) {
    let mut used: Vec<u16> = start.iter().map(|spot| spot.literal.predicate).collect();
    for plan in plans {
        let situations = plan.context.iter().chain(&plan.maintenance).flatten();
        let lists = plan.done.iter().chain(&plan.failed).map(|action| &action.spot);
        used.extend(situations.chain(lists).chain([&plan.trigger]).map(|spot| spot.literal.predicate));
        for_each_step(&plan.body, &mut |kind, spot| used.extend((kind != DIVIDE).then_some(spot.literal.predicate)));
    }
    for predicate in declared.predicates.iter().filter(|predicate| !used.contains(&predicate.number)) {
        faults.warning(predicate.place, format!("{} is declared and used nowhere", predicate.name), &[]);
    }
}

// ---- The table of 64 beliefs

/// How many beliefs of a fact may stand; none where nothing says so.
fn bound(predicate: &Predicate, changes: &[Change], start: &[Spot], declared: &Declared) -> Option<u64> {
    let domain = predicate.types.iter().fold(1u64, |size, kind| size.saturating_mul(declared.size(*kind)));
    let given = predicate.most.map(u64::from).or((domain <= SMALL_DOMAIN).then_some(domain));
    let is_added = changes.iter().any(|change| !change.removes && change.literal.predicate == predicate.number);
    let at_start = start.iter().filter(|spot| spot.literal.predicate == predicate.number).count() as u64;
    given.or((!is_added).then_some(at_start))
}

fn growth(changes: &[Change], start: &[Spot], declared: &Declared, plans: &[ResolvedPlan], faults: &mut Faults) {
    let facts = declared.predicates.iter().filter(|predicate| predicate.roles & FACT != 0);
    let mut bounds: Vec<(u64, &Predicate)> = vec![];
    for fact in facts {
        match bound(fact, changes, start, declared) {
            Some(count) => bounds.push((count, fact)),
            None => unbounded(fact, changes, plans, faults),
        }
    }
    let sum: u64 = bounds.iter().map(|(count, _)| count).sum();
    let spare = u64::from(plans.iter().any(|plan| [&plan.done, &plan.failed].iter().any(|list| adds_before_it_removes(list))));
    bounds.sort_by_key(|(count, _)| std::cmp::Reverse(*count));
    if let Some((_, largest)) = bounds.first().filter(|_| sum + spare > MOST_BELIEFS as u64) {
        let parts: Vec<String> = bounds.iter().take(6).map(|(count, fact)| format!("{} {count}", fact.name)).collect();
        let more = if bounds.len() > 6 { ", .." } else { "" };
        let note = if spare > 0 { " and 1 for a list that adds or notes before it removes" } else { "" };
        let text = format!("the facts may grow to {sum} beliefs in sum{note}, and the table holds {MOST_BELIEFS}");
        let hints = [
            format!("by 'at most' or by their types: {}{more}", parts.join(", ")),
            "where the table is full, an add in a body is missed, and an add or note in a list is skipped without a word".into(),
        ];
        faults.warning(largest.place, text, &hints);
    }
}

fn adds_before_it_removes(list: &[ListAction]) -> bool {
    let first_add = list.iter().position(|action| action.verb != Verb::Remove);
    first_add.is_some_and(|at| list[at].verb == Verb::Note || list[at..].iter().any(|action| action.verb != Verb::Add))
}

fn unbounded(fact: &Predicate, changes: &[Change], plans: &[ResolvedPlan], faults: &mut Faults) {
    let own = |literal: &Literal| literal.predicate == fact.number;
    let adds: Vec<&Literal> =
        changes.iter().filter(|change| !change.removes && own(&change.literal)).map(|change| &change.literal).collect();
    let removed = changes.iter().any(|change| change.removes && own(&change.literal));
    let denied = adds.iter().any(|literal| literal.negative) && adds.iter().any(|literal| !literal.negative);
    let reported = plans.iter().any(|plan| plan.kind == REMOVED && own(&plan.trigger.literal));
    let (text, hint) = if removed || denied || reported {
        let text = format!("{} is added by plans, and nothing says how many of it may stand", fact.name);
        (text, "say 'at most N'; where 64 beliefs stand, an add in a list is skipped without a word")
    } else {
        let text = format!("{} is added, and no plan or report removes it: the table of 64 beliefs will fill", fact.name);
        (text, "make it a note if only the ledger reads it; say 'at most N' if a device takes it back")
    };
    faults.warning(fact.place, text, &[hint.into()]);
}
