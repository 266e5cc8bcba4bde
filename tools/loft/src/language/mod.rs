//! The plan language (docs/PLAN-LANGUAGE.md): a source becomes a library and its names, or faults.

pub mod ast;
mod bindings;
mod constants;
pub mod declared;
mod goals;
mod layout;
mod lexer;
mod parser;
mod plan_parser;
mod races;
mod resolve;
mod scope;
pub mod source;
mod walk;
mod warnings;

use crate::library::*;
use crate::names::{Names, PlanNames, PredicateNames, TypeNames, ANY};
use declared::{Declared, Type, FACT};
use layout::Layout;
use resolve::ResolvedPlan;
use scope::{Scope, Spot, Wanted};
use source::Faults;

/// What a source says. Library and names are whole only where there are no errors.
pub struct Compiled {
    pub library: Library,
    pub names: Names,
    pub faults: Faults,
    /// For each plan, what its choices cost in copied states, in words.
    pub copies: Vec<Vec<String>>,
}

/// Compiles a source; `file` is its name for `library.names`.
pub fn compile(file: &str, text: &str) -> Compiled {
    let mut faults = Faults::default();
    let text = text.strip_prefix('\u{feff}').unwrap_or(text);
    let tree = parser::parse(lexer::tokens(text, &mut faults), &mut faults);
    let is_readable = faults.errors() == 0;
    let declared = Declared::of(&tree, &mut faults);
    let start = initial_beliefs(&tree, &declared, &mut faults);
    let plans = resolved(&tree, &declared, &mut faults);
    let layouts: Vec<Layout> = plans.iter().map(|plan| layout::layout(plan, &mut faults).unwrap_or_default()).collect();
    plans.iter().for_each(|plan| bindings::check(plan, &mut faults));
    if is_readable && plans.iter().all(|plan| plan.is_whole) {
        goals::check(&plans, &declared, &mut faults);
        warnings::check(&plans, &start, &declared, &mut faults);
        races::check(&plans, &declared, &mut faults);
    }
    let names = names(&tree.cell, file, &declared, &plans, &layouts);
    let copies = plans.iter().map(layout::copies).collect();
    let beliefs = start.iter().map(|spot| spot.literal).collect();
    let plans = plans.iter().zip(layouts).map(|(plan, layout)| stored(plan, layout)).collect();
    Compiled { library: Library { beliefs, plans }, names, faults, copies }
}

fn resolved(tree: &ast::FileTree, declared: &Declared, faults: &mut Faults) -> Vec<ResolvedPlan> {
    let mut lines = std::collections::HashMap::new();
    for (place, plan) in tree.plans.iter().enumerate() {
        if place == MOST_PLANS {
            let text = format!("{} plans, and a library has at most {MOST_PLANS}", tree.plans.len());
            faults.error(plan.name.place, text, &[]);
        }
        if let Some(first) = lines.insert(&plan.name.text, plan.name.place.line) {
            faults.error(plan.name.place, format!("there are two plans {}", plan.name.text), &[format!("first at line {first}")]);
        }
    }
    tree.plans.iter().map(|plan| resolve::resolve(plan, Scope::of_plan(declared, faults, plan))).collect()
}

const BELIEVED: Wanted = Wanted { roles: FACT, first: FACT, words: "an initial belief is a fact" };

fn initial_beliefs(tree: &ast::FileTree, declared: &Declared, faults: &mut Faults) -> Vec<Spot> {
    let mut spots: Vec<Spot> = vec![];
    for literal in &tree.start {
        let before = faults.errors();
        let spot = Scope::of_beliefs(declared, faults).literal(literal, &BELIEVED);
        if faults.errors() > before {
            continue;
        }
        let same = spots.iter().find(|other| other.literal == spot.literal);
        let opposite = spots.iter().find(|other| other.literal == spot.literal.opposite());
        if let Some(other) = same {
            faults.error(
                spot.place,
                format!("{} stands twice", literal.name.text),
                &[format!("first at line {}", other.place.line)],
            );
        } else if let Some(other) = opposite {
            let hint = format!("the other stands at line {}", other.place.line);
            faults.error(spot.place, format!("{} stands beside its opposite", literal.name.text), &[hint]);
        }
        if spots.len() == MOST_BELIEFS {
            let text = format!("{} initial beliefs, and the table holds {MOST_BELIEFS}", tree.start.len());
            faults.error(spot.place, text, &[]);
        }
        spots.push(spot);
    }
    spots
}

fn stored(plan: &ResolvedPlan, layout: Layout) -> Plan {
    let situation = |spots: &Vec<Vec<Spot>>| spots.iter().map(|all| all.iter().map(|spot| spot.literal).collect()).collect();
    let list = |actions: &Vec<resolve::ListAction>| actions.iter().flat_map(stored_action).collect();
    Plan {
        kind: plan.kind,
        least: plan.least.map(|(variable, _)| variable),
        trigger: plan.trigger.literal,
        context: situation(&plan.context),
        maintenance: situation(&plan.maintenance),
        success: list(&plan.done),
        failure: list(&plan.failed),
        states: layout.states,
    }
}

/// A note is added and taken out again.
fn stored_action(action: &resolve::ListAction) -> Vec<Action> {
    let literal = action.spot.literal;
    let all: &[bool] = match action.verb {
        ast::Verb::Add => &[false],
        ast::Verb::Remove => &[true],
        ast::Verb::Note => &[false, true],
    };
    all.iter().map(|removes| Action { removes: *removes, literal }).collect()
}

fn names(cell: &str, file: &str, declared: &Declared, plans: &[ResolvedPlan], layouts: &[Layout]) -> Names {
    let type_name = |place: usize| declared.types[place].name.clone();
    let type_names = |known: &Type| TypeNames {
        name: known.name.clone(),
        ranges: known.ranges.clone(),
        words: known.words.clone(),
        parts: known.parts.iter().map(|part| type_name(*part)).collect(),
    };
    let predicates = declared.predicates.iter().map(|predicate| PredicateNames {
        number: predicate.number,
        name: predicate.name.clone(),
        roles: predicate.roles,
        most: predicate.most,
        types: predicate.types.iter().map(|place| type_name(*place)).collect(),
    });
    let plans = plans.iter().zip(layouts).map(|(plan, layout)| PlanNames {
        name: plan.name.clone(),
        line: plan.place.line,
        unchecked: plan.unchecked,
        variables: variables(plan, declared),
        lines: layout.lines.clone(),
    });
    Names {
        cell: cell.into(),
        source: file.into(),
        types: declared.types.iter().filter(|known| !known.is_any()).map(type_names).collect(),
        predicates: predicates.collect(),
        plans: plans.collect(),
    }
}

/// Name and type of each variable up to the last; of several types the smallest.
fn variables(plan: &ResolvedPlan, declared: &Declared) -> Vec<(String, String)> {
    let count = plan.variables.iter().rposition(Option::is_some).map_or(0, |last| last + 1);
    let named = |(number, held): (usize, &Option<scope::Variable>)| {
        let Some(variable) = held else { return (format!("V{number}"), ANY.into()) };
        let smallest = variable.types.iter().map(|(place, _)| *place).min_by_key(|place| declared.size(*place));
        (variable.name.clone(), smallest.map_or(ANY.into(), |place| declared.types[place].name.clone()))
    };
    plan.variables[..count].iter().enumerate().map(named).collect()
}
