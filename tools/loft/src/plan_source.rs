//! A plan of a library as source.

use crate::body::{self, Step};
use crate::library::*;
use crate::names::Names;
use std::borrow::Cow;

/// The names' bit of a note.
const NOTE: u8 = 2;
const INDENT: &str = "  ";

/// A plan's text; with `fixed` the order of its variables is written down.
pub fn plan(plan: &Plan, place: usize, names: &Names, fixed: bool) -> String {
    let named = if fixed { Cow::Owned(all_named(place, names)) } else { Cow::Borrowed(names) };
    let mut text = format!("{}plan {}", if named.plans[place].unchecked { "unchecked " } else { "" }, named.plan(place));
    let variables: Vec<&str> = named.plans[place].variables.iter().map(|(name, _)| name.as_str()).collect();
    if fixed && !variables.is_empty() {
        text.push_str(&format!(" variables {}", variables.join(", ")));
    }
    text.push('\n');
    for line in head(plan, place, &named) {
        text.push_str(&format!("{INDENT}{line}\n"));
    }
    let steps = body::steps(&plan.states, place, &named);
    if steps.is_empty() {
        text.push_str("{ }\n");
    } else {
        text.push_str("{\n");
        write_block(&steps, 1, &mut text);
        text.push_str("}\n");
    }
    for line in endings(plan, place, &named) {
        text.push_str(&format!("{INDENT}{line}\n"));
    }
    text
}

/// The names with each `_` of a plan as V0 to V7.
fn all_named(place: usize, names: &Names) -> Names {
    let mut named = names.clone();
    for (number, (name, _)) in named.plans[place].variables.iter_mut().enumerate().filter(|(_, (name, _))| name == "_") {
        *name = format!("V{number}");
    }
    named
}

/// Trigger, `if`, `with least` and `while`, a line each.
pub fn head(plan: &Plan, place: usize, names: &Names) -> Vec<String> {
    let word = ["on gained", "on lost", "on told", "to achieve", "to answer"][usize::from(plan.kind.min(QUERY))];
    let mut lines = vec![format!("{word} {}", names.literal(&plan.trigger, Some(place)))];
    lines.extend(situation("if", &plan.context, place, names));
    lines.extend(plan.least.map(|variable| format!("with least {}", names.variable(place, variable))));
    lines.extend(situation("while", &plan.maintenance, place, names));
    lines
}

/// Nothing where the situation is one empty alternative.
fn situation(word: &str, alternatives: &Situation, place: usize, names: &Names) -> Vec<String> {
    if alternatives.is_empty() {
        return vec![format!("{word} never")];
    }
    if alternatives.len() == 1 && alternatives[0].is_empty() {
        return vec![];
    }
    let shown = |literals: &Vec<Literal>| {
        let all: Vec<String> = literals.iter().map(|literal| names.literal(literal, Some(place))).collect();
        if all.is_empty() {
            "always".into()
        } else {
            all.join(", ")
        }
    };
    let words = std::iter::once(word).chain(std::iter::repeat("or"));
    alternatives.iter().zip(words).map(|(literals, word)| format!("{word} {}", shown(literals))).collect()
}

/// `done` and `failed`, where there is anything to do.
pub fn endings(plan: &Plan, place: usize, names: &Names) -> Vec<String> {
    let lists = [("done", &plan.success), ("failed", &plan.failure)];
    lists
        .into_iter()
        .filter(|(_, list)| !list.is_empty())
        .map(|(word, list)| format!("{word} {}", actions(list, place, names)))
        .collect()
}

fn actions(list: &[Action], place: usize, names: &Names) -> String {
    let mut parts = vec![];
    let mut rest = list;
    while let Some((first, others)) = rest.split_first() {
        let literal = names.literal(&first.literal, Some(place));
        let is_note = names.roles(first.literal.predicate) & NOTE != 0;
        let taken_out = others.first().is_some_and(|next| next.removes && next.literal == first.literal);
        if is_note && !first.removes && taken_out {
            parts.push(format!("note {literal}"));
            rest = &others[1..];
        } else {
            parts.push(format!("{} {literal}", if first.removes { "remove" } else { "add" }));
            rest = others;
        }
    }
    parts.join(", ")
}

fn write_block(steps: &[Step], depth: usize, text: &mut String) {
    let indent = INDENT.repeat(depth);
    for step in steps {
        match step {
            Step::One { text: own, times: 1 } => text.push_str(&format!("{indent}{own}\n")),
            Step::One { text: own, times } => text.push_str(&format!("{indent}{own} up to {times} times\n")),
            Step::Either(alternatives) => {
                for (place, block) in alternatives.iter().enumerate() {
                    text.push_str(&format!("{indent}{} {{\n", if place == 0 { "either" } else { "or" }));
                    write_block(block, depth + 1, text);
                    text.push_str(&format!("{indent}}}\n"));
                }
            }
        }
    }
}
