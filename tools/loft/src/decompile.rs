//! `loft decompile`: an accepted library as source. Build gives the same bytes again.

use crate::arguments::{bad_file, bad_usage, Arguments};
use crate::language::compile;
use crate::language::declared::{ACTION, FACT, GOAL, TOLD_EVENT};
use crate::library::{self, *};
use crate::names::{role_words, Names, PredicateNames, ANY};
use crate::plan_source;
use crate::{FAULTS, FINE};
use std::collections::BTreeMap;

const HELP: &str = "loft decompile LIBRARY [--names FILE]

Prints an accepted library as plans in the language; loft build makes the same bytes of it again. With the names that
loft build wrote (FILE, or LIBRARY.names where there is one) the plans have their names. A plan that the agent accepts
and loft would not is marked unchecked. For a refused library: the number, the rule, and where it is broken.
";

/// The widest line of initial beliefs.
const WIDTH: usize = 100;

pub fn run(words: &[String]) -> i32 {
    let arguments = match Arguments::read(words, HELP, &["--names"], &[]) {
        Ok(arguments) => arguments,
        Err(status) => return status,
    };
    let [path] = &arguments.plain[..] else { return bad_usage("decompile takes one library", HELP) };
    match decompiled(path, arguments.option("--names")) {
        Ok(text) => {
            print!("{text}");
            FINE
        }
        Err(status) => status,
    }
}

fn decompiled(path: &str, names: Option<&str>) -> Result<String, i32> {
    let bytes = std::fs::read(path).map_err(|error| bad_file(path, &error))?;
    let library = read(&bytes).map_err(|refusal| {
        eprintln!("{path}: {refusal}\n  = the rules stand in docs/LIBRARY-FORMAT.md, under 'What is refused'");
        FAULTS
    })?;
    let names = names_beside(path, names, &bytes)?;
    source(&library, &names).ok_or_else(|| {
        eprintln!("loft: {path}: its source does not build to the same bytes; please report this library");
        FAULTS
    })
}

/// The names of a library: of the file given, else of the one beside the library, else none.
pub fn names_beside(path: &str, given: Option<&str>, bytes: &[u8]) -> Result<Names, i32> {
    let beside = format!("{path}.names");
    let file = match given {
        Some(file) => file,
        None if std::path::Path::new(&beside).exists() => &beside,
        None => return Ok(Names::none()),
    };
    let text = std::fs::read(file).map_err(|error| bad_file(file, &error))?;
    Names::read(&String::from_utf8_lossy(&text), bytes).map_err(|text| {
        eprintln!("loft: {file}: {text}");
        FAULTS
    })
}

/// The source of a library; none where it would not build to the same bytes.
pub fn source(library: &Library, names: &Names) -> Option<String> {
    let mut names = if names.predicates.is_empty() { inferred(library, names) } else { names.clone() };
    let unnamed = names.plans.len();
    names.plans.resize_with(library.plans.len(), Default::default);
    for (place, plan) in names.plans.iter_mut().enumerate().skip(unnamed) {
        plan.name = format!("plan{place}");
    }
    let mut fixed = vec![false; library.plans.len()];
    // A first try shows which plans must be unchecked, a second which ones must fix their variables' order.
    for _ in 0..3 {
        let (text, ranges) = whole(library, &names, &fixed);
        let compiled = compile("", &text);
        let lines = compiled.faults.error_lines();
        if lines.is_empty() && library::write(&compiled.library) == library::write(library) {
            return Some(text);
        }
        for (plan, (first, last)) in names.plans.iter_mut().zip(ranges) {
            plan.unchecked |= lines.iter().any(|line| first <= *line && *line < last);
        }
        let built = compiled.library.plans.iter().map(Some).chain(std::iter::repeat(None));
        for (place, (own, built)) in library.plans.iter().zip(built).enumerate() {
            fixed[place] |= lines.is_empty() && built != Some(own);
        }
    }
    None
}

/// Names for a library that has none: p1, plan0, V0, and the roles in which each predicate is used.
fn inferred(library: &Library, names: &Names) -> Names {
    let mut found: BTreeMap<u16, (u8, usize)> = BTreeMap::new();
    let mut see = |literal: &Literal, role: u8| {
        let used = literal.terms.iter().rposition(|term| *term != 0).map_or(0, |last| last + 1);
        let (roles, terms) = found.entry(literal.predicate).or_default();
        *roles |= role;
        *terms = used.max(*terms);
    };
    library.beliefs.iter().for_each(|belief| see(belief, FACT));
    for plan in &library.plans {
        see(&plan.trigger, [FACT, FACT, TOLD_EVENT, GOAL, GOAL][usize::from(plan.kind.min(QUERY))]);
        plan.context.iter().chain(&plan.maintenance).flatten().for_each(|literal| see(literal, FACT));
        plan.success.iter().chain(&plan.failure).for_each(|action| see(&action.literal, FACT));
        for branch in plan.states.iter().flatten().filter(|branch| branch.kind != DIVIDE) {
            see(&branch.literal, [FACT, FACT, ACTION, GOAL, GOAL][usize::from(branch.kind.min(QUERY))]);
        }
    }
    let predicates = found.into_iter().map(|(number, (roles, terms))| PredicateNames {
        number,
        name: format!("p{number}"),
        roles: if roles & FACT != 0 { roles & !GOAL } else { roles },
        most: None,
        types: vec![ANY.into(); terms],
    });
    Names { predicates: predicates.collect(), ..names.clone() }
}

// ---- The text

/// The whole source, and the first line of each plan with the line behind it.
fn whole(library: &Library, names: &Names, fixed: &[bool]) -> (String, Vec<(u32, u32)>) {
    let mut text = declarations(names);
    if !library.beliefs.is_empty() {
        text.push_str(&start(&library.beliefs, names));
    }
    let mut ranges = vec![];
    let mut line = text.lines().count() as u32 + 1;
    for (place, plan) in library.plans.iter().enumerate() {
        let own = plan_source::plan(plan, place, names, fixed[place]);
        let after = line + 1 + own.lines().count() as u32;
        ranges.push((line + 1, after));
        text.push_str(&format!("\n{own}"));
        line = after;
    }
    (text, ranges)
}

fn declarations(names: &Names) -> String {
    let mut text = String::new();
    if !names.cell.is_empty() {
        text.push_str(&format!("cell \"{}\"\n\n", names.cell));
    }
    for known in &names.types {
        let ranges =
            known.ranges.iter().map(|(first, last)| if first == last { first.to_string() } else { format!("{first}..{last}") });
        let words = known.words.iter().map(|(word, value)| format!("{word} {value}"));
        let all: Vec<String> = known.parts.iter().cloned().chain(ranges).chain(words).collect();
        text.push_str(&format!("type {} = {}\n", known.name, all.join(" | ")));
    }
    if !names.types.is_empty() {
        text.push('\n');
    }
    for predicate in &names.predicates {
        let types = if predicate.types.is_empty() { String::new() } else { format!("({})", predicate.types.join(", ")) };
        let most = predicate.most.map_or(String::new(), |most| format!(" at most {most}"));
        let roles = role_words(predicate.roles, " and ");
        text.push_str(&format!("{roles} {}{types} = {}{most}\n", predicate.name, predicate.number));
    }
    text
}

fn start(beliefs: &[Literal], names: &Names) -> String {
    let mut text = String::from("\nstart {\n");
    let mut line = String::new();
    for belief in beliefs {
        let fact = names.literal(belief, None);
        if line.len() + fact.len() > WIDTH {
            text.push_str(&format!("  {line}\n"));
            line.clear();
        }
        line.push_str(&format!("{}{fact}", if line.is_empty() { "" } else { ", " }));
    }
    text.push_str(&format!("  {line}\n}}\n"));
    text
}
