//! `loft show`: plans with their bodies as trees of states.

use crate::arguments::{bad_usage, Arguments};
use crate::body::branch_text;
use crate::build;
use crate::language::source::{counted, nearest};
use crate::library::*;
use crate::names::Names;
use crate::plan_source::{endings, head};
use crate::{FAULTS, FINE};

const HELP: &str = "loft show CELL.plan [PLAN]

Prints each plan, or the one named, with its body as the tree of states that the agent runs: the number of each
state, the steps that lead on from it in the order in which they are tried, and what copied steps cost.
";

pub fn run(words: &[String]) -> i32 {
    let arguments = match Arguments::read(words, HELP, &[], &[]) {
        Ok(arguments) => arguments,
        Err(status) => return status,
    };
    let (path, wanted) = match &arguments.plain[..] {
        [path] => (path, None),
        [path, plan] => (path, Some(plan)),
        _ => return bad_usage("show takes one file of plans, and at most one plan's name", HELP),
    };
    let compiled = match build::read(path) {
        Ok((compiled, _)) => compiled,
        Err(status) => return status,
    };
    let names: Vec<String> = (0..compiled.library.plans.len()).map(|place| compiled.names.plan(place)).collect();
    let places: Vec<usize> = (0..names.len()).filter(|place| wanted.is_none_or(|wanted| names[*place] == *wanted)).collect();
    if let Some(wanted) = wanted.filter(|_| places.is_empty()) {
        eprintln!("{path}: no plan '{wanted}'");
        nearest(wanted, names.iter().map(String::as_str)).iter().for_each(|hint| eprintln!("  = {hint}"));
        return FAULTS;
    }
    for (at, place) in places.iter().enumerate() {
        let blank = if at > 0 { "\n" } else { "" };
        print!("{blank}{}", shown(&compiled.library.plans[*place], *place, &compiled.names, &compiled.copies[*place]));
    }
    FINE
}

fn shown(plan: &Plan, place: usize, names: &Names, copies: &[String]) -> String {
    let line = names.plan_place(place).map_or(String::new(), |(file, line)| format!(" ({file}:{line})"));
    let mut text = format!("plan {}{line}, {}\n", names.plan(place), counted(plan.states.len(), "state"));
    head(plan, place, names).iter().for_each(|line| text.push_str(&format!("  {line}\n")));
    text.push_str("  0\n");
    Drawing { plan, place, names }.branches(0, "  ", &mut text);
    endings(plan, place, names).iter().for_each(|line| text.push_str(&format!("  {line}\n")));
    copies.iter().for_each(|line| text.push_str(&format!("  ({line})\n")));
    text
}

struct Drawing<'a> {
    plan: &'a Plan,
    place: usize,
    names: &'a Names,
}

impl Drawing<'_> {
    fn branches(&self, state: usize, before: &str, text: &mut String) {
        let branches = &self.plan.states[state];
        for (at, branch) in branches.iter().enumerate() {
            let next = usize::from(branch.next);
            let (fork, down) = if at + 1 == branches.len() { ("└─", "   ") } else { ("├─", "│  ") };
            let end = if self.plan.states[next].is_empty() { ", the end" } else { "" };
            let step = branch_text(branch, self.place, self.names);
            text.push_str(&format!("{before}{fork} {step} -> {next}{end}\n"));
            self.branches(next, &format!("{before}{down}"), text);
        }
    }
}
