//! Counts of the branches that divide a length.

use super::{Coverage, Watch};
use reference::agent::Agent;
use reference::answer::Deed;
use reference::division::Division;
use reference::library::{Action, Branch, BranchKind, Plan};
use reference::literal::{Bindings, Literal, Term};
use reference::state::Instance;

/// What divisions are to reach.
pub const NAMES: &[&str] = &[
    "divide: without a remainder",
    "divide: with a remainder",
    "divide: length under the panel",
    "divide: of length 0",
    "divide: by 1",
    "divide: two bound variables",
    "divide: two constants",
    "divide: missed, length unbound",
    "divide: missed, panel unbound",
    "divide: missed, panel 0",
    "divide: missed, panel bound to 0",
    "divide: missed, Vq bound",
    "divide: missed, Vr bound",
    "divide: missed, several reasons",
    "divide: missed, into its bound input",
    "divide: missed, into its unbound input",
    "divide: result in an action",
    "divide: result in a belief",
    "divide: result in a goal",
    "divide: result in a query",
    "divide: result divided again",
    "divide: result in a list",
    "divide: result bound already by a division",
];

impl Coverage {
    /// Counts a branch that a cycle tried, whatever came of it.
    pub(super) fn tried(&mut self, before: &Watch, deed: Deed, after: &Agent) {
        let (Deed::Stepped(place, _) | Deed::Missed(place) | Deed::Done(place, _) | Deed::Posted(place)) = deed else { return };
        let Some((instance, _)) = before.top(place.id) else { return };
        let plan = &after.plans()[instance.plan];
        let branch = &plan.states[place.state][place.branch];
        let results = results(plan, place.state);
        if let BranchKind::Divide(division) = branch.kind {
            self.divided(&division, instance);
            let bound_twice = [division.panels, division.offcut].iter().any(|variable| results.contains(variable));
            self.note_if(bound_twice, "divide: result bound already by a division");
        }
        if uses(&branch.literal, &results) && branch.literal.ground(&instance.bindings).is_some() {
            self.note(match branch.kind {
                BranchKind::External => "divide: result in an action",
                BranchKind::Add | BranchKind::Remove => "divide: result in a belief",
                BranchKind::Achieve => "divide: result in a goal",
                BranchKind::Query => "divide: result in a query",
                BranchKind::Divide(_) => "divide: result divided again",
            });
        }
    }

    fn divided(&mut self, division: &Division, instance: &Instance) {
        let bindings = &instance.bindings;
        let (length, panel) = (bindings.value(division.length), bindings.value(division.panel));
        let reasons = missed(division, bindings);
        for variable in [division.panels, division.offcut] {
            let own = terms(division).contains(&Term::Variable(variable));
            let bound = bindings.get(variable).is_some();
            self.note_if(own && bound, "divide: missed, into its bound input");
            self.note_if(own && !bound, "divide: missed, into its unbound input");
        }
        match (&reasons[..], length.zip(panel)) {
            ([], Some((length, panel))) => self.stepped_past(division, length, panel),
            ([reason], _) => self.note(reason),
            _ => self.note("divide: missed, several reasons"),
        }
    }

    fn stepped_past(&mut self, division: &Division, length: u16, panel: u16) {
        let variables = terms(division).iter().filter(|term| matches!(term, Term::Variable(_))).count();
        self.note(if length.is_multiple_of(panel) { "divide: without a remainder" } else { "divide: with a remainder" });
        self.note_if(length < panel, "divide: length under the panel");
        self.note_if(length == 0, "divide: of length 0");
        self.note_if(panel == 1, "divide: by 1");
        self.note_if(variables == 2, "divide: two bound variables");
        self.note_if(variables == 0, "divide: two constants");
    }

    /// Counts the actions of a list that use what a division on the way to the end gave.
    pub(super) fn results_listed(&mut self, instance: &Instance, plan: &Plan, actions: &[Action]) {
        let results = results(plan, instance.state);
        for Action::Add(literal) | Action::Remove(literal) in actions {
            let ground = literal.ground(&instance.bindings).is_some();
            self.note_if(ground && uses(literal, &results), "divide: result in a list");
        }
    }
}

fn terms(division: &Division) -> [Term; 2] {
    [division.length, division.panel]
}

/// Why a division is missed.
fn missed(division: &Division, bindings: &Bindings) -> Vec<&'static str> {
    let panel = bindings.value(division.panel);
    let constant = matches!(division.panel, Term::Constant(_));
    let reasons = [
        (bindings.value(division.length).is_none(), "divide: missed, length unbound"),
        (panel.is_none(), "divide: missed, panel unbound"),
        (panel == Some(0) && constant, "divide: missed, panel 0"),
        (panel == Some(0) && !constant, "divide: missed, panel bound to 0"),
        (bindings.get(division.panels).is_some(), "divide: missed, Vq bound"),
        (bindings.get(division.offcut).is_some(), "divide: missed, Vr bound"),
    ];
    reasons.into_iter().filter(|(holds, _)| *holds).map(|(_, reason)| reason).collect()
}

/// The variables that divisions on the way to a state have bound.
fn results(plan: &Plan, state: usize) -> Vec<u8> {
    let mut results = vec![];
    let mut at = state;
    while let Some((from, branch)) = branch_to(plan, at) {
        if let BranchKind::Divide(division) = branch.kind {
            results.extend([division.panels, division.offcut]);
        }
        at = from;
    }
    results
}

fn branch_to(plan: &Plan, state: usize) -> Option<(usize, &Branch)> {
    let branches = plan.states.iter().enumerate().flat_map(|(from, branches)| branches.iter().map(move |branch| (from, branch)));
    branches.into_iter().find(|(_, branch)| branch.next == state)
}

fn uses(literal: &Literal, variables: &[u8]) -> bool {
    literal.terms.iter().any(|term| matches!(term, Term::Variable(variable) if variables.contains(variable)))
}
