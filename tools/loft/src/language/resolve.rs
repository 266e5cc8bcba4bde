//! A plan's trees become numbers, with their places kept for the checks.

use super::ast::*;
use super::declared::*;
use super::scope::{Scope, Spot, Variable, Wanted};
use super::source::{counted, Place};
use crate::library::*;

#[derive(Clone, Debug)]
pub enum Step {
    One {
        place: Place,
        kind: u16,
        spot: Spot,
        /// Of a divide: the variables that it binds, and where they stand.
        results: Vec<(u8, Place)>,
        times: usize,
        next: Option<(u64, Place)>,
    },
    Either {
        place: Place,
        alternatives: Vec<Vec<Step>>,
    },
}

#[derive(Clone, Debug)]
pub struct ListAction {
    pub verb: Verb,
    pub spot: Spot,
}

/// A plan with its numbers.
#[derive(Clone, Debug)]
pub struct ResolvedPlan {
    pub name: String,
    pub place: Place,
    pub unchecked: bool,
    pub kind: u16,
    pub trigger: Spot,
    pub least: Option<(u8, Place)>,
    /// Whether the author wrote an `if`.
    pub has_if: bool,
    pub context: Vec<Vec<Spot>>,
    pub maintenance: Vec<Vec<Spot>>,
    pub body: Vec<Step>,
    pub done: Vec<ListAction>,
    pub failed: Vec<ListAction>,
    /// Whether every predicate in it is declared.
    pub is_whole: bool,
    pub variables: [Option<Variable>; MOST_VARIABLES],
}

impl ResolvedPlan {
    pub fn variable(&self, number: u8) -> &str {
        self.variables.get(usize::from(number)).and_then(Option::as_ref).map_or("_", |variable| &variable.name)
    }
}

/// The plan's numbers.
pub fn resolve(tree: &PlanTree, mut scope: Scope) -> ResolvedPlan {
    let wanted = match tree.kind {
        TOLD => Wanted { roles: TOLD_EVENT, first: TOLD_EVENT, words: "'on told' wants a told event" },
        ADDED | REMOVED => Wanted { roles: FACT, first: FACT, words: "what is gained or lost is a fact" },
        _ => Wanted { roles: GOAL | FACT, first: GOAL, words: "what a plan achieves or answers is a goal or a fact" },
    };
    let trigger = scope.literal(&tree.trigger, &wanted);
    let context = situation(&mut scope, tree.context.as_ref(), "if");
    let least =
        tree.least.as_ref().and_then(|word| scope.variable(&word.text, word.place).map(|number| (number as u8, word.place)));
    let maintenance = situation(&mut scope, tree.maintenance.as_ref(), "while");
    let body = steps(&mut scope, &tree.body);
    let done = list(&mut scope, &tree.done, &tree.name.text, "done");
    let failed = list(&mut scope, &tree.failed, &tree.name.text, "failed");
    ResolvedPlan {
        name: tree.name.text.clone(),
        place: tree.name.place,
        unchecked: tree.unchecked,
        kind: tree.kind,
        trigger,
        least,
        has_if: tree.context.is_some(),
        context,
        maintenance,
        body,
        done,
        failed,
        is_whole: scope.is_whole,
        variables: scope.variables,
    }
}

/// An absent situation is one empty alternative.
fn situation(scope: &mut Scope, tree: Option<&SituationTree>, word: &str) -> Vec<Vec<Spot>> {
    let Some(tree) = tree else { return vec![vec![]] };
    if tree.alternatives.len() > MOST_ITEMS {
        let text = format!("'{word}' has {} alternatives, and there are at most {MOST_ITEMS}", tree.alternatives.len());
        scope.faults.error(tree.place, text, &["a second plan for the same event takes the rest".into()]);
    }
    let words = format!("'{word}' tests facts");
    let wanted = Wanted { roles: FACT, first: FACT, words: &words };
    let mut alternatives = vec![];
    for literals in &tree.alternatives {
        if let Some(fifth) = literals.get(MOST_ITEMS) {
            let text = format!("an alternative of '{word}' has {} facts, and there are at most {MOST_ITEMS}", literals.len());
            scope.faults.error(fifth.name.place, text, &["let a goal ask for the rest".into()]);
        }
        alternatives.push(literals.iter().map(|tree| scope.literal(tree, &wanted)).collect());
    }
    alternatives
}

fn steps(scope: &mut Scope, trees: &[StepTree]) -> Vec<Step> {
    trees.iter().map(|tree| step(scope, tree)).collect()
}

fn step(scope: &mut Scope, tree: &StepTree) -> Step {
    match tree {
        StepTree::Either { place, alternatives } => either(scope, *place, alternatives),
        StepTree::One { place, act, times, next } => {
            let (kind, spot, results) = match act {
                Act::On(kind, tree) => (*kind, act_on(scope, *kind, tree), vec![]),
                Act::Divide { length, panel, whole, rest } => divide(scope, *place, [length, panel], [whole, rest]),
            };
            Step::One { place: *place, kind, spot, results, times: *times, next: *next }
        }
    }
}

fn either(scope: &mut Scope, place: Place, alternatives: &[Vec<StepTree>]) -> Step {
    if alternatives.iter().any(Vec::is_empty) {
        let hint = "write what follows the either into both alternatives, and leave the step out in one";
        scope.faults.error(place, "an alternative of this either has no steps", &[hint.into()]);
    }
    Step::Either { place, alternatives: alternatives.iter().map(|block| steps(scope, block)).collect() }
}

fn act_on(scope: &mut Scope, kind: u16, tree: &LiteralTree) -> Spot {
    if kind == EXTERNAL && tree.negative {
        scope.faults.error(tree.name.place, "an action cannot be denied: 'do' takes no ~", &[]);
    }
    let (roles, first, words) = match kind {
        EXTERNAL => (ACTION, ACTION, "'do' wants an action"),
        ACHIEVE => (GOAL | FACT, GOAL, "'achieve' wants a goal or a fact"),
        QUERY => (FACT | GOAL, FACT, "'ask' wants a fact or a goal"),
        ADD => (FACT, FACT, "'add' wants a fact"),
        _ => (FACT, FACT, "'remove' wants a fact"),
    };
    scope.literal(tree, &Wanted { roles, first, words })
}

type Divide = (u16, Spot, Vec<(u8, Place)>);

fn divide(scope: &mut Scope, place: Place, inputs: [&(TermTree, Place); 2], results: [&Word; 2]) -> Divide {
    let [length, panel] = inputs.map(|(term, place)| scope.term(term, 0, *place, "divide"));
    let [whole, rest] = results.map(|word| scope.variable(&word.text, word.place));
    if whole.is_some() && whole == rest {
        scope.faults.error(results[1].place, "the whole panels and the remainder go into two different variables", &[]);
    }
    let number = |variable: Option<usize>| variable.unwrap_or(0) as u16;
    let literal = Literal { negative: false, predicate: number(whole) + 8 * number(rest), terms: [length, panel, 0] };
    let spot = Spot { literal, place, terms: [inputs[0].1, inputs[1].1, place] };
    let bound =
        [whole, rest].into_iter().zip(results).filter_map(|(variable, word)| variable.map(|number| (number as u8, word.place)));
    (DIVIDE, spot, bound.collect())
}

fn list(scope: &mut Scope, trees: &[(Verb, LiteralTree)], plan: &str, word: &str) -> Vec<ListAction> {
    let notes = trees.iter().filter(|(verb, _)| *verb == Verb::Note).count();
    let count = trees.len() + notes;
    if count > MOST_ITEMS {
        let counted =
            if notes > 0 { format!("{} (a note counts as two)", counted(count, "action")) } else { counted(count, "action") };
        let text = format!("the {word} list of {plan} has {counted}, and a list has at most {MOST_ITEMS}");
        let place = trees.last().map_or(Place::default(), |(_, tree)| tree.name.place);
        scope.faults.error(place, text, &["steps 'add' and 'remove' at the body's end take the rest".into()]);
    }
    let action = |(verb, tree): &(Verb, LiteralTree)| {
        let (roles, words) = match verb {
            Verb::Note => (NOTE, "'note' wants a note"),
            Verb::Add => (FACT, "'add' wants a fact"),
            Verb::Remove => (FACT, "'remove' wants a fact"),
        };
        ListAction { verb: *verb, spot: scope.literal(tree, &Wanted { roles, first: roles, words }) }
    };
    trees.iter().map(action).collect()
}
