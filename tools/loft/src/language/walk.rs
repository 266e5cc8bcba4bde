//! Walks over a plan as it is written.

use super::ast::*;

/// Every name of a variable, in the order of the text.
pub fn variable_names(plan: &PlanTree, see: &mut impl FnMut(&str)) {
    plan.variables.iter().for_each(|word| see(&word.text));
    literal(&plan.trigger, see);
    situation(&plan.context, see);
    plan.least.iter().for_each(|word| see(&word.text));
    situation(&plan.maintenance, see);
    steps(&plan.body, see);
    plan.done.iter().chain(&plan.failed).for_each(|(_, tree)| literal(tree, see));
}

fn situation(tree: &Option<SituationTree>, see: &mut impl FnMut(&str)) {
    let literals = tree.iter().flat_map(|tree| tree.alternatives.iter().flatten());
    literals.for_each(|tree| literal(tree, see));
}

fn literal(tree: &LiteralTree, see: &mut impl FnMut(&str)) {
    tree.terms.iter().for_each(|(term, _)| variable(term, see));
}

fn variable(term: &TermTree, see: &mut impl FnMut(&str)) {
    if let TermTree::Variable(name) = term {
        see(name);
    }
}

fn steps(trees: &[StepTree], see: &mut impl FnMut(&str)) {
    for tree in trees {
        match tree {
            StepTree::Either { alternatives, .. } => alternatives.iter().for_each(|block| steps(block, see)),
            StepTree::One { act: Act::On(_, tree), .. } => literal(tree, see),
            StepTree::One { act: Act::Divide { length, panel, whole, rest }, .. } => {
                variable(&length.0, see);
                variable(&panel.0, see);
                see(&whole.text);
                see(&rest.text);
            }
        }
    }
}
