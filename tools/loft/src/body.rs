//! A plan's tree of states as steps of the language: tails that alternatives share are written once.

use crate::library::*;
use crate::names::Names;

#[derive(Clone, PartialEq, Eq, Debug)]
pub enum Step {
    One { text: String, times: usize },
    Either(Vec<Vec<Step>>),
}

/// A branch as a step: its word, and its literal with the plan's names.
pub fn branch_text(branch: &Branch, plan: usize, names: &Names) -> String {
    let word = match branch.kind {
        ADD => "add",
        REMOVE => "remove",
        EXTERNAL => "do",
        ACHIEVE => "achieve",
        QUERY => "ask",
        _ => return divide_text(branch, plan, names),
    };
    format!("{word} {}", names.literal(&branch.literal, Some(plan)))
}

fn divide_text(branch: &Branch, plan: usize, names: &Names) -> String {
    let term = |term: Term| variable_of(term).map_or_else(|| term.to_string(), |variable| names.variable(plan, variable));
    let [length, panel, _] = branch.literal.terms;
    let (whole, rest) = branch.divide_results();
    format!("divide {} by {} into {}, {}", term(length), term(panel), names.variable(plan, whole), names.variable(plan, rest))
}

/// Whether the states are numbered row by row from the start, as the compiler does by itself.
pub fn is_row_by_row(states: &[Vec<Branch>]) -> bool {
    states.iter().flatten().map(|branch| usize::from(branch.next)).eq(1..states.len())
}

/// The steps of a plan's body.
pub fn steps(states: &[Vec<Branch>], plan: usize, names: &Names) -> Vec<Step> {
    let writer = Writer { states, plan, names, numbered: !is_row_by_row(states) };
    writer.block(0)
}

struct Writer<'a> {
    states: &'a [Vec<Branch>],
    plan: usize,
    names: &'a Names,
    numbered: bool,
}

impl Writer<'_> {
    fn block(&self, state: usize) -> Vec<Step> {
        let mut alternatives: Vec<Vec<Step>> = vec![];
        for branch in &self.states[state] {
            let mut own = vec![Step::One { text: self.text(branch), times: 1 }];
            own.extend(self.block(branch.next.into()));
            if self.numbered || !alternatives.last_mut().is_some_and(|last| again(last, &own)) {
                alternatives.push(own);
            }
        }
        match alternatives.len() {
            0 => vec![],
            1 => alternatives.remove(0),
            _ if self.numbered => vec![Step::Either(alternatives)],
            _ => choice(alternatives),
        }
    }

    fn text(&self, branch: &Branch) -> String {
        let text = branch_text(branch, self.plan, self.names);
        if self.numbered {
            format!("{text} -> {}", branch.next)
        } else {
            text
        }
    }
}

/// Counts the same alternative once more, if it is the same.
fn again(last: &mut [Step], own: &[Step]) -> bool {
    let (Some(Step::One { text, times }), Some(Step::One { text: own_text, .. })) = (last.first(), own.first()) else {
        return false;
    };
    let more = times + 1;
    if text != own_text || last[1..] != own[1..] {
        return false;
    }
    if let Step::One { times, .. } = &mut last[0] {
        *times = more;
    }
    true
}

/// Alternatives, and behind them the steps in which they all end.
fn choice(mut alternatives: Vec<Vec<Step>>) -> Vec<Step> {
    let mut tail = vec![];
    while let Some(last) = shared_last(&alternatives) {
        tail.insert(0, last);
        alternatives.iter_mut().for_each(|block| {
            block.pop();
        });
    }
    tail.insert(0, Step::Either(alternatives));
    tail
}

/// The step that ends every alternative, where each has another before it.
fn shared_last(alternatives: &[Vec<Step>]) -> Option<Step> {
    let last = alternatives.first()?.last()?;
    let shared = alternatives.iter().all(|block| block.len() > 1 && block.last() == Some(last));
    shared.then(|| last.clone())
}
