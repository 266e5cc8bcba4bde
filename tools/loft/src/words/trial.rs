//! A branch is tried, or the outcome of an action comes.

use super::Words;
use crate::body::branch_text;
use crate::library::*;
use crate::model::branch_at;
use crate::model::step::{Came, Deed, Place, Step, Trial, Why};

impl Words<'_> {
    pub(super) fn trial(&self, trial: &Trial, step: &Step, text: &mut String) {
        let Some(branch) = branch_at(self.library, trial.who.plan, trial.at) else { return };
        let who = self.who(trial.who);
        let plan = trial.who.plan;
        let goal = self.names.literal(&trial.before.apply(&branch.literal), Some(plan));
        let new = self.bound(plan, &trial.after, &trial.before);
        let told = match trial.came {
            Came::Applied => format!("{who} {}{}", self.applied(branch, &goal), without_effect(branch, step)),
            Came::Worked => format!("{who}: {goal} worked"),
            Came::DidNotWork => format!("{who}: {goal} DID NOT WORK"),
            Came::HeldAlready => format!("{who} wants to achieve {goal}: believed already"),
            Came::Found(belief) => {
                let so = if new.is_empty() { String::new() } else { format!(", so {new}") };
                format!("{who} asks {goal}: believed {}{so}", self.names.literal(&belief, None))
            }
            Came::Divided => format!("{who}: {}: {new}", self.branch(branch, trial)),
            Came::Acts => format!("{who} does {goal}, and waits for its outcome"),
            Came::Posted if branch.kind == ACHIEVE => format!("{who} wants to achieve {goal}: a goal"),
            Came::Posted => format!("{who} asks {goal}: no belief answers, so it is a goal"),
            missed => format!("{who} MISSES '{}': {}", self.branch(branch, trial), self.missed(missed, branch, trial)),
        };
        text.push_str(&told);
        if matches!(step.deed, Deed::Missed(_)) {
            self.next_try(trial, text);
        }
        self.changes(&step.changes, text);
    }

    /// The action whose outcome a step is, if it worked.
    pub fn worked(&self, step: &Step) -> Option<Literal> {
        let Why::Trial(trial) = &step.why else { return None };
        let branch = branch_at(self.library, trial.who.plan, trial.at)?;
        (trial.came == Came::Worked).then(|| trial.before.apply(&branch.literal))
    }

    /// Tells that such an action worked before for the same event.
    pub fn again(&self, earlier: &Literal, line: u64, text: &mut String) {
        let earlier = self.names.literal(earlier, None);
        self.note(text, &format!("AGAIN for this event: {earlier} worked at line {line}"));
    }

    fn applied(&self, branch: &Branch, goal: &str) -> String {
        format!("{} {goal}", if branch.kind == ADD { "adds" } else { "removes" })
    }

    /// A branch as the language writes the step, with what is bound put in.
    fn branch(&self, branch: &Branch, trial: &Trial) -> String {
        let literal = trial.before.apply(&branch.literal);
        branch_text(&Branch { literal, ..*branch }, trial.who.plan, self.names)
    }

    fn missed(&self, came: Came, branch: &Branch, trial: &Trial) -> String {
        let plan = trial.who.plan;
        let literal = trial.before.apply(&branch.literal);
        let why = match came {
            Came::Unbound => format!("{} unbound", self.unbound(&literal, plan)),
            Came::TableFull => format!("the table has {MOST_BELIEFS} beliefs"),
            Came::OppositeHeld => format!("its opposite {} is believed", self.names.literal(&literal.opposite(), None)),
            Came::StackFull => "its stack has 8 instances, and a goal would need a ninth".into(),
            Came::PanelZero => "the panel's length is 0".into(),
            Came::ResultBound(variable) => format!("{} is bound already", self.names.variable(plan, variable)),
            _ => String::new(),
        };
        if branch.kind == QUERY {
            format!("no belief answers, and it cannot be a goal: {why}")
        } else {
            why
        }
    }

    /// Where a missed branch stands in the source, and what the instance does next.
    fn next_try(&self, trial: &Trial, text: &mut String) {
        if let Some((file, line)) = self.names.place(trial.who.plan, trial.at.state, trial.at.branch) {
            text.push_str(&format!("   ({file}:{line})"));
        }
        let next = Place { branch: trial.at.branch + 1, ..trial.at };
        match branch_at(self.library, trial.who.plan, next) {
            Some(branch) => self.note(text, &format!("next: {}", self.branch(branch, trial))),
            None => self.note(text, "nothing is left to try"),
        }
    }
}

fn without_effect(branch: &Branch, step: &Step) -> &'static str {
    match (branch.kind, step.changes.is_empty()) {
        (ADD, true) => ": believed already",
        (_, true) => ": was not believed",
        _ => "",
    }
}

/// Whether two actions do one thing, by predicate and first term: one panel cut from two bolts.
pub fn is_same_deed(one: &Literal, other: &Literal) -> bool {
    one.predicate == other.predicate && one.terms[0] == other.terms[0]
}
