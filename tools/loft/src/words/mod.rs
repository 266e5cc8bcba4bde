//! A step in words, by the names of the plan language, with its reasons.

mod choice;
mod end;
mod trial;

use crate::library::*;
use crate::model::environment::Environment;
use crate::model::situation::DeadEnd;
use crate::model::step::*;
use crate::model::table::Change;
use crate::names::Names;
pub use trial::is_same_deed;

/// Where the lines below a step's first one begin.
const INDENT: &str = "         ";

/// A variable of the source without a name.
const NAMELESS: &str = "_";

/// What is told of a step.
pub struct Words<'a> {
    pub library: &'a Library,
    pub names: &'a Names,
    /// Whether plans for other events are named too.
    pub all: bool,
}

impl Words<'_> {
    /// Writes a step: a first line without an end, then a line for each reason and change.
    pub fn tell(&self, call: &[u8], step: &Step, text: &mut String) {
        match &step.why {
            Why::Report(event) => self.report(event, step, text),
            Why::Idle(idle) => self.idle(idle, text),
            Why::Choice(choice) => self.choice(choice, step, text),
            Why::Trial(trial) => self.trial(trial, step, text),
            Why::End(end) => self.end(end, step, text),
            Why::Refused(refused) => self.refused(refused, step, call, text),
        }
    }

    pub fn who(&self, who: Who) -> String {
        format!("{}#{}", self.names.plan(who.plan), who.id)
    }

    /// An event as a trigger of the language names it.
    pub fn event(&self, event: &Matter) -> String {
        let word = match event.kind {
            ADDED => "gained",
            REMOVED => "lost",
            TOLD => "told",
            ACHIEVE => "achieve",
            _ => "answer",
        };
        format!("{word} {}", self.names.literal(&event.literal, None))
    }

    fn note(&self, text: &mut String, words: &str) {
        text.push('\n');
        text.push_str(INDENT);
        text.push_str(words);
    }

    fn changes(&self, changes: &[Change], text: &mut String) {
        for (place, change) in changes.iter().enumerate() {
            let sign = if change.removes { '-' } else { '+' };
            let next = changes.get(place + 1);
            let gives_way = change.removes && next.is_some_and(|next| !next.removes && next.literal == change.literal.opposite());
            let why = if gives_way { "   (gives way to its opposite)" } else { "" };
            self.note(text, &format!("{sign} {}{why}", self.names.literal(&change.literal, None)));
        }
    }

    fn report(&self, event: &Matter, step: &Step, text: &mut String) {
        let number = step.external.unwrap_or(0);
        text.push_str(&format!("event {number}: {}", self.event(event)));
        match event.kind {
            ADDED if step.changes.is_empty() => text.push_str(": believed already"),
            REMOVED if step.changes.is_empty() => text.push_str(": was not believed"),
            _ => {}
        }
        self.changes(&step.changes, text);
    }

    fn idle(&self, idle: &Idle, text: &mut String) {
        text.push_str("idle: ");
        if idle.waiting.is_empty() {
            text.push_str("nothing to do");
        }
        let waits: Vec<String> = idle
            .waiting
            .iter()
            .map(|(who, literal)| format!("{} waits for {}", self.who(*who), self.names.literal(literal, None)))
            .collect();
        text.push_str(&waits.join(", "));
        if !idle.held_back.is_empty() {
            let events = listed(idle.held_back.iter().map(u32::to_string));
            self.note(text, &format!("all 8 stacks are taken, so these events are not begun: {events}"));
        }
    }

    /// The variables with a name that are bound in one environment and not in another.
    fn bound(&self, plan: usize, environment: &Environment, before: &Environment) -> String {
        let new = environment.bound().filter(|(variable, _)| before.get(*variable).is_none());
        let named =
            new.map(|(variable, constant)| (self.names.variable(plan, variable), self.names.value(plan, variable, constant)));
        listed(named.filter(|(name, _)| name != NAMELESS).map(|(name, value)| format!("{name} = {value}")))
    }

    /// Why no alternative of a situation holds.
    fn dead_ends(&self, situation: &[Vec<Literal>], dead_ends: &[DeadEnd], from: &Environment, plan: usize) -> String {
        if situation.is_empty() {
            return "it has no alternatives, so it never holds".into();
        }
        let show = |literal: &Literal| self.names.literal(&from.apply(literal), Some(plan));
        let reasons = dead_ends.iter().map(|end| {
            let literals = &situation[end.alternative];
            let missing = show(&literals[end.literal]);
            match end.literal {
                0 => format!("no belief {missing}"),
                before => format!("no belief {missing} together with {}", listed(literals[..before].iter().map(show))),
            }
        });
        reasons.collect::<Vec<_>>().join("; and ")
    }

    fn unbound(&self, literal: &Literal, plan: usize) -> String {
        let mut names: Vec<String> = literal.variables().map(|variable| self.names.variable(plan, variable)).collect();
        names.dedup();
        format!("{} {}", names.join(" and "), if names.len() == 1 { "is" } else { "are" })
    }
}

fn listed(words: impl Iterator<Item = String>) -> String {
    words.collect::<Vec<_>>().join(", ")
}

pub fn plural(count: usize, word: &str) -> String {
    if count == 1 {
        word.to_string()
    } else {
        format!("{word}s")
    }
}
